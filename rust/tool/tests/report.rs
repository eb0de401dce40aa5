//! `report` in a user's hands: every rule that is broken, what is certain of it, and what each lead answers.

mod common;

use std::fs::File;

use common::folder::Folder;
use common::record::{seal, section};
use common::{run, sample, samples, Ran, NOTE};
use serde_json::{json, Value};

impl Ran {
    fn json(&self) -> Value {
        serde_json::from_str(&self.out).unwrap()
    }
}

/// The rules that are broken, and whether that is certain.
fn broken(shown: &Value) -> Vec<(u64, bool)> {
    let rules = shown["rules"].as_array().unwrap().iter();
    rules
        .filter(|rule| rule["broken"] == true)
        .map(|rule| (rule["number"].as_u64().unwrap(), rule["certain"] == true))
        .collect()
}

/// An accepted record keeps every rule; a refused one breaks the refusal's rule first, or some lead is refused with it.
#[test]
fn a_report_agrees_with_check() {
    for entry in samples().read_dir().unwrap() {
        let name = entry.unwrap().file_name().into_string().unwrap();
        let (check, report) = (
            run(&["check", &name, "--json"]),
            run(&["report", &name, "--json"]),
        );
        assert_eq!(
            (report.status, report.err.as_str()),
            (check.status, ""),
            "{name}"
        );
        let checked: Value = serde_json::from_str(check.first_line()).unwrap();
        let shown = report.json();
        for key in ["file", "bytes", "lead", "lead_count", "compared"] {
            assert_eq!(shown[key], checked[key], "{name}");
        }
        assert_eq!(shown["refusal"], checked["refusal"]);
        assert_eq!(shown["rules"].as_array().unwrap().len(), 9);
        assert_eq!(shown.get("note").is_some(), report.status == 1);
        let first = match shown["refusal"].as_u64() {
            Some(number @ 1..=9) => Some((number, true)),
            _ => None,
        };
        assert_eq!(broken(&shown).first().copied(), first, "{name}");
        assert_eq!(
            shown.get("caution").is_some(),
            first.is_some_and(|first| first.0 < 9)
        );
    }
}

#[test]
fn a_sound_record_is_reported() {
    let text = "\
beat.scp: accepted (418 bytes; 2 leads)
  Rule                           Answer
     1  length                   kept
     2  record check             kept
     3  Section 0                kept
     4  places and headers       kept
     5  section checks           kept
     6  Section 1                kept
     7  Section 2                kept
     8  Sections 3 to 6          kept
     9  bimodal, step, interval  kept

  Lead      Answer    Structures compared
     1  I   accepted                  225
     2  II  accepted                  178
";
    let ran = run(&["report", "beat.scp"]);
    assert_eq!((ran.status, ran.out.as_str()), (0, text));
    let ran = run(&["report", "007.scp"]);
    assert_eq!(ran.status, 0);
    assert!(ran
        .out
        .ends_with("\nNo lead is read: there is neither Section 3 nor Section 6\n"));
}

/// A record's structures compared are those of its leads together.
#[test]
fn the_structures_compared_are_summed_up() {
    for name in ["limb-leads.scp", "own-tables.scp", "padded.scp", "007.scp"] {
        let shown = run(&["report", name, "--json"]).json();
        let leads = shown["leads"].as_array().unwrap().iter();
        let compared: u64 = leads.map(|lead| lead["compared"].as_u64().unwrap()).sum();
        assert_eq!(shown["compared"], compared, "{name}");
    }
}

/// Two rules broken at once: the smaller is certain, the other is not, and both are shown with what was found.
#[test]
fn every_rule_that_is_broken_is_shown() {
    let folder = Folder::new("two-rules");
    let mut record = sample("refused-9.scp");
    let at = section(&record, 1);
    record[at + 16 + 3 + 3] = b'!'; // the NUL of the identifier
    seal(&mut record);
    let file = folder.file("two.scp", &record);
    let ran = run(&["report", &file]);
    assert_eq!(ran.status, 1);
    assert_eq!(
        ran.first_line(),
        format!("{file}: refused, number 6 (418 bytes)")
    );
    for lines in [
        "     5  section checks           kept\n     6  Section 1                broken\n",
        "     8  Sections 3 to 6          probably kept\n     9  bimodal, step, interval  probably broken\n",
        "\nRule 6, Section 1: broken\n  rule broken  Section 1 is complete fields",
        "\n  found        tag 2 has no NUL at its end (byte 159)\n",
        "\nRule 9, bimodal, step, interval: probably broken\n  found        the interval is 1000 in Section 5 and 2000",
        "\nNo lead is read: the record is refused, number 6\n",
        "\nRules 7 to 9 were asked alone, of bytes that break rule 6: the answer is a hint, and not certain.\n",
        "\nThe proved library decided; the explanation is not proved.\n",
    ] {
        assert!(ran.out.contains(lines), "{lines}\n{}", ran.out);
    }
    let shown = run(&["report", &file, "--json"]).json();
    assert_eq!(broken(&shown), [(6, true), (9, false)]);
    assert_eq!(shown["rules"][8]["name"], "bimodal, step, interval");
    let found = json!(["the interval is 1000 in Section 5 and 2000 in Section 6"]);
    assert_eq!(shown["rules"][8]["found"], found);
    assert_eq!(shown["leads"], json!([]));
}

/// Each lead has an answer of its own.
#[test]
fn every_lead_is_read() {
    for (number, compared) in [(12, 67), (13, 225), (14, 67)] {
        let name = format!("refused-{number}.scp");
        let ran = run(&["report", &name]);
        assert_eq!(ran.status, 1);
        let rows = format!(
            "\n  Lead      Answer              Structures compared\n     \
             1  I   accepted           {compared:>20}\n     \
             2  II  refused, number {number}\n"
        );
        assert!(ran.out.contains(&rows), "{}", ran.out);
        assert!(ran.out.contains(&format!(
            "\nLead 2, II: refused, number {number}\n  rule broken  "
        )));
        let shown = run(&["report", &name, "--json"]).json();
        assert_eq!(broken(&shown), []);
        let leads = shown["leads"].as_array().unwrap();
        assert_eq!((leads.len(), &leads[0]["refusal"]), (2, &json!(null)));
        assert_eq!(leads[1]["refusal"], number);
        assert_eq!(leads[0]["compared"], compared);
        assert!(leads[1].get("compared").is_none());
        assert!(shown.get("compared").is_none());
        assert!(leads[0].get("samples").is_none());
    }
    let ran = run(&["report", "refused-10.scp"]);
    for text in [
        "\nNo lead is read: the record is refused, number 10\n  rule broken  ",
        "\n  found        Section 6 is absent\n",
    ] {
        assert!(ran.out.contains(text), "{}", ran.out);
    }
}

/// The second lead of two that are refused is shown as well.
#[test]
fn all_leads_that_are_refused_are_shown() {
    let folder = Folder::new("two-leads");
    let mut record = sample("own-tables.scp");
    let at = section(&record, 6);
    let end = at + u32::from_le_bytes([4, 5, 6, 7].map(|k| record[at + k])) as usize;
    record[at + 16 + 10..end].fill(0xFF);
    seal(&mut record);
    let file = folder.file("leads.scp", &record);
    let shown = run(&["report", &file, "--json"]).json();
    assert_eq!((&shown["refusal"], &shown["lead"]), (&json!(12), &json!(1)));
    for lead in shown["leads"].as_array().unwrap() {
        assert_eq!(lead["refusal"], 12, "{shown}");
    }
}

/// A record that is refused as a whole may have no lead: nothing is said of leads that are not there.
#[test]
fn a_refused_record_is_said_to_have_no_lead_read() {
    let ran = run(&["report", "refused-5.scp"]);
    let text = "\n\nNo lead is read: the record is refused, number 5\n\n";
    assert!(ran.out.contains(text), "{}", ran.out);
    assert!(!ran.out.contains("all are refused"), "{}", ran.out);
}

#[test]
fn the_rules_that_are_not_certain_are_named() {
    for (number, rules) in [
        (8, "Rule 9 was"),
        (7, "Rules 8 and 9 were"),
        (6, "Rules 7 to 9 were"),
    ] {
        let ran = run(&["report", &format!("refused-{number}.scp")]);
        let text = format!("\n{rules} asked alone, of bytes that break rule {number}: ");
        assert!(ran.out.contains(&text), "{}", ran.out);
    }
}

/// A file that is no record is said to be none first, and no rule has an empty explanation.
#[test]
fn a_file_that_is_no_record_is_said_to_be_none() {
    let folder = Folder::new("foreign");
    for text in ["A letter to nobody. ".repeat(20), String::new()] {
        let file = folder.file("letter.txt", text.as_bytes());
        let ran = run(&["report", &file]);
        let words = ran.out.lines().nth(1).unwrap();
        let words = words.strip_prefix("  found        ").unwrap();
        assert!(words.contains("SCP-ECG record"), "{words}");
        assert!(!ran.out.contains("nothing that"), "{}", ran.out);
        assert!(
            ran.out
                .contains("\n     6  Section 1                probably broken\n"),
            "{}",
            ran.out
        );
        assert!(!ran.out.contains("\nRule 6"), "{}", ran.out);
        assert!(ran.out.contains(NOTE));
        let shown = run(&["report", &file, "--json"]).json();
        assert_eq!(shown["found"][0], words);
        assert_eq!(shown["rules"][5]["found"], json!([]));
        // so do the other commands
        let line = run(&["check", &file]).out;
        assert!(
            line.contains(&format!("; found: {words}; the length is ")),
            "{line}"
        );
        for command in ["check", "open"] {
            let ran = run(&[command, &file, "--json"]);
            let told: Value = serde_json::from_str(ran.first_line()).unwrap();
            assert_eq!(told["found"][0], words, "{command}");
        }
        for command in ["open", "fields", "leads", "samples"] {
            let third = run(&[command, &file]).out;
            let third = third.lines().nth(2).map(str::to_string);
            assert_eq!(third, Some(format!("  found        {words}")), "{command}");
        }
    }
    let shown = run(&["report", "refused-2.scp", "--json"]).json();
    let found = shown["found"][0].as_str().unwrap();
    assert!(found.starts_with("the CRC stored"), "{found}");
}

/// A file that is too long is not read whole, and only the rule on its length is asked.
#[test]
fn a_long_file_is_asked_for_its_length() {
    let folder = Folder::new("long-report");
    let file = folder.file("long.scp", &sample("beat.scp"));
    let long = File::options().write(true).open(&file).unwrap();
    long.set_len(1 << 32).unwrap();
    let ran = run(&["report", &file, "--json"]);
    let shown = ran.json();
    assert_eq!((ran.status, &shown["bytes"]), (1, &json!(1_u64 << 32)));
    assert_eq!(broken(&shown), [(1, true)]);
    assert_eq!(shown["rules"].as_array().unwrap().len(), 1);
    assert!(shown.get("caution").is_none());
}

/// Whatever the bytes are, the first rule that is broken is the refusal.
#[test]
fn damaged_records_are_reported() {
    let folder = Folder::new("damaged");
    let mut record = sample("beat.scp");
    for (number, damage) in [
        (2, (|record| record[300] ^= 1) as fn(&mut Vec<u8>)),
        (1, |record| record.truncate(200)),
        (1, |record| record.truncate(20)),
        (1, |record| record.clear()),
    ] {
        damage(&mut record);
        let file = folder.file("damaged.scp", &record);
        let ran = run(&["report", &file]);
        assert!(
            ran.first_line()
                .contains(&format!("refused, number {number} (")),
            "{}",
            ran.out
        );
        let shown = run(&["report", &file, "--json"]).json();
        assert_eq!(broken(&shown)[0], (number, true));
        assert!(broken(&shown)[1..].iter().all(|rule| !rule.1));
    }
}
