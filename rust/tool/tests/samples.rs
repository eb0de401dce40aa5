//! The tool on every sample: its exit status and the first line that it shows, and what else a sample is there for.

mod common;

use std::collections::BTreeSet;
use std::fs;

use common::folder::Folder;
use common::{run, samples, NOTE};
use serde_json::Value;

/// A sample, and the first line of `open` and of `fields` after its name.
const SAMPLES: [(&str, i32, &str, &str); 21] = [
    (
        "007.scp",
        0,
        "accepted (196 bytes; 12 pointers, 2 sections present)",
        "accepted (5 fields)",
    ),
    (
        "7.scp",
        0,
        "accepted (194 bytes; 12 pointers, 2 sections present)",
        "accepted (5 fields)",
    ),
    (
        "two-leads.scp",
        0,
        "accepted (372 bytes; 12 pointers, 4 sections present)",
        "accepted (5 fields)",
    ),
    (
        "makers-sections.scp",
        0,
        "accepted (296 bytes; 15 pointers, 4 sections present)",
        "accepted (5 fields)",
    ),
    (
        "limb-leads.scp",
        0,
        "accepted (410 bytes; 12 pointers, 5 sections present)",
        "accepted (5 fields)",
    ),
    (
        "own-tables.scp",
        0,
        "accepted (408 bytes; 12 pointers, 5 sections present)",
        "accepted (5 fields)",
    ),
    (
        "beat.scp",
        0,
        "accepted (418 bytes; 12 pointers, 7 sections present)",
        "accepted (5 fields)",
    ),
    (
        "padded.scp",
        0,
        "accepted (420 bytes; 12 pointers, 7 sections present)",
        "accepted (5 fields)",
    ),
    (
        "refused-1.scp",
        1,
        "refused, number 1 (352 bytes)",
        "refused, number 1 (352 bytes)",
    ),
    (
        "refused-2.scp",
        1,
        "refused, number 2 (372 bytes)",
        "refused, number 2 (372 bytes)",
    ),
    (
        "refused-3.scp",
        1,
        "refused, number 3 (216 bytes)",
        "refused, number 3 (216 bytes)",
    ),
    (
        "refused-4.scp",
        1,
        "refused, number 4 (236 bytes)",
        "refused, number 4 (236 bytes)",
    ),
    (
        "refused-5.scp",
        1,
        "refused, number 5 (196 bytes)",
        "refused, number 5 (196 bytes)",
    ),
    (
        "refused-6.scp",
        1,
        "refused, number 6 (194 bytes)",
        "refused, number 6 (194 bytes)",
    ),
    (
        "refused-7.scp",
        0,
        "accepted (346 bytes; 12 pointers, 5 sections present)",
        "accepted (5 fields)",
    ),
    (
        "refused-8.scp",
        0,
        "accepted (418 bytes; 12 pointers, 7 sections present)",
        "accepted (5 fields)",
    ),
    (
        "refused-9.scp",
        0,
        "accepted (418 bytes; 12 pointers, 7 sections present)",
        "accepted (5 fields)",
    ),
    (
        "refused-10.scp",
        0,
        "accepted (232 bytes; 12 pointers, 3 sections present)",
        "accepted (5 fields)",
    ),
    (
        "refused-12.scp",
        0,
        "accepted (406 bytes; 12 pointers, 5 sections present)",
        "accepted (5 fields)",
    ),
    (
        "refused-13.scp",
        0,
        "accepted (414 bytes; 12 pointers, 7 sections present)",
        "accepted (5 fields)",
    ),
    (
        "refused-14.scp",
        0,
        "accepted (410 bytes; 12 pointers, 5 sections present)",
        "accepted (5 fields)",
    ),
];

/// A sample that opens, and the status and the first line of `leads` and of `samples` after its name.
const LEADS: [(&str, [(i32, &str); 2]); 15] = [
    (
        "007.scp",
        [(1, "absent, number 10 (196 bytes): the record has no leads"); 2],
    ),
    (
        "7.scp",
        [(1, "absent, number 10 (194 bytes): the record has no leads"); 2],
    ),
    (
        "makers-sections.scp",
        [(1, "absent, number 10 (296 bytes): the record has no leads"); 2],
    ),
    (
        "two-leads.scp",
        [
            (
                0,
                "accepted (2 leads; flags 0x00, no reference beat was subtracted)",
            ),
            (0, "accepted (2 leads)"),
        ],
    ),
    (
        "limb-leads.scp",
        [
            (
                0,
                "accepted (6 leads; flags 0x18, no reference beat was subtracted)",
            ),
            (0, "accepted (6 leads)"),
        ],
    ),
    (
        "own-tables.scp",
        [
            (
                0,
                "accepted (2 leads; flags 0x00, no reference beat was subtracted)",
            ),
            (0, "accepted (2 leads)"),
        ],
    ),
    (
        "beat.scp",
        [
            (
                0,
                "accepted (2 leads; flags 0x05, a reference beat was subtracted)",
            ),
            (0, "accepted (2 leads)"),
        ],
    ),
    (
        "padded.scp",
        [
            (
                0,
                "accepted (2 leads; flags 0x05, a reference beat was subtracted)",
            ),
            (0, "accepted (2 leads)"),
        ],
    ),
    ("refused-7.scp", [(1, "refused, number 7 (346 bytes)"); 2]),
    ("refused-8.scp", [(1, "refused, number 8 (418 bytes)"); 2]),
    ("refused-9.scp", [(1, "refused, number 9 (418 bytes)"); 2]),
    ("refused-10.scp", [(1, "refused, number 10 (232 bytes)"); 2]),
    (
        "refused-12.scp",
        [
            (
                0,
                "accepted (2 leads; flags 0x00, no reference beat was subtracted)",
            ),
            (1, "1 of 2 leads refused"),
        ],
    ),
    (
        "refused-13.scp",
        [
            (
                0,
                "accepted (2 leads; flags 0x05, a reference beat was subtracted)",
            ),
            (1, "1 of 2 leads refused"),
        ],
    ),
    (
        "refused-14.scp",
        [
            (
                0,
                "accepted (2 leads; flags 0x00, no reference beat was subtracted)",
            ),
            (1, "1 of 2 leads refused"),
        ],
    ),
];

#[test]
fn each_sample_is_here() {
    let known: BTreeSet<_> = SAMPLES.iter().map(|sample| sample.0.to_string()).collect();
    let there: BTreeSet<_> = fs::read_dir(samples())
        .unwrap()
        .map(|entry| entry.unwrap().file_name().into_string().unwrap())
        .filter(|name| name.ends_with(".scp"))
        .collect();
    assert_eq!(known, there);
}

#[test]
fn each_sample_is_opened() {
    for (name, status, line, _) in SAMPLES {
        let ran = run(&["open", name]);
        assert_eq!(ran.first_line(), format!("{name}: {line}"));
        assert_eq!((ran.status, ran.err.as_str()), (status, ""), "{name}");
    }
}

#[test]
fn the_fields_of_each_sample_are_shown() {
    for (name, status, _, line) in SAMPLES {
        let ran = run(&["fields", name]);
        assert_eq!(ran.first_line(), format!("{name}: {line}"));
        assert_eq!((ran.status, ran.err.as_str()), (status, ""), "{name}");
    }
}

#[test]
fn all_samples_are_opened_at_once() {
    let mut words = vec!["open"];
    words.extend(SAMPLES.iter().map(|sample| sample.0));
    let ran = run(&words);
    assert_eq!(ran.status, 1);
    assert!(ran
        .out
        .ends_with("\n21 files: 15 accepted, 6 refused, 0 not read\n"));
    for (name, _, line, _) in SAMPLES {
        assert!(ran.out.contains(&format!("{name}: {line}\n")), "{name}");
    }
}

#[test]
fn pointers_are_shown_as_they_are_stored() {
    let ran = run(&["open", "makers-sections.scp"]);
    for line in [
        "    ID  Section                Length  Index",
        "     0  pointers                  166      7  present",
        "     1  patient and recording      56    173  present",
        "    11  diagnosis as codes          0      0  absent",
        "   128  maker's own                 0      0  absent",
        "   200  maker's own                44    229  present",
        "  1023  maker's own                16    278  present",
    ] {
        assert!(
            ran.out.lines().any(|shown| shown == line),
            "{line}\n{}",
            ran.out
        );
    }
}

#[test]
fn a_refusal_is_explained() {
    for (name, found) in [
        ("refused-1.scp", "the size field says 372"),
        (
            "refused-2.scp",
            "the CRC stored is 0x5937, and the bytes give 0x5A44",
        ),
        ("refused-3.scp", "pointer 14 has ID 128, not over 200"),
        (
            "refused-4.scp",
            "Section 8 (bytes 213 to 232) overlaps Section 7 (bytes 197 to 236)",
        ),
        (
            "refused-5.scp",
            "Section 1, patient and recording: the CRC stored is 0x5C64, and the bytes give 0x4C45",
        ),
        ("refused-6.scp", "tag 2 has no NUL at its end"),
    ] {
        let ran = run(&["open", name]);
        assert!(ran.out.contains(found), "{found}\n{}", ran.out);
        assert!(ran.out.contains(NOTE), "{}", ran.out);
    }
}

/// A record that opens is in one table, and one that does not is refused alike by every command.
#[test]
fn the_leads_of_each_sample_are_shown() {
    for (name, opened, line, _) in SAMPLES {
        let known = LEADS.iter().find(|sample| sample.0 == name);
        assert_eq!(known.is_some(), opened == 0, "{name}");
        let expected = known.map_or([(1, line); 2], |known| known.1);
        for (command, (status, line)) in ["leads", "samples"].into_iter().zip(expected) {
            let ran = run(&[command, name]);
            assert_eq!(ran.first_line(), format!("{name}: {line}"), "{command}");
            let ended = (ran.status, ran.err.as_str());
            assert_eq!(ended, (status, ""), "{command} {name}");
            let ran = run(&[command, name, "--json"]);
            assert_eq!((ran.status, ran.err.as_str()), (status, ""), "{name}");
            let json: Value = serde_json::from_str(&ran.out).unwrap();
            assert_eq!(json["file"], name);
            assert_eq!(json["refusal"].is_null(), status == 0);
        }
    }
}

#[test]
fn a_refusal_of_leads_is_explained() {
    for (name, found) in [
        ("refused-7.scp", "table 2, structure 3: prefix 101 begins with that of structure 2, 10"),
        ("refused-8.scp", "QRS 2: the zone starts at 10, and the one before it ends at 10"),
        ("refused-9.scp", "the interval is 1000 in Section 5 and 2000 in Section 6"),
        ("refused-10.scp", "found        Section 6 is absent\n"),
        ("refused-12.scp", "Section 6, lead 2: no value for sample 13: the stream ends inside the code at bit 47 of 48"),
        ("refused-13.scp", "sample 6 is 32,820 with beat sample 4 added"),
        ("refused-14.scp", "Section 6, lead 2: 20 bits are left of 72 after the last sample"),
    ] {
        let ran = run(&["samples", name]);
        assert!(ran.out.contains(found), "{found}\n{}", ran.out);
        assert!(ran.out.contains(NOTE), "{}", ran.out);
        let ran = run(&["samples", name, "--csv"]);
        assert_eq!(ran.status, 1);
        assert!(ran.err.contains(found.lines().next().unwrap()), "{found}\n{}", ran.err);
        assert!(ran.err.contains(NOTE), "{}", ran.err);
    }
}

#[test]
fn leads_are_shown_with_their_names() {
    let ran = run(&["leads", "limb-leads.scp"]);
    for line in [
        "  Place  ID  Lead  First  Last  Samples  Step (nV)  Interval (us)  Order  Bits a sample",
        "      1   1  I         1    40       40       5000           2000      2           4.20",
        "      3  61  III       1    40       40       5000           2000      2           3.60",
        "      6  64  aVF      41    80       40       5000           2000      2           2.00",
    ] {
        assert!(
            ran.out.lines().any(|shown| shown == line),
            "{line}\n{}",
            ran.out
        );
    }
}

#[test]
fn samples_are_shown_as_they_are_stored() {
    let ran = run(&["samples", "two-leads.scp"]);
    let text = "\
two-leads.scp: accepted (2 leads)

Lead 1, I: samples 1 to 8, in steps of 5000 nV, 2000 us apart; 0 structures compared
  1   10  12  13  15  18  22  20  15

Lead 2, II: samples 1 to 8, in steps of 5000 nV, 2000 us apart; 0 structures compared
  1   -3  -3  -2  -1   4   0  -1  -1
";
    assert_eq!(ran.out, text);
    let ran = run(&["samples", "own-tables.scp", "--lead", "2"]);
    let text = "\
own-tables.scp: accepted (lead 2 of 2)

Lead 2, II: samples 7 to 14, in steps of 5000 nV, 2000 us apart; 21 structures compared
   7     15    15     0  -128   127     1     1     1
";
    assert_eq!(ran.out, text);
}

/// A sample with leads, and how many structures reading each compares, worked out from the papers alone. The first lead of
/// `own-tables.scp` is P5, with both switches.
const COMPARED: [(&str, &[u32]); 5] = [
    ("two-leads.scp", &[0, 0]),
    ("limb-leads.scp", &[160, 168, 152, 59, 80, 70]),
    ("own-tables.scp", &[67, 21]),
    ("beat.scp", &[225, 178]),
    ("padded.scp", &[272, 206]),
];

/// Each lead has the structures compared beside what else is read of it, as text and as JSON; the table of samples has not.
#[test]
fn the_structures_compared_are_shown() {
    for (name, compared) in COMPARED {
        let text = run(&["samples", name]).out;
        let heads = text.lines().filter(|line| line.starts_with("Lead "));
        let ends = heads.filter_map(|head| Some(head.split_once(" us apart; ")?.1));
        let told = |many: &u32| format!("{many} structures compared");
        let told: Vec<String> = compared.iter().map(told).collect();
        assert_eq!(ends.collect::<Vec<_>>(), told, "{name}");
        let shown = json(&["samples", name, "--json"]);
        for (place, many) in compared.iter().enumerate() {
            assert_eq!(shown["leads"][place]["compared"], *many, "{name}");
            let place = (place + 1).to_string();
            let one = json(&["samples", name, "--json", "--lead", &place]);
            assert_eq!(one["leads"][0]["compared"], *many, "{name}");
        }
        for words in [["samples", "--csv", name], ["leads", "--json", name]] {
            assert!(!run(&words).out.contains("compared"), "{words:?}");
        }
    }
}

/// Padding is ignored, whatever it holds: each form shows the samples of `beat.scp`. As they are second differences, other
/// structures are compared.
#[test]
fn padded_leads_are_those_of_the_beat() {
    for words in [
        &["samples"][..],
        &["samples", "--lead", "1"],
        &["samples", "--lead", "2"],
        &["samples", "--csv"],
    ] {
        let shown = |name| run(&[words, &[name]].concat());
        let (padded, beat) = (shown("padded.scp"), shown("beat.scp"));
        assert_eq!((padded.status, padded.err.as_str()), (0, ""), "{words:?}");
        let padded = padded.out.replace("padded.scp", "beat.scp");
        let lines = |shown: &str| -> Vec<String> {
            let before = |line: &str| line.split(';').next().map(str::to_string);
            shown.lines().filter_map(before).collect()
        };
        assert_eq!(lines(&padded), lines(&beat.out));
    }
    let lead = |name| json(&["samples", name, "--json"])["leads"].take();
    let (padded, beat) = (lead("padded.scp"), lead("beat.scp"));
    for place in [0, 1] {
        assert_eq!(padded[place]["samples"], beat[place]["samples"]);
    }
}

#[test]
fn a_table_has_a_column_for_each_lead() {
    let ran = run(&["samples", "own-tables.scp", "--csv"]);
    let rows: Vec<&str> = ran.out.split("\r\n").collect();
    assert_eq!(rows[0], "sample,1 I (5000 nV),2 II (5000 nV)");
    assert_eq!(
        rows[1..9],
        ["1,1,", "2,2,", "3,-1,", "4,0,", "5,3,", "6,0,", "7,4,15", "8,1,15"]
    );
    assert_eq!(rows[20..], ["20,1,", ""]);
    let ran = run(&["samples", "limb-leads.scp", "--csv", "--lead", "4"]);
    let rows: Vec<&str> = ran.out.split("\r\n").collect();
    assert_eq!(rows[..2], ["sample,4 aVR (5000 nV)", "41,0"]);
    assert_eq!(rows.len(), 42);
    // A record that is refused has no table; a lead that is refused has an empty column.
    let ran = run(&["samples", "refused-9.scp", "--csv"]);
    assert_eq!((ran.status, ran.out.as_str()), (1, ""));
    let ran = run(&["samples", "refused-14.scp", "--csv"]);
    let rows: Vec<&str> = ran.out.split("\r\n").collect();
    assert_eq!(rows[0], "sample,1 I (5000 nV),2 II (refused 14)");
    assert_eq!(rows[12], "12,15,");
}

/// The tool's output for these words, as JSON.
fn json(words: &[&str]) -> Value {
    serde_json::from_str(&run(words).out).unwrap()
}

#[test]
fn json_says_what_there_is() {
    let shown = json(&["samples", "beat.scp", "--json"]);
    assert_eq!(shown["bytes"], 418);
    assert_eq!(shown["flags"], 5);
    assert_eq!(shown["reference_beat_subtracted"], true);
    assert_eq!(shown["step_nanovolts"], 5000);
    assert_eq!(shown["interval_microseconds"], 2000);
    assert_eq!(shown["difference_order"], 1);
    let lead = &shown["leads"][1];
    assert_eq!(
        (&lead["place"], &lead["id"], &lead["name"]),
        (&2.into(), &2.into(), &"II".into())
    );
    assert_eq!(
        (&lead["first_sample"], &lead["last_sample"]),
        (&5.into(), &30.into())
    );
    assert_eq!((&lead["count"], &lead["bytes"]), (&26.into(), &12.into()));
    assert_eq!(lead["bits_a_sample"], 3.69);
    assert!(lead["refusal"].is_null());
    assert_eq!(lead["samples"].as_array().unwrap()[..4], [28, 119, 80, -9]);

    let shown = json(&["leads", "beat.scp", "--json"]);
    assert_eq!(shown["leads"].as_array().unwrap().len(), 2);
    assert!(shown["leads"][0].get("samples").is_none());
}

#[test]
fn json_says_what_is_refused() {
    let shown = json(&["samples", "refused-12.scp", "--json"]);
    assert_eq!(shown["leads"][0]["samples"][1], 2);
    assert_eq!(shown["leads"][1]["refusal"], 12);
    assert_eq!(shown["leads"][0]["compared"], 67);
    assert!(shown["leads"][1].get("compared").is_none());
    assert_eq!(shown["refusal"], shown["leads"][1]["refusal"]);
    assert_eq!(shown["lead"], 2);
    let report = json(&["report", "refused-12.scp", "--json"]);
    for key in ["refusal", "lead"] {
        assert_eq!(shown[key], report[key], "{key}");
    }
    let first = json(&["samples", "refused-12.scp", "--lead", "1", "--json"]);
    assert!(first["refusal"].is_null() && first.get("lead").is_none());
    assert!(shown["leads"][1].get("samples").is_none());
    let shown = json(&["samples", "beat.scp", "--lead", "3", "--json"]);
    assert_eq!(shown["refusal"], 10);
    assert_eq!(shown["verdict"], "absent");
    let found = serde_json::json!(["the record has no lead 3: it has 2 leads"]);
    assert_eq!(shown["found"], found);
    assert!(shown.get("leads").is_none());
}

/// No command calls a record refused that check accepts.
#[test]
fn a_record_has_one_verdict() {
    let folder = Folder::new("one-verdict");
    let out = folder.path("out.scp");
    for (name, ..) in SAMPLES {
        let accepted = run(&["check", name]).status == 0;
        for words in [
            &["fields", name][..],
            &["leads", name],
            &["samples", name],
            &["samples", name, "--lead", "3"],
            &["samples", name, "--csv", "--lead", "3"],
            &["report", name],
            &["pack", name, &out, "--force"],
        ] {
            let ran = run(words);
            let told = format!("{}{}", ran.out, ran.err);
            let is_refused = told.contains("refused") && !told.contains("left alone");
            assert!(!(accepted && is_refused), "{words:?}: {told}");
        }
    }
}

/// A thing that is asked for is not there: the words, the number and the status, in each form.
#[test]
fn what_is_not_there_is_absent() {
    let folder = Folder::new("absent");
    let out = folder.path("out.scp");
    for (words, told) in [
        (&["leads", "007.scp"][..], "007.scp: absent, number 10 (196 bytes): the record has no leads\n"),
        (&["pack", "007.scp", &out], "007.scp: absent, number 10 (196 bytes): the record has no leads\n"),
        (&["samples", "007.scp", "--lead", "3"], "007.scp: absent, number 10 (196 bytes): the record has no leads\n"),
        (&["samples", "beat.scp", "--lead", "3"], "beat.scp: absent, number 10 (418 bytes): the record has no lead 3: it has 2 leads\n"),
        (&["samples", "beat.scp", "--lead", "0"], "beat.scp: absent, number 10 (418 bytes): the record has no lead 0: --lead starts at 1\n"),
    ] {
        let ran = run(words);
        assert_eq!((ran.status, ran.out.as_str(), ran.err.as_str()), (1, told, ""));
    }
    let ran = run(&["samples", "beat.scp", "--lead", "3", "--csv"]);
    assert_eq!((ran.status, ran.out.as_str()), (1, ""));
    assert!(
        ran.err
            .ends_with(": the record has no lead 3: it has 2 leads\n"),
        "{}",
        ran.err
    );
}

/// An identifier is its bytes: its zeros and its NUL are shown, and 007 is not 7.
#[test]
fn identifiers_are_shown_byte_for_byte() {
    for (name, line) in [
        (
            "007.scp",
            r#"    2       4  patient identifier  30 30 37 00              "007\0""#,
        ),
        (
            "7.scp",
            r#"    2       2  patient identifier  37 00                    "7\0""#,
        ),
    ] {
        let ran = run(&["fields", name]);
        assert!(ran.out.lines().any(|shown| shown == line), "{}", ran.out);
    }
}
