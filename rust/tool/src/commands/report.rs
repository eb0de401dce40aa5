//! `tigmavresh report FILE`: every rule that a record breaks, and what reading each of its leads answers.

use std::path::Path;

use scp::{Entry, Refusal};

use super::given::read_or_complain;
use crate::explain::{self, Looked};
use crate::input::Input;
use crate::json;
use crate::names;
use crate::output::Output;
use crate::paths::shown;
use crate::refused::{self, Refused};
use crate::status::Status;
use crate::table::{self, numbers, words, Column};
use crate::text::parted;
use crate::verdict::{Room, Verdict};

/// The last rule that is asked alone.
const ALONE: Refusal = Refusal::BIMODAL_STEP_INTERVAL;

const RULES: [Column; 3] = [numbers("Rule"), words(""), words("Answer")];
const LEADS: [Column; 4] = [
    numbers("Lead"),
    words(""),
    words("Answer"),
    numbers("Structures compared"),
];

/// The library's answer to a rule, asked alone.
struct Answer {
    /// The refusal of its rule.
    refusal: Refusal,
    is_broken: bool,
    /// Whether every rule before it is kept.
    is_certain: bool,
    /// Empty if the rule is kept, or if it is not certain that it is broken and nothing can be pointed at.
    found: Vec<String>,
}

/// The answer to reading a lead: how many structures were compared, or the refusal.
struct Read {
    place: usize,
    entry: Entry,
    answer: Result<u32, Refusal>,
}

/// All that was asked of a record.
struct Report<'a> {
    file: &'a Path,
    input: &'a Input,
    verdict: Verdict,
    answers: Vec<Answer>,
    leads: Vec<Read>,
}

/// Reports on a file, as text or as JSON.
pub fn run(file: &Path, json: bool, output: &mut Output) -> Status {
    let Some(input) = read_or_complain(file, json, output) else {
        return Status::NotDone;
    };
    let report = Report::of(file, &input);
    match json {
        true => output.line(json::text(&report.as_json())),
        false => report.show(output),
    }
    match report.verdict {
        Verdict::Accepted { .. } => Status::Accepted,
        Verdict::Refused { .. } => Status::Refused,
    }
}

impl Answer {
    fn number(&self) -> u8 {
        self.refusal.number()
    }

    fn name(&self) -> &'static str {
        self.refusal.name()
    }

    /// The answer in words.
    fn words(&self) -> String {
        let answer = if self.is_broken { "broken" } else { "kept" };
        match self.is_certain {
            true => answer.to_string(),
            false => format!("probably {answer}"),
        }
    }

    /// Shows the rule, where it is broken, and what was found.
    fn show(&self, output: &mut Output) {
        output.block();
        let (number, name, words) = (self.number(), self.name(), self.words());
        output.line(format_args!("Rule {number}, {name}: {words}"));
        output.lines(match self.is_certain {
            true => refused::told(self.refusal, &self.found),
            false => refused::found_lines(&self.found),
        });
    }
}

impl Read {
    fn words(&self) -> String {
        match self.answer {
            Ok(_) => "accepted".to_string(),
            Err(refusal) => format!("refused, number {}", refusal.number()),
        }
    }
}

/// Asks the rules one by one. A record that is too long was not read whole, and the first rule alone is asked.
fn answers(input: &Input) -> Vec<Answer> {
    let last = match input.bytes.len() > scp::RECORD_MAX {
        true => Refusal::LENGTH,
        false => ALONE,
    };
    let mut is_certain = true;
    let ask = |refusal: Refusal| {
        let is_broken = scp::breaks(&input.bytes, refusal.number());
        let looked = Looked::at(input, 1);
        let answer = Answer {
            refusal,
            is_broken,
            is_certain,
            found: match (is_broken, is_certain) {
                (true, true) => explain::found(&looked, refusal),
                (true, false) => explain::seen(&looked, refusal),
                (false, _) => Vec::new(),
            },
        };
        is_certain &= !is_broken;
        answer
    };
    Refusal::all()
        .take_while(|&refusal| refusal <= last)
        .map(ask)
        .collect()
}

/// Reads every lead, if the record has leads that can be asked for.
fn leads(record: &[u8]) -> Vec<Read> {
    let mut room = Room::default();
    let entries = scp::leads(record).unwrap_or_default();
    let read = |(place, entry)| Read {
        place,
        entry,
        answer: room.read(record, place).map(|(lead, _)| lead.compared),
    };
    (1..).zip(entries).map(read).collect()
}

impl<'a> Report<'a> {
    fn of(file: &'a Path, input: &'a Input) -> Report<'a> {
        Report {
            file,
            input,
            verdict: Verdict::of(&input.bytes, &mut Room::default()),
            answers: answers(input),
            leads: leads(&input.bytes),
        }
    }

    /// Which answers are not certain, if some are not.
    fn caution(&self) -> Option<String> {
        let first = self.answers.iter().find(|answer| answer.is_broken)?;
        let last = self.answers.last().filter(|last| !last.is_certain)?;
        let (broken, from, to) = (first.number(), first.number() + 1, last.number());
        let rules = match to - from {
            0 => format!("Rule {to} was"),
            1 => format!("Rules {from} and {to} were"),
            _ => format!("Rules {from} to {to} were"),
        };
        Some(format!(
            "{rules} asked alone, of bytes that break rule {broken}: the answer is a hint, and not certain."
        ))
    }

    /// The things found in the file as a whole.
    fn found(&self) -> Vec<String> {
        let foreign = explain::foreign(&self.input.bytes);
        foreign.into_iter().collect()
    }

    /// Why the record is refused, if it is.
    fn refused(&self) -> Option<Refused> {
        match self.verdict {
            Verdict::Refused { refusal, lead } => {
                Some(Refused::of(self.input, lead.unwrap_or(1), refusal))
            }
            Verdict::Accepted { .. } => None,
        }
    }

    // ---- text

    fn show(&self, output: &mut Output) {
        let told = self.verdict.told(self.input.size);
        output.line(format_args!("{}: {told}", shown(self.file)));
        output.lines(refused::found_lines(&self.found()));
        let rows: Vec<_> = self.answers.iter().map(rule_row).collect();
        output.lines(table::lines(&RULES, &rows));
        for answer in self.answers.iter().filter(|one| !one.found.is_empty()) {
            answer.show(output);
        }
        self.show_leads(output);
        if let Some(caution) = self.caution() {
            output.block();
            output.line(caution);
        }
        if matches!(self.verdict, Verdict::Refused { .. }) {
            refused::footnote(output);
        }
    }

    /// Shows what reading each lead answers, or why none is read.
    fn show_leads(&self, output: &mut Output) {
        output.block();
        match self.verdict {
            _ if !self.leads.is_empty() => {
                let rows: Vec<_> = self.leads.iter().map(lead_row).collect();
                output.lines(table::lines(&LEADS, &rows));
            }
            Verdict::Refused { refusal, .. } => {
                let number = refusal.number();
                output.line(format_args!(
                    "No lead is read: the record is refused, number {number}"
                ));
                if refusal > ALONE {
                    output.lines(Refused::of(self.input, 1, refusal).lines());
                }
            }
            Verdict::Accepted { .. } => {
                output.line("No lead is read: there is neither Section 3 nor Section 6");
            }
        }
        for lead in &self.leads {
            if let Err(refusal) = lead.answer {
                output.block();
                let (place, name) = (lead.place, names::lead(lead.entry.id));
                output.line(format_args!("Lead {place}, {name}: {}", lead.words()));
                output.lines(Refused::of(self.input, place, refusal).lines());
            }
        }
    }

    // ---- JSON

    fn as_json(&self) -> json::About<json::Report> {
        let rule = |answer: &Answer| json::Rule {
            number: answer.number(),
            name: answer.name(),
            broken: answer.is_broken,
            certain: answer.is_certain,
            found: answer.found.clone(),
        };
        let lead = |lead: &Read| {
            let refused = |refusal| Refused::of(self.input, lead.place, refusal);
            let answer = lead.answer.map_err(refused);
            json::Lead::new(lead.place, &lead.entry).answered(answer.as_ref().copied())
        };
        let report = json::Report {
            counted: json::Counted::of(self.verdict),
            rules: self.answers.iter().map(rule).collect(),
            leads: self.leads.iter().map(lead).collect(),
            caution: self.caution(),
        };
        let about = json::About::judged(self.file, self.input.size, self.refused().as_ref());
        let about = about.of_lead(self.verdict.lead());
        about.holding(Some(report)).noted()
    }
}

/// A rule's row of the table.
fn rule_row(answer: &Answer) -> [String; 3] {
    let name = answer.name().to_string();
    [answer.number().to_string(), name, answer.words()]
}

/// A lead's row of the table.
fn lead_row(lead: &Read) -> [String; 4] {
    let compared = lead.answer.map(|compared| parted(&compared.to_string()));
    [
        lead.place.to_string(),
        names::lead(lead.entry.id),
        lead.words(),
        compared.unwrap_or_default(),
    ]
}
