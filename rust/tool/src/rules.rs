//! A refusal in plain words, with an example: what `--explain` shows.

use scp::{Given, Refusal};

use crate::output::Output;
use crate::status::Status;

/// Shows a refusal in plain words.
pub fn show(refusal: Refusal, output: &mut Output) -> Status {
    let (number, name) = (refusal.number(), refusal.name());
    output.line(format_args!("Refusal {number}: {name}"));
    output.block();
    output.line(refusal.plain());
    output.block();
    output.line(format_args!("For example, {}", refusal.example()));
    if let Some(given) = refusal.given() {
        output.block();
        output.line(given_by(given));
    }
    Status::Accepted
}

/// Who meets a refusal, in a sentence.
fn given_by(given: Given) -> &'static str {
    match given {
        Given::Opening => "Given by every command that reads a record.",
        Given::OpeningAndWriting => "Given by every command that reads a record, and by write.",
        Given::Leads => "Given by leads, samples, check, report and pack.",
        Given::LeadsAndWriting => "Given by leads, samples, check, report, pack and write.",
        Given::LeadsAndAdding => "Given by leads, samples, check, report, pack and index add.",
        Given::Streams => "Given by samples, check, report and pack, for each lead by itself.",
        Given::Lending => "Only programs that call the library see this.",
        Given::Writing => "Given by write.",
        Given::Adding => "Given by index add.",
        Given::Indexes => {
            "Given by index add, index merge, index find, index list and index check."
        }
    }
}

#[cfg(test)]
mod tests {
    use scp::Refusal;

    /// The examples that no sample record is there for.
    #[test]
    fn the_examples_of_writing_are_true() {
        let shortest = |samples: &[i16], order| scp::shortest(&[], samples, order).err();
        let widest = [-32768, 32767, -32768];
        assert_eq!(shortest(&widest, 2), Some(Refusal::NO_STREAM));
        assert_eq!(shortest(&[0; 32_768], 0), Some(Refusal::TOO_LONG));
        assert_eq!(shortest(&[0; 32_767], 0), None);
        assert_eq!(shortest(&[], 0), Some(Refusal::WRITER_BOUNDS));
    }
}
