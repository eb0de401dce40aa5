//! Refusals: the one table of their numbers, with the words on each.
//!
//! All else that has a refusal's number, name or words takes them from here: the tool, the Python module (`python/backend.py`
//! reads this file) and the tests of the pages. The numbers may have gaps, and a row is found by its number.

use std::error::Error;
use std::fmt;

/// A refusal: the number of the rule that is broken, the smallest that applies.
#[derive(Clone, Copy, Debug, PartialEq, Eq, PartialOrd, Ord, Hash)]
pub struct Refusal(u8);

/// The calls that give a refusal.
#[derive(Clone, Copy, Debug, PartialEq, Eq)]
pub enum Given {
    /// All that judge a record.
    Opening,
    /// All that judge a record, and writing one.
    OpeningAndWriting,
    /// Those that ask for a lead.
    Leads,
    /// Those that ask for a lead, and those that encode one.
    LeadsAndWriting,
    /// Those that ask for a lead, and adding to an index.
    LeadsAndAdding,
    /// Reading a lead.
    Streams,
    /// All that are lent a buffer.
    Lending,
    /// Encoding a lead and writing a record.
    Writing,
    /// Adding a record to an index.
    Adding,
    /// All that judge an index.
    Indexes,
}

/// A refusal's row of the table.
struct Row {
    number: u8,
    /// The constant's name, as C and Python have it too.
    id: &'static str,
    /// The subject of the rule, in a word or two.
    name: &'static str,
    /// The rule, in a line.
    rule: &'static str,
    /// The same for a person who meets it.
    plain: &'static str,
    /// A record, or a job, that is refused: what goes on after "For example, ".
    example: &'static str,
    given: Given,
}

/// Makes a constant of each row, and the table of all.
macro_rules! refusals {
    ($($id:ident = $number:literal { $($column:ident: $value:expr,)* })*) => {
        impl Refusal {
            $(#[doc = concat!("Refusal ", $number, ".")] pub const $id: Refusal = Refusal($number);)*
        }

        /// The refusals, by rising numbers.
        const TABLE: &[Row] = &[$(Row { number: $number, id: stringify!($id), $($column: $value,)* }),*];
    };
}

refusals! {
    LENGTH = 1 {
        name: "length",
        rule: "a record has 142 to 1,048,576 bytes, as many as its size field says",
        plain: "\
A record has 142 to 1,048,576 bytes, and its bytes 3 to 6 say how many. One that
is shorter or longer, or says another number, was most often cut off on its way,
or is no SCP-ECG record at all.",
        example: "\
samples/refused-1.scp has lost its last twenty bytes: it says 372
and has 352.",
        given: Given::Opening,
    }
    RECORD_CHECK = 2 {
        name: "record check",
        rule: "a record's first two bytes are the CRC of all that follow",
        plain: "\
The first two bytes of a record are a checksum (CRC-CCITT) of all that follow. If
they do not match, some byte has changed since the record was written.",
        example: "\
samples/refused-2.scp has one bit changed: the CRC stored is 0x5937,
and its bytes give 0x5A44.",
        given: Given::Opening,
    }
    SECTION_0 = 3 {
        name: "Section 0",
        rule: "Section 0 has the letters SCPECG and 12 to 64 pointers: IDs 0 to 11, then rising ones, with a correct pointer to itself",
        plain: "\
Section 0 starts at byte 7 and says where the other sections are. It has the
letters SCPECG and 12 to 64 pointers: those of Sections 0 to 11 in order, then
others with IDs that rise from 12. Its pointer to itself says index 7 and its true
length.",
        example: "\
samples/refused-3.scp has the pointer with ID 200 before the one
with ID 128.",
        given: Given::Opening,
    }
    PLACES = 4 {
        name: "places and headers",
        rule: "sections lie inside the record and must not overlap; each has an even length of at least 16, and its header must match its pointer; Section 1 is present",
        plain: "\
A section that is present lies inside the record, after Section 0, and shares no
byte with another. Its length is even and at least 16, and its header has the ID
and the length of its pointer. Section 1 is always present.",
        example: "in samples/refused-4.scp Section 8 lies inside Section 7.",
        given: Given::Opening,
    }
    SECTION_CHECK = 5 {
        name: "section checks",
        rule: "each section's first two bytes are the CRC of its other bytes",
        plain: "\
The first two bytes of a section are the CRC of its other bytes, as those of the
record are of the whole.",
        example: "\
samples/refused-5.scp has one bit of Section 1 changed, and the
record's CRC made after that: Section 1's CRC is 0x5C64, and its bytes give 0x4C45.",
        given: Given::Opening,
    }
    SECTION_1 = 6 {
        name: "Section 1",
        rule: "Section 1 is complete fields and an end mark, with tags 2, 14, 25 and 26 once each and well formed",
        plain: "\
Section 1 is fields, each a tag, a length and that many bytes, and then the end
mark FF 00 00 with at most one byte after it. Tags 2, 14, 25 and 26 occur once each.
Tag 25, the date, has 4 bytes, and tag 26, the time, has 3. Tag 2, the patient
identifier, has 2 to 64 bytes, the last of which is its only NUL.",
        example: "the identifier of samples/refused-6.scp has no NUL at its end.",
        given: Given::OpeningAndWriting,
    }
    SECTION_2 = 7 {
        name: "Section 2",
        rule: "Section 2 has 1 to 8 complete, unambiguous code tables, or names the default table",
        plain: "\
Section 2 is 1 to 8 code tables of 1 to 64 structures each, or the number 19999,
which means the default table. A prefix has 1 to 32 bits, and none begins another
of its table; a remainder has at most 16; a switch leads to a table that exists.",
        example: "\
in table 2 of samples/refused-7.scp the prefix 10 begins the
prefix 101.",
        given: Given::LeadsAndWriting,
    }
    SECTIONS_3_TO_6 = 8 {
        name: "Sections 3 to 6",
        rule: "Sections 3 to 6 are complete and within their bounds, and none that is needed is missing",
        plain: "\
Sections 3 to 6 say which leads there are, 1 to 32 of at most 65,536 samples, how
their samples are stored, and in which zones a reference beat was subtracted. Each
is complete, within its bounds, and present if another needs it. Adding to an index
asks this of Section 3 alone, if there is one.",
        example: "\
in samples/refused-8.scp two zones of the reference beat share
sample 10.",
        given: Given::LeadsAndAdding,
    }
    BIMODAL_STEP_INTERVAL = 9 {
        name: "bimodal, step, interval",
        rule: "there is no bimodal compression, and Sections 5 and 6 have the same step and interval",
        plain: "\
Bimodal compression is not read. Where a reference beat was subtracted, the beat in
Section 5 and the leads in Section 6 have the same step and the same interval.",
        example: "\
in samples/refused-9.scp the samples of the beat are 1000 us
apart, and those of the leads 2000 us.",
        given: Given::Leads,
    }
    ABSENT = 10 {
        name: "what is asked for",
        rule: "the record has such a lead or field",
        plain: "\
The record has no such lead or field: there is no lead at this place of Section 3,
or no Section 3 or 6, or no field with this tag. A record with neither Section 3
nor Section 6 has no leads: check accepts it, and the commands that need leads call
them absent.",
        example: "samples/refused-10.scp has Section 3 and no Section 6.",
        given: Given::Leads,
    }
    ROOM = 11 {
        name: "buffers",
        rule: "the buffers lent are large enough",
        plain: "\
A program that called the library lent it a buffer that is too small for the answer,
too little work space, or an index with no room for another entry. This tool always
lends enough.",
        example: "a lead of 8 samples is read into a buffer for 7.",
        given: Given::Lending,
    }
    CODE = 12 {
        name: "codes",
        rule: "each value has a complete code of the current table",
        plain: "\
A lead is decoded value by value, each by a code of the current table. Here the next
bits are no code of that table, or the stream ends before the code does.",
        example: "\
the stream of the second lead of samples/refused-12.scp lacks its
last byte, and ends inside the code of sample 13.",
        given: Given::Streams,
    }
    SAMPLE = 13 {
        name: "samples",
        rule: "every sample fits 16 bits",
        plain: "\
Samples are rebuilt from the differences that are stored, and a reference beat that
was subtracted is added back. Each lies in -32,768 to 32,767, before and after that.",
        example: "\
sample 6 of the second lead of samples/refused-13.scp is 32,820
with the beat added.",
        given: Given::Streams,
    }
    LEFT_OVER_BITS = 14 {
        name: "left-over bits",
        rule: "at most 15 bits are left after the last sample",
        plain: "\
When the last sample of a lead has been read, at most 15 bits of its stream are
left. They are ignored, whatever they hold: some carts pad a lead to an even number
of bytes. Where more are left, the stream and the number of samples do not agree.
The same holds for the reference beat.",
        example: "\
the stream of the second lead of samples/refused-14.scp has two
bytes too many, and 20 bits are left.",
        given: Given::Streams,
    }
    NO_STREAM = 15 {
        name: "streams",
        rule: "these samples can be encoded with these tables",
        plain: "\
A record is to be written, and the samples of some lead cannot be encoded with its
tables: they have no code for some difference, or it does not fit 16 bits.",
        example: "\
by differences of order 2, the samples -32,768, 32,767 and -32,768
have -131,070 as their third value.",
        given: Given::Writing,
    }
    TOO_LONG = 16 {
        name: "lengths written",
        rule: "a stream has at most 65,535 bytes, and a record at most 1,048,576",
        plain: "\
A record is to be written, and the shortest stream of some lead has over 65,535
bytes, or the record over 1,048,576.",
        example: "\
without code tables each sample takes two bytes, and a lead of
32,768 samples takes 65,536.",
        given: Given::Writing,
    }
    WRITER_BOUNDS = 17 {
        name: "the writer's bounds",
        rule: "leads, samples, order, step, interval and sample numbers are within the writer's bounds",
        plain: "\
A record is to be written, and it does not have 1 to 32 leads of 1 to 65,536 samples
each, an order of 0 to 2, a step and an interval over 0, and sample numbers from 1
that fit 32 bits; or the samples lent are more or fewer than the leads' counts say.",
        example: "a job that has no lead.",
        given: Given::Writing,
    }
    DATE = 24 {
        name: "the date",
        rule: "the date of a record in an index, tag 25, has a month of 1 to 12 and a day of 1 to 31",
        plain: "\
A record is to be added to an index, and its date, tag 25, has a month outside 1 to
12 or a day outside 1 to 31. Any year is taken, and each of these days in any month.
Opening a record does not ask this.",
        example: "a record with the date 2024-00-14 opens, and has no entry in an index.",
        given: Given::Adding,
    }
    INDEX = 26 {
        name: "the index",
        rule: "the bytes in use of an index are complete entries in their order, and no more than it has",
        plain: "\
An index has an entry for each record, sorted by identifier and then by date. An
entry is five bytes, which hold the identifier's length (1 to 63), the year, the
month (1 to 12), the day (1 to 31), the number of leads (0 to 32) and a bit that is
0, and then the identifier without its NUL. Here some bytes are no such entry, or
two entries are in the wrong order, or more bytes are said to be in use than there
are.",
        example: "an index that has lost its last byte.",
        given: Given::Indexes,
    }
}

/// The row of a number in a table.
fn row(table: &'static [Row], number: u8) -> Option<&'static Row> {
    table.iter().find(|row| row.number == number)
}

/// The numbers of a table, as a sentence has them.
fn listed(table: &[Row]) -> String {
    let mut spans: Vec<(u8, u8)> = Vec::new();
    for row in table {
        match spans.last_mut() {
            Some((_, last)) if last.checked_add(1) == Some(row.number) => *last = row.number,
            _ => spans.push((row.number, row.number)),
        }
    }
    let spans: Vec<String> = spans.iter().map(span).collect();
    spans.join(", ")
}

/// Numbers in a row.
fn span(&(first, last): &(u8, u8)) -> String {
    match first == last {
        true => first.to_string(),
        false => format!("{first} to {last}"),
    }
}

impl Refusal {
    /// All of them, by rising numbers.
    pub fn all() -> impl Iterator<Item = Refusal> {
        TABLE.iter().map(|row| Refusal(row.number))
    }

    /// Turns a call's `refusal` into a result: accepted (0) with `answer`, or refused.
    pub(crate) fn or<T>(number: u8, answer: T) -> Result<T, Refusal> {
        match number {
            0 => Ok(answer),
            number => Err(Refusal(number)),
        }
    }

    /// The number of the rule.
    pub const fn number(self) -> u8 {
        self.0
    }

    /// The name of its constant, here and in C and Python.
    pub fn id(self) -> &'static str {
        self.column(|row| row.id)
    }

    /// The subject of the rule, in a word or two.
    pub fn name(self) -> &'static str {
        self.column(|row| row.name)
    }

    /// The rule, in a line.
    pub fn words(self) -> &'static str {
        self.column(|row| row.rule)
    }

    /// The rule, in lines for a person who meets the refusal.
    pub fn plain(self) -> &'static str {
        self.column(|row| row.plain)
    }

    /// A record or a job that is refused, to be read after "For example, ".
    pub fn example(self) -> &'static str {
        self.column(|row| row.example)
    }

    /// The calls that give it.
    pub fn given(self) -> Option<Given> {
        row(TABLE, self.0).map(|row| row.given)
    }

    fn column(self, column: fn(&'static Row) -> &'static str) -> &'static str {
        row(TABLE, self.0).map_or("a rule that this version has no words for", column)
    }
}

impl TryFrom<u8> for Refusal {
    type Error = NoRefusal;

    /// The refusal that has a number.
    fn try_from(number: u8) -> Result<Refusal, NoRefusal> {
        match row(TABLE, number) {
            Some(row) => Ok(Refusal(row.number)),
            None => Err(NoRefusal(number)),
        }
    }
}

impl fmt::Display for Refusal {
    fn fmt(&self, f: &mut fmt::Formatter<'_>) -> fmt::Result {
        write!(f, "{}, rule broken: {}", self.number(), self.words())
    }
}

impl Error for Refusal {}

/// A number that no refusal has.
#[derive(Clone, Copy, Debug, PartialEq, Eq)]
pub struct NoRefusal(u8);

impl fmt::Display for NoRefusal {
    fn fmt(&self, f: &mut fmt::Formatter<'_>) -> fmt::Result {
        let numbers = listed(TABLE);
        write!(f, "there is no refusal {}: they are {numbers}", self.0)
    }
}

impl Error for NoRefusal {}

#[cfg(test)]
mod tests {
    use super::{listed, row, Given, NoRefusal, Refusal, Row, TABLE};

    const fn made(number: u8) -> Row {
        Row {
            number,
            id: "",
            name: "",
            rule: "",
            plain: "",
            example: "",
            given: Given::Opening,
        }
    }

    /// A table may have gaps: each number that is there is found, and no other.
    #[test]
    fn a_row_is_found_by_its_number() {
        const GAPS: &[Row] = &[made(1), made(2), made(3), made(20), made(24), made(25)];
        for number in 0..=u8::MAX {
            let found = row(GAPS, number).map(|row| row.number);
            let there = [1, 2, 3, 20, 24, 25].contains(&number);
            assert_eq!(found, there.then_some(number));
        }
        assert_eq!(listed(GAPS), "1 to 3, 20, 24 to 25");
    }

    #[test]
    fn every_number_has_one_row_with_words_of_its_own() {
        for pair in TABLE.windows(2) {
            assert!(pair[0].number < pair[1].number, "{}", pair[1].number);
        }
        for column in [
            Refusal::id,
            Refusal::name,
            Refusal::words,
            Refusal::plain,
            Refusal::example,
        ] {
            let mut words: Vec<_> = Refusal::all().map(column).collect();
            words.push(column(Refusal(u8::MAX)));
            words.sort();
            words.dedup();
            assert_eq!(words.len(), TABLE.len() + 1);
        }
    }

    #[test]
    fn explanations_fit_a_terminal() {
        for refusal in Refusal::all() {
            let example = format!("For example, {}", refusal.example());
            let lines = refusal.plain().lines().chain(example.lines());
            let long: Vec<&str> = lines.filter(|line| line.len() > 84).collect();
            assert_eq!(long, [""; 0], "{refusal}");
        }
    }

    #[test]
    fn a_refusal_is_shown_as_a_rule_that_is_broken() {
        let told = Refusal::SAMPLE.to_string();
        assert_eq!(told, "13, rule broken: every sample fits 16 bits");
    }

    #[test]
    fn zero_is_no_refusal() {
        assert_eq!(Refusal::or(0, 'a'), Ok('a'));
        assert_eq!(Refusal::or(6, 'a'), Err(Refusal::SECTION_1));
        assert_eq!(Refusal::try_from(0), Err(NoRefusal(0)));
    }

    #[test]
    fn a_number_of_the_table_has_a_refusal() {
        let made: Vec<_> = (0..=u8::MAX).flat_map(Refusal::try_from).collect();
        assert_eq!(made, Refusal::all().collect::<Vec<_>>());
        let none = NoRefusal(u8::MAX);
        assert_eq!(Refusal::try_from(u8::MAX), Err(none));
        let first = TABLE[0].number;
        assert!(none.to_string().contains(&format!("they are {first} to")));
    }
}
