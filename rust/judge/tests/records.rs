//! Whole records: opened, read, and written again byte for byte.

use judge::{field, lead, open, read_lead, row, write_record, Refused, Writing};

/// A record of the data file.
#[derive(Default)]
struct Known {
    name: String,
    written: bool,
    identifier: Vec<u8>,
    flags: u8,
    step: u16,
    interval: u16,
    order: u8,
    /// The samples of the beat, 0 if none was subtracted.
    beat: usize,
    leads: Vec<KnownLead>,
    /// The structures compared in reading each lead.
    compared: Vec<u32>,
    bytes: Vec<u8>,
}

struct KnownLead {
    first: u32,
    id: u8,
    samples: Vec<i16>,
}

fn hex(text: &str) -> Vec<u8> {
    let byte = |digits| u8::from_str_radix(digits, 16).expect("two hex digits");
    text.split_whitespace().map(byte).collect()
}

fn number<T: std::str::FromStr>(text: &str) -> T {
    text.parse().ok().expect("a number")
}

fn known() -> Vec<Known> {
    let mut all: Vec<Known> = Vec::new();
    for line in include_str!("data/records.txt").lines() {
        let (key, rest) = line.split_once(' ').unwrap_or((line, ""));
        if key == "record" {
            all.push(Known {
                name: rest.to_string(),
                ..Known::default()
            });
        } else if let Some(record) = all.last_mut() {
            record.take(key, rest);
        }
    }
    all
}

impl Known {
    fn take(&mut self, key: &str, rest: &str) {
        match key {
            "written" => self.written = true,
            "identifier" => self.identifier = hex(rest),
            "flags" => self.flags = number(rest),
            "step" => self.step = number(rest),
            "interval" => self.interval = number(rest),
            "order" => self.order = number(rest),
            "beat" => self.beat = number(rest),
            "lead" => self.take_lead(rest),
            "compared" => self.compared = rest.split_whitespace().map(number).collect(),
            "hex" => self.bytes.extend(hex(rest)),
            _ => {}
        }
    }

    fn take_lead(&mut self, rest: &str) {
        let mut words = rest.split_whitespace();
        self.leads.push(KnownLead {
            first: number(words.next().unwrap_or("")),
            id: number(words.next().unwrap_or("")),
            samples: words.map(number).collect(),
        });
    }

    /// The data of a section, `spare` bytes less at the end.
    fn data(&self, id: usize, spare: usize) -> Vec<u8> {
        let pointer = open(&self.bytes).expect("it opens")[id];
        let start = pointer.index as usize - 1;
        self.bytes[start + 16..start + pointer.length as usize - spare].to_vec()
    }
}

#[test]
fn all_are_there() {
    let names: Vec<String> = known().into_iter().map(|record| record.name).collect();
    let wanted = [
        "record-least",
        "record-p5",
        "record-p6-written",
        "record-default-two-leads",
        "record-no-tables",
        "record-beat",
    ];
    assert_eq!(names, wanted);
}

#[test]
fn they_open_and_show_their_identifier() {
    for record in known() {
        let pointers = open(&record.bytes).expect(&record.name);
        assert_eq!(pointers.len(), 12);
        let place = field(&record.bytes, 2, 1).expect(&record.name);
        assert_eq!(record.bytes[place], record.identifier, "{}", record.name);
        assert_eq!(field(&record.bytes, 2, 2), Err(row::ABSENT));
    }
}

#[test]
fn their_leads_read() {
    for record in known() {
        for (at, known) in record.leads.iter().enumerate() {
            let count = known.samples.len();
            let read = read_lead(&record.bytes, at + 1, count, record.beat).expect(&record.name);
            assert_eq!(read.samples, known.samples, "{}", record.name);
            assert_eq!((read.id, read.first), (known.id, known.first));
            assert_eq!(read.flags, record.flags);
            assert_eq!((read.step, read.interval), (record.step, record.interval));
            assert_eq!(read.work_cleared, record.beat > 0);
            assert_eq!(read.compared, record.compared[at], "{}", record.name);
            let entry = lead(&record.bytes, at + 1).expect(&record.name);
            assert_eq!(entry.order, record.order);
            assert_eq!(entry.leads as usize, record.leads.len());
            assert_eq!((entry.last - entry.first + 1) as usize, count);
        }
        let beyond = record.leads.len() + 1;
        assert_eq!(lead(&record.bytes, beyond), Err(row::ABSENT));
        assert_eq!(lead(&record.bytes, 0), Err(row::ABSENT));
    }
}

#[test]
fn too_little_room_is_11_and_leaves_work_space_untouched() {
    let refused = Err(Refused {
        number: row::ROOM,
        work_cleared: false,
    });
    for record in known() {
        for (at, known) in record.leads.iter().enumerate() {
            let count = known.samples.len();
            assert_eq!(
                read_lead(&record.bytes, at + 1, count - 1, record.beat),
                refused
            );
            if record.beat > 0 {
                assert_eq!(
                    read_lead(&record.bytes, at + 1, count, record.beat - 1),
                    refused
                );
            }
        }
    }
}

/// A known record as it is written, with room for `out_len` bytes.
fn written(record: &Known, out_len: usize) -> Result<Vec<u8>, Refused> {
    let section1 = record.data(1, record.identifier.len() % 2);
    let each = |of: fn(&KnownLead) -> u32| record.leads.iter().map(of).collect::<Vec<_>>();
    let ids: Vec<u8> = record.leads.iter().map(|lead| lead.id).collect();
    let samples = record.leads.iter().flat_map(|lead| &lead.samples);
    let samples: Vec<i16> = samples.copied().collect();
    let writing = Writing {
        section1: &section1,
        section2: &section_2(record),
        version: 13,
        flags: record.flags,
        step: record.step,
        interval: record.interval,
        order: record.order,
        firsts: &each(|lead| lead.first),
        counts: &each(|lead| lead.samples.len() as u32),
        ids: &ids,
        samples: &samples,
    };
    write_record(&writing, 1_000, out_len)
}

/// The data of Section 2; none if it is absent.
fn section_2(record: &Known) -> Vec<u8> {
    match open(&record.bytes).expect("it opens")[2].length {
        0 => Vec::new(),
        _ => record.data(2, 0),
    }
}

#[test]
fn written_ones_come_out_byte_for_byte() {
    let mut count = 0;
    for record in known().iter().filter(|record| record.written) {
        let bytes = written(record, record.bytes.len());
        assert_eq!(bytes.as_ref(), Ok(&record.bytes), "{}", record.name);
        let short = Refused {
            number: row::ROOM,
            work_cleared: !section_2(record).is_empty(),
        };
        assert_eq!(written(record, record.bytes.len() - 1), Err(short));
        count += 1;
    }
    assert_eq!(count, 3);
}
