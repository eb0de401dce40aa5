//! The calls on leads, held against the judge's: every place, and output and work space of every kind of length.

use std::ops::RangeInclusive;

use judge::make::Rng;
use judge::{row, Refused};
use scp::raw;

use crate::answers::{hold, number, same, Difference};
use crate::draft;
use crate::guarded::{self, Right};
use crate::tally::{Call, Tally};

/// The places asked for in every record: all that a lead can have, and one on each side.
const PLACES: RangeInclusive<usize> = 0..=33;
/// Places that a number of 8, 16 or 32 bits would take for another.
const FAR: [usize; 5] = [256, 257, 65_537, (1 << 32) + 1, usize::MAX];
/// Rows that have no rule over a record alone.
const NO_ROWS: [u8; 6] = [0, 10, 11, 14, 17, 255];
/// A record of more bytes is asked for fewer places, as each call judges all of them.
const LONG: usize = 1536;
/// The most structures that are compared for a bit of a lead's codes: as many as a table has.
const MOST_A_BIT: u32 = 64;

/// Makes the calls on leads, by the library and by the judge.
pub fn compare(record: &[u8], rng: &mut Rng, tally: &mut Tally) -> Result<(), Difference> {
    breaks(record, tally)?;
    let first = judge::lead(record, 1);
    let leads = first.map_or(0, |entry| entry.leads as usize);
    let places = places(record, first, rng);
    if PLACES.clone().all(|place| places.contains(&place)) {
        tally.every_place();
    }
    for place in places {
        let judged = entry(record, place, tally)?;
        read_once(record, place, judged, rng, tally)?;
    }
    if leads > 0 {
        read_with_every_length(record, 1 + rng.below(leads), rng, tally)?;
    }
    wrapper(record, rng.below(leads + 2))
}

/// The places to ask for: all of them; of a long record some that have a lead and some that have none. Where the first place
/// is refused all are, and any few will do.
fn places(record: &[u8], first: Result<judge::Entry, u8>, rng: &mut Rng) -> Vec<usize> {
    let far = rng.pick(&FAR);
    match first {
        Err(_) => vec![0, 1, rng.within(PLACES), far],
        Ok(entry) if record.len() > LONG => {
            let leads = entry.leads as usize;
            vec![0, 1, 1 + rng.below(leads), leads, leads + 1, far]
        }
        Ok(_) => PLACES.chain([far]).collect(),
    }
}

/// Each row's rule, asked alone. It means its row as long as no smaller one is broken.
fn breaks(record: &[u8], tally: &mut Tally) -> Result<(), Difference> {
    let mut broken = false;
    for row in row::LENGTH..=row::AGREEMENT {
        let answer = ask(record, row);
        if broken {
            hold(answer <= 1, "scp_breaks: neither 0 nor 1")?;
            continue;
        }
        broken = judge::breaks(record, row);
        same(&format!("scp_breaks, row {row}"), answer, broken.into())?;
        tally.answer(Call::Breaks, if broken { row } else { 0 });
    }
    for row in NO_ROWS {
        same(&format!("scp_breaks, row {row}"), ask(record, row), 0)?;
    }
    Ok(())
}

fn ask(record: &[u8], row: u8) -> u8 {
    // SAFETY: `record` is lent for the call, which only reads it.
    unsafe { raw::scp_breaks(record.as_ptr(), record.len(), row) }
}

/// The record's description of a lead, if the judge has the same.
fn entry(
    record: &[u8],
    place: usize,
    tally: &mut Tally,
) -> Result<Result<judge::Entry, u8>, Difference> {
    let judged = judge::lead(record, place);
    // SAFETY: `record` is lent for the call, which only reads it.
    let entry = unsafe { raw::scp_lead(record.as_ptr(), record.len(), place) };
    let expected = match judged {
        Err(refusal) => raw::ScpEntry {
            refusal,
            ..Default::default()
        },
        Ok(entry) => raw::ScpEntry {
            refusal: 0,
            id: entry.id,
            flags: entry.flags,
            order: entry.order,
            step: entry.step,
            interval: entry.interval,
            first: entry.first,
            last: entry.last,
            leads: entry.leads,
            bytes: entry.bytes,
        },
    };
    same(&format!("scp_lead, place {place}"), entry, expected)?;
    tally.answer(Call::Lead, number(&judged));
    Ok(judged)
}

/// Reads a lead with an output that is just enough or longer, and work space that is just enough; where there is no lead,
/// with any lengths. If the entry is refused, the reading is refused alike.
fn read_once(
    record: &[u8],
    place: usize,
    judged: Result<judge::Entry, u8>,
    rng: &mut Rng,
    tally: &mut Tally,
) -> Result<(), Difference> {
    let more = rng.pick(&[0, 0, 1]) * rng.small(500);
    match judged {
        Ok(entry) => {
            let (work, out) = needs(record, &entry);
            read(record, place, (work, out + more), rng, tally)
        }
        Err(refusal) => {
            let refused = Err(Refused::untouched(refusal));
            let lengths = (rng.small(300), more);
            read_as_judged(record, place, lengths, refused, rng, tally)
        }
    }
}

/// Reads a lead with room of every kind of length.
fn read_with_every_length(
    record: &[u8],
    place: usize,
    rng: &mut Rng,
    tally: &mut Tally,
) -> Result<(), Difference> {
    let Ok(entry) = judge::lead(record, place) else {
        return Ok(());
    };
    let most = 2 * scp::SAMPLES_MAX;
    guarded::with_every_length(needs(record, &entry), most, rng, |lengths, rng| {
        read(record, place, lengths, rng, tally)
    })
}

/// Reads a lead with this many elements of work space and of output.
fn read(
    record: &[u8],
    place: usize,
    (work_n, out_n): (usize, usize),
    rng: &mut Rng,
    tally: &mut Tally,
) -> Result<(), Difference> {
    let judged = judge::read_lead(record, place, out_n, work_n);
    read_as_judged(record, place, (work_n, out_n), judged, rng, tally)
}

/// Has the library read a lead with this many elements of work space and of output, with guards around both, and compares what
/// comes back with what the judge has.
fn read_as_judged(
    record: &[u8],
    place: usize,
    lengths: (usize, usize),
    judged: Result<judge::Lead, Refused>,
    rng: &mut Rng,
    tally: &mut Tally,
) -> Result<(), Difference> {
    let right = right(&judged);
    let (samples, cleared) = (right.out.len(), right.cleared);
    let name = format!("scp_read_lead, place {place}");
    let lead = guarded::call(&name, lengths, right, rng, |work, out| {
        raw::read_lead(record, place, out, work)
    })?;
    let call = if cleared {
        Call::ReadLeadWithBeat
    } else {
        Call::ReadLead
    };
    tally.answer(call, lead.refusal);
    tally.samples(samples);
    tally.compared.count(call, lead.compared);
    let (compared, bits) = (lead.compared, judged.map_or(0, |read| read.bits));
    hold(
        compared <= MOST_A_BIT * bits,
        &format!("{name}: {compared} structures compared for {bits} bits"),
    )
}

/// The outcome that is expected.
fn right(judged: &Result<judge::Lead, Refused>) -> Right<'_, raw::ScpLead, i16> {
    match judged {
        Err(refused) => Right {
            answer: raw::ScpLead {
                refusal: refused.number,
                ..Default::default()
            },
            out: &[],
            cleared: refused.work_cleared,
        },
        Ok(read) => Right {
            answer: raw::ScpLead {
                refusal: 0,
                id: read.id,
                flags: read.flags,
                step: read.step,
                interval: read.interval,
                first: read.first,
                count: read.samples.len() as u32,
                compared: read.compared,
            },
            out: &read.samples,
            cleared: read.work_cleared,
        },
    }
}

/// How many elements of work space and of output reading this lead takes.
fn needs(record: &[u8], entry: &judge::Entry) -> (usize, usize) {
    let work = match entry.flags & 1 {
        1 => beat_count(record),
        _ => 0,
    };
    (work, (entry.last - entry.first) as usize + 1)
}

/// N of a record that has leads and a beat: from the beat's length in Section 4 and the interval in Section 5.
fn beat_count(record: &[u8]) -> usize {
    let two = |section: u16, at: usize| {
        let at = draft::section(record, section).start + draft::HEADER + at;
        usize::from(u16::from_le_bytes([record[at], record[at + 1]]))
    };
    1000 * two(4, 0) / two(5, 2)
}

/// The safe wrapper says the same as the judge.
fn wrapper(record: &[u8], place: usize) -> Result<(), Difference> {
    let read = scp::samples(record, place).map_err(scp::Refusal::number);
    let room = scp::SAMPLES_MAX;
    let judged = judge::read_lead(record, place, room, room).map_err(|refused| refused.number);
    same("samples", number(&read), number(&judged))?;
    if let (Ok((lead, samples)), Ok(judged)) = (&read, &judged) {
        same("samples", samples, &judged.samples)?;
        same("samples", lead.count, samples.len())?;
        same("samples, compared", lead.compared, judged.compared)?;
        let all = (lead.id, lead.flags, lead.step, lead.interval, lead.first);
        let judged = (
            judged.id,
            judged.flags,
            judged.step,
            judged.interval,
            judged.first,
        );
        same("samples", all, judged)?;
    }
    let leads = scp::leads(record).map_err(scp::Refusal::number);
    let judged = judge::lead(record, 1);
    let count = judged.map(|entry| entry.leads as usize);
    same(
        "leads",
        leads.as_ref().map(Vec::len),
        count.as_ref().map(|count| *count),
    )?;
    same("breaks", scp::breaks(record, 1), judge::breaks(record, 1))
}
