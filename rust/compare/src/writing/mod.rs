//! Writing a record, held against the judge's: output and work space of every kind of length, jobs that break several rules
//! at once, and what is written read back by the library's own reader.

pub mod counts;
pub mod edges;

use judge::make::{self, Rng, ToWrite};
use judge::{Refused, Writing};
use scp::raw;

use crate::answers::{hold, number, same, Difference};
use crate::guarded::{self, Right, ROOM};
use crate::lent::Lent;
use crate::rhythm::tables_in;
use counts::{Answer, Counts};

/// A job of more samples times tables is done with fewer lengths, as the judge's search takes its time.
const LONG: usize = 1000;
/// A record of more bytes is written with fewer lengths.
const LONG_RECORD: usize = 20_000;

/// Compares on `count` jobs that the seed fixes. The counts, or what differs first and in which job.
pub fn run(seed: u64, count: u64) -> Result<Counts, String> {
    let mut counts = Counts::default();
    for number in 0..count {
        let mut rng = Rng::new(seed.wrapping_add(number.wrapping_mul(0x1_0000_0001)));
        let job = make::to_write(&mut rng);
        compare(&job, &mut rng, &mut counts)
            .map_err(|difference| format!("seed {seed}, job {number}: {difference}"))?;
    }
    Ok(counts)
}

/// Does a job with the room that it comes with and with room of every kind of length, by the library and by the judge, and
/// reads back what is written. All that the job lends has guards around it.
pub fn compare(job: &ToWrite, rng: &mut Rng, counts: &mut Counts) -> Result<(), Difference> {
    counts.jobs += 1;
    counts.unequal += u64::from(job.counts.iter().any(|&count| count != job.counts[0]));
    let bytes = [&job.section1, &job.section2, &job.ids].map(|bytes| Lent::new(bytes, rng));
    let numbers = [&job.firsts, &job.counts].map(|numbers| Lent::new(numbers, rng));
    let samples = Lent::new(&job.samples, rng);
    let lent = Writing {
        section1: bytes[0].lent(),
        section2: bytes[1].lent(),
        ids: bytes[2].lent(),
        firsts: numbers[0].lent(),
        counts: numbers[1].lent(),
        samples: samples.lent(),
        ..job.writing()
    };
    write(&lent, (job.work_len, job.out_len), rng, counts)?;
    let judged = judge::write_record(&lent, ROOM, ROOM);
    write_with_every_length(&lent, &judged, rng, counts)?;
    wrapper(&lent, &judged)?;
    if let Ok(record) = &judged {
        read_back(&lent, record, counts)?;
    }
    let untouched = bytes.iter().all(Lent::is_untouched)
        && numbers.iter().all(Lent::is_untouched)
        && samples.is_untouched();
    hold(untouched, "scp_write_record: what is only read was changed")
}

/// Writes with room of every kind of length; of a long job with some of it, which is one byte too little.
fn write_with_every_length(
    job: &Writing,
    judged: &Result<Vec<u8>, Refused>,
    rng: &mut Rng,
    counts: &mut Counts,
) -> Result<(), Difference> {
    let work = work_of(job);
    let out = judged.as_ref().map_or(0, Vec::len);
    if job.samples.len() * tables_in(job.section2).max(1) > LONG || out > LONG_RECORD {
        write(job, (work, out.saturating_sub(1)), rng, counts)?;
        return write(job, (work.saturating_sub(1), out), rng, counts);
    }
    guarded::with_every_length((work, out), scp::RECORD_MAX, rng, |lengths, rng| {
        write(job, lengths, rng, counts)
    })
}

/// Writes with this many bytes of work space and of output.
pub fn write(
    job: &Writing,
    (work_n, out_n): (usize, usize),
    rng: &mut Rng,
    counts: &mut Counts,
) -> Result<(), Difference> {
    let judged = judge::write_record(job, work_n, out_n);
    by_library(job, (work_n, out_n), &judged, rng)?;
    counts.answer(Answer::of(&judged, !job.section2.is_empty()));
    Ok(())
}

/// Has the library write with this many bytes of work space and of output, with guards around both, and compares what comes
/// back with what is expected: the answer, the record, and the work space cleared or untouched.
pub fn by_library(
    job: &Writing,
    lengths: (usize, usize),
    expected: &Result<Vec<u8>, Refused>,
    rng: &mut Rng,
) -> Result<(), Difference> {
    let (refusal, out, cleared): (_, &[u8], _) = match expected {
        Err(refused) => (refused.number, &[], refused.work_cleared),
        Ok(record) => (0, record, !job.section2.is_empty()),
    };
    let right = Right {
        answer: raw::ScpWritten {
            refusal,
            bytes: out.len() as u32,
        },
        out,
        cleared,
    };
    let job = job_of(job);
    guarded::call("scp_write_record", lengths, right, rng, |work, out| {
        raw::write_record(&job, work, out)
    })?;
    Ok(())
}

/// The job as the library takes it.
fn job_of<'a>(job: &Writing<'a>) -> scp::Job<'a> {
    scp::Job {
        section1: job.section1,
        section2: job.section2,
        version: job.version,
        flags: job.flags,
        step: job.step,
        interval: job.interval,
        order: job.order,
        firsts: job.firsts,
        counts: job.counts,
        ids: job.ids,
        samples: job.samples,
    }
}

/// Asks that the library's own calls give back what was to be written: the fields byte for byte, and each lead with its first
/// sample number, ID, flags, step, interval, order and samples. As many structures are compared as by the judge.
pub fn read_back(job: &Writing, record: &[u8], counts: &mut Counts) -> Result<(), Difference> {
    let opened =
        scp::open(record).map_err(|refusal| format!("what is written opens: {refusal}"))?;
    same("pointers written", opened.len(), 12)?;
    let fields = scp::fields(record).map_err(|refusal| format!("fields: {refusal}"))?;
    let mut shown = Vec::new();
    for field in fields {
        let bytes = &record[field.range];
        shown.push(field.tag);
        shown.extend((bytes.len() as u16).to_le_bytes());
        shown.extend(bytes);
    }
    shown.extend([255, 0, 0]);
    hold(
        shown == job.section1,
        "fields: not those that were to be written",
    )?;

    let mut samples = job.samples;
    for (at, &count) in job.counts.iter().enumerate() {
        let (lead, others) = samples.split_at(count as usize);
        samples = others;
        lead_read_back(job, record, at, lead)
            .map_err(|difference| format!("lead {}: {difference}", at + 1))?;
    }
    counts.written += 1;
    counts.bytes += record.len() as u64;
    counts.leads += job.ids.len() as u64;
    counts.samples += job.samples.len() as u64;
    Ok(())
}

/// The same of one lead, at its place from 0.
fn lead_read_back(
    job: &Writing,
    record: &[u8],
    at: usize,
    samples: &[i16],
) -> Result<(), Difference> {
    let refused = |refusal: scp::Refusal| refusal.to_string();
    let entry = scp::lead(record, at + 1).map_err(refused)?;
    let (read, back) = scp::samples(record, at + 1).map_err(refused)?;
    let judged = judge::read_lead(record, at + 1, samples.len(), 0);
    let right = scp::Lead {
        id: job.ids[at],
        flags: job.flags & 0xFE,
        step: job.step,
        interval: job.interval,
        first: job.firsts[at],
        count: samples.len(),
        compared: judged.map_or(0, |lead| lead.compared),
    };
    same("read", read, right)?;
    let last = job.firsts[at] + (job.counts[at] - 1);
    let said = (entry.order, entry.last, entry.leads);
    same("entry", said, (job.order, last, job.ids.len()))?;
    hold(
        back == samples,
        "samples: not those that were to be written",
    )
}

/// The safe wrapper says the same as the judge.
fn wrapper(job: &Writing, judged: &Result<Vec<u8>, Refused>) -> Result<(), Difference> {
    let written = scp::written(&job_of(job)).map_err(scp::Refusal::number);
    let judged = judged.clone().map_err(|refused| refused.number);
    same("written", number(&written), number(&judged))?;
    hold(written == judged, "written: not the judge's record")
}

/// The work space that a job needs, where its leads may be so long.
pub fn work_of(job: &Writing) -> usize {
    let longest = job.counts.iter().copied().max().unwrap_or(0) as usize;
    longest.min(scp::SAMPLES_MAX) * tables_in(job.section2)
}
