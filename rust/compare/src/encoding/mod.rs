//! Encoding a lead, held against the judge's: output and work space of every kind of length, and what is encoded read back.

pub mod brute;
pub mod extremes;

use judge::make::{Rng, ToEncode};
use judge::{Coded, Reader, Refused};
use scp::raw;

use crate::answers::{hold, number, same, Difference};
use crate::guarded::{self, Right, ROOM};
use crate::lent::Lent;
use crate::rhythm::tables_in;
use crate::tally::{Call, Tally};

/// A lead of more samples times tables is encoded with fewer lengths, as the judge's search takes its time.
const LONG: usize = 3000;

/// A lead to be encoded.
#[derive(Clone, Copy, Debug)]
pub struct Job<'a> {
    /// Section 2's data.
    pub section2: &'a [u8],
    /// The samples.
    pub samples: &'a [i16],
    /// The order of their differences.
    pub order: u8,
}

/// Encodes a lead with the room that it comes with and with room of every kind of length, by the library and by the judge.
pub fn compare(call: &ToEncode, rng: &mut Rng, tally: &mut Tally) -> Result<(), Difference> {
    let job = Job::from(call);
    tally.to_encode();
    let section2 = Lent::new(job.section2, rng);
    let samples = Lent::new(job.samples, rng);
    let lent = Job {
        section2: section2.lent(),
        samples: samples.lent(),
        ..job
    };
    encode(lent, (call.work_len, call.out_len), rng, tally)?;
    encode_with_every_length(lent, rng, tally)?;
    wrapper(lent)?;
    let untouched = section2.is_untouched() && samples.is_untouched();
    hold(untouched, "scp_encode_lead: what is only read was changed")
}

/// Encodes with room of every kind of length; of a long lead with some of it.
fn encode_with_every_length(job: Job, rng: &mut Rng, tally: &mut Tally) -> Result<(), Difference> {
    let work = job.samples.len() * tables_in(job.section2);
    let out = job.judged(ROOM, ROOM).map_or(0, |coded| coded.bytes.len());
    if work.max(job.samples.len()) > LONG {
        for (work, out) in [(work, out), (work, out.saturating_sub(1))] {
            encode(job, (work, out), rng, tally)?;
        }
        return encode(job, (work.saturating_sub(1), out), rng, tally);
    }
    let most = scp::TABLES_MAX * scp::SAMPLES_MAX;
    guarded::with_every_length((work, out), most, rng, |lengths, rng| {
        encode(job, lengths, rng, tally)
    })
}

/// Encodes with this many bytes of work space and of output.
pub fn encode(
    job: Job,
    (work_n, out_n): (usize, usize),
    rng: &mut Rng,
    tally: &mut Tally,
) -> Result<(), Difference> {
    let judged = job.judged(work_n, out_n);
    let answer = job.by_library((work_n, out_n), &judged, rng)?;
    let call = match cleared(&judged) {
        true => Call::EncodeLeadSearched,
        false => Call::EncodeLead,
    };
    tally.answer(call, answer.refusal);
    tally.bits(answer.bits);
    if let Ok(coded) = judged {
        job.read_back(&coded.bytes)?;
    }
    Ok(())
}

impl<'a> From<&'a ToEncode> for Job<'a> {
    fn from(call: &'a ToEncode) -> Job<'a> {
        Job {
            section2: &call.section2,
            samples: &call.samples,
            order: call.order,
        }
    }
}

impl Job<'_> {
    /// The judge's answer.
    pub fn judged(&self, work_n: usize, out_n: usize) -> Result<Coded, Refused> {
        judge::encode_lead(self.section2, self.samples, self.order, work_n, out_n)
    }

    /// Has the library encode it with this many bytes of work space and of output, with guards around both, and compares what
    /// comes back with what is expected: the answer, the stream, and the work space cleared or untouched.
    pub fn by_library(
        &self,
        lengths: (usize, usize),
        expected: &Result<Coded, Refused>,
        rng: &mut Rng,
    ) -> Result<raw::ScpCoded, Difference> {
        let (refusal, bits, out): (_, _, &[u8]) = match expected {
            Err(refused) => (refused.number, 0, &[]),
            Ok(coded) => (0, coded.bits, &coded.bytes),
        };
        let right = Right {
            answer: raw::ScpCoded {
                refusal,
                bytes: out.len() as u32,
                bits,
            },
            out,
            cleared: cleared(expected),
        };
        guarded::call("scp_encode_lead", lengths, right, rng, |work, out| {
            raw::encode_lead(self.section2, self.samples, self.order, work, out)
        })
    }

    /// Asks that the judge's reader gives the samples back.
    fn read_back(&self, stream: &[u8]) -> Result<(), Difference> {
        let reader = Reader::new(self.section2);
        let read = reader.and_then(|reader| reader.samples(stream, self.order, self.samples.len()));
        hold(
            read.as_deref() == Ok(self.samples),
            "scp_encode_lead: the stream does not read to the samples",
        )
    }
}

/// Whether the work space is to be zeros.
fn cleared(answer: &Result<Coded, Refused>) -> bool {
    match answer {
        Ok(coded) => coded.work_cleared,
        Err(refused) => refused.work_cleared,
    }
}

/// The safe wrapper says the same as the judge.
fn wrapper(job: Job) -> Result<(), Difference> {
    let coded = scp::shortest(job.section2, job.samples, job.order).map_err(scp::Refusal::number);
    let judged = job
        .judged(ROOM, ROOM)
        .map(|coded| (coded.bytes, coded.bits as usize))
        .map_err(|refused| refused.number);
    same("shortest", number(&coded), number(&judged))?;
    hold(coded == judged, "shortest: not the judge's stream")
}
