//! Leads at the ends of the rules for encoding: as many samples, tables and structures as can be, tables that make a search
//! slow, and streams about as long as can be. The right answers are written here from the rules.

use judge::make::Rng;
use judge::row;

use super::Job;
use crate::rhythm::{remainder, switch, tables, value, Code, DEFAULT_TABLE};

/// The most samples of a lead.
const MOST: usize = scp::SAMPLES_MAX;

/// A lead, what it is, and what encoding it gives.
pub struct Extreme {
    /// A description in a few words.
    pub name: &'static str,
    /// The refusal, or 0.
    pub refusal: u8,
    /// How many bits the stream has, where that can be worked out by hand.
    pub bits: Option<u32>,
    /// Section 2's data.
    pub section2: Vec<u8>,
    /// The samples.
    pub samples: Vec<i16>,
    /// The order of their differences.
    pub order: u8,
}

impl Extreme {
    /// The lead to be encoded.
    pub fn job(&self) -> Job<'_> {
        Job {
            section2: &self.section2,
            samples: &self.samples,
            order: self.order,
        }
    }
}

/// All of them.
pub fn all() -> Vec<Extreme> {
    [
        plain(),
        switching(),
        ties(),
        without_code(),
        long(),
        without_tables(),
    ]
    .into_iter()
    .flatten()
    .collect()
}

/// A lead that is accepted.
fn accepted(
    name: &'static str,
    bits: Option<u32>,
    section2: Vec<u8>,
    samples: Vec<i16>,
    order: u8,
) -> Extreme {
    Extreme {
        name,
        refusal: 0,
        bits,
        section2,
        samples,
        order,
    }
}

/// A lead that is refused.
fn refused(name: &'static str, refusal: u8, section2: Vec<u8>, samples: Vec<i16>) -> Extreme {
    Extreme {
        refusal,
        ..accepted(name, None, section2, samples, 0)
    }
}

/// The default table.
fn default() -> Vec<u8> {
    DEFAULT_TABLE.to_vec()
}

/// As many samples, tables and structures as can be.
fn plain() -> Vec<Extreme> {
    vec![
        accepted("one sample of one bit", Some(1), default(), vec![0], 2),
        accepted(
            "65,536 zeros by the default table",
            Some(65_536),
            default(),
            vec![0; MOST],
            2,
        ),
        accepted(
            "a lead like an ECG's by the default table",
            None,
            default(),
            wave(MOST),
            2,
        ),
        accepted(
            "8 tables of 64 structures",
            None,
            tables(&mixed()),
            wave(MOST),
            1,
        ),
    ]
}

/// Tables that make a search slow.
fn switching() -> Vec<Extreme> {
    let rising = tables(&hostile(RISING));
    vec![
        // a 0 takes 2 bits where the codes go on in its table, else 1 more for the switch; a 1 takes 7 switches and 2 bits
        accepted(
            "switches through all tables, rising",
            Some(2 + 32_767 * 3 + 32_768 * 9),
            rising,
            to_and_fro(MOST),
            0,
        ),
        accepted(
            "switches through all tables, falling",
            Some(32_768 * 3 + 32_768 * 9),
            tables(&hostile(FALLING)),
            to_and_fro(MOST),
            0,
        ),
        accepted(
            "switches through all tables, to and fro",
            Some(2 + 32_767 * 3 + 32_768 * 9),
            tables(&hostile(CROSSING)),
            to_and_fro(MOST),
            0,
        ),
    ]
}

/// Leads of which one sample has no code.
fn without_code() -> Vec<Extreme> {
    let rising = || tables(&hostile(RISING));
    let with = |at: usize, other: i16| {
        let mut samples = to_and_fro(MOST);
        samples[at] = other;
        samples
    };
    vec![
        refused(
            "no code for the first sample",
            row::NO_STREAM,
            rising(),
            with(0, 7),
        ),
        refused(
            "no code for the last",
            row::NO_STREAM,
            rising(),
            with(MOST - 1, 7),
        ),
    ]
}

/// Codes that are equally short, and switches that lead nowhere.
fn ties() -> Vec<Extreme> {
    vec![
        accepted(
            "two codes for each value, equally short",
            Some(2 * 65_536),
            tables(&twins()),
            vec![0; MOST],
            1,
        ),
        accepted(
            "switches to the own table that cost nothing but bits",
            Some(2 * 65_536),
            tables(&[vec![switch("0", 1), value("10", 0)]]),
            vec![0; MOST],
            0,
        ),
    ]
}

/// Streams about as long as can be, by tables.
fn long() -> Vec<Extreme> {
    let mut eights = vec![1; MOST];
    eights[0] = 0;
    vec![
        accepted(
            "as many bits as can be",
            Some(524_280),
            tables(&one_or_eight()),
            vec![1; MOST - 1],
            0,
        ),
        refused(
            "one bit more",
            row::TOO_LONG,
            tables(&one_or_eight()),
            eights,
        ),
        accepted(
            "20,164 codes of 26 bits",
            Some(524_264),
            default(),
            vec![200; 20_164],
            0,
        ),
        refused(
            "20,165 codes of 26 bits",
            row::TOO_LONG,
            default(),
            vec![200; 20_165],
        ),
        refused(
            "more bits than a lead can have, 30 times",
            row::TOO_LONG,
            tables(&longest(RISING)),
            to_and_fro(MOST),
        ),
    ]
}

/// Streams about as long as can be without tables, and too many samples and too few.
fn without_tables() -> Vec<Extreme> {
    vec![
        accepted(
            "32,767 values of two bytes",
            Some(524_272),
            Vec::new(),
            wave(32_767),
            2,
        ),
        refused(
            "32,768 values of two bytes",
            row::TOO_LONG,
            Vec::new(),
            wave(32_768),
        ),
        refused(
            "65,536 values of two bytes",
            row::TOO_LONG,
            Vec::new(),
            wave(MOST),
        ),
        refused(
            "65,537 samples",
            row::WRITER_BOUNDS,
            default(),
            vec![0; MOST + 1],
        ),
        refused("no sample", row::WRITER_BOUNDS, default(), Vec::new()),
    ]
}

// ---- samples

/// Samples that go like an ECG: a beat now and then, a slow wave, and noise. Their differences are small, mostly.
pub fn wave(count: usize) -> Vec<i16> {
    let mut rng = Rng::new(12);
    let sample = |at: usize| {
        let slow = 40.0 * (at as f64 / 800.0).sin();
        let bump = |middle: f64, width: f64, height: f64| {
            let away = ((at % 400) as f64 - middle) / width;
            height * (-away * away).exp()
        };
        let beat = bump(80.0, 14.0, 25.0)
            + bump(150.0, 2.5, -30.0)
            + bump(156.0, 4.0, 260.0)
            + bump(163.0, 3.0, -60.0)
            + bump(250.0, 26.0, 60.0);
        (slow + beat).round() as i16 + rng.pick(&[0, 0, 0, 0, 0, 1, -1])
    };
    (0..count).map(sample).collect()
}

/// 0, 1, 0, 1 and so on.
pub fn to_and_fro(count: usize) -> Vec<i16> {
    (0..count).map(|at| (at % 2) as i16).collect()
}

// ---- tables

/// Tables in the order of their numbers, and in two others: whichever of them a search keeps to, another one has its
/// switches the wrong way.
pub const RISING: [i16; 8] = [1, 2, 3, 4, 5, 6, 7, 8];
/// From the last to the first.
pub const FALLING: [i16; 8] = [8, 7, 6, 5, 4, 3, 2, 1];
/// Between the halves.
pub const CROSSING: [i16; 8] = [1, 5, 2, 6, 3, 7, 4, 8];

/// Puts tables, made by their place in an order, at their numbers.
fn in_order(order: [i16; 8], table: impl Fn(usize, i16) -> Vec<Code>) -> Vec<Vec<Code>> {
    let mut all = vec![Vec::new(); 8];
    for (place, number) in order.into_iter().enumerate() {
        all[number as usize - 1] = table(place, order[(place + 1) % 8]);
    }
    all
}

/// 8 tables of 64 structures in a ring: one bit leads to the next, and longer codes lead to every table at once. 0 has a code
/// in the first only, 1 in the last, so that the way from 0 to 1 is through all of them, a bit shorter than the short cut.
pub fn hostile(order: [i16; 8]) -> Vec<Vec<Code>> {
    in_order(order, |place, next| {
        let own = match place {
            0 => 0,
            7 => 1,
            other => 1000 + other as i16,
        };
        let mut codes = vec![switch("0", next), value("10", own)];
        let long = |k: i16| format!("11{k:06b}");
        codes.extend((0..8).map(|k| switch(long(k), k + 1)));
        codes.extend((8..62).map(|k| value(long(k), 2000 + k)));
        codes.reverse();
        codes
    })
}

/// The same ring with prefixes of 32 bits.
fn longest(order: [i16; 8]) -> Vec<Vec<Code>> {
    in_order(order, |place, next| {
        let code = |k: i16| format!("{k:032b}");
        let mut codes = vec![switch(code(0), next)];
        match place {
            0 => codes.push(remainder(code(1), 1)),
            7 => codes.push(value(code(1), 1)),
            _ => {}
        }
        codes.extend((2..64).map(|k| value(code(k), 2000 + k)));
        codes
    })
}

/// 8 tables of 64 structures: short codes for values around 0, which differ from table to table, values of 8 and 16 bits,
/// and switches to all tables.
pub fn mixed() -> Vec<Vec<Code>> {
    let rng = &mut Rng::new(64);
    (0..8)
        .map(|_| {
            let mut leaves = vec!["0".to_string(), "1".to_string()];
            while leaves.len() < 64 {
                let at = rng.below(leaves.len());
                if leaves[at].len() < 12 {
                    let leaf = leaves.swap_remove(at);
                    leaves.extend([format!("{leaf}0"), format!("{leaf}1")]);
                }
            }
            leaves.sort_by_key(String::len);
            let mut code = |(place, prefix): (usize, String)| match place {
                0..=39 => value(prefix, rng.small(9) as i16 - rng.small(9) as i16),
                40..=47 => switch(prefix, place as i16 - 39),
                48 => remainder(prefix, 8),
                49 => remainder(prefix, 16),
                _ => value(prefix, rng.below(61) as i16 - 30),
            };
            leaves.into_iter().enumerate().map(&mut code).collect()
        })
        .collect()
}

/// Two tables that give 0 by two codes of two bits each, the smaller one later, and lead to each other.
fn twins() -> Vec<Vec<Code>> {
    let table = |other| vec![value("10", 0), value("01", 0), switch("00", other)];
    vec![table(2), table(1)]
}

/// A table in which 0 has one bit and 1 has eight.
fn one_or_eight() -> Vec<Vec<Code>> {
    vec![vec![value("0", 0), value("11111111", 1)]]
}

#[cfg(test)]
mod tests {
    use super::{all, MOST};

    /// The judge agrees with what is written down.
    #[test]
    fn each_is_what_it_is_said_to_be() {
        for extreme in all() {
            let judged = extreme.job().judged(8 * MOST, MOST);
            let number = judged.as_ref().map_or_else(|refused| refused.number, |_| 0);
            assert_eq!(number, extreme.refusal, "{}", extreme.name);
            if let Some(bits) = extreme.bits {
                let judged = judged.map(|coded| coded.bits);
                assert_eq!(judged, Ok(bits), "{}", extreme.name);
            }
        }
    }
}
