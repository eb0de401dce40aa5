//! Rows 12 to 15: the streams of leads and beats, the sums, and samples that cannot be encoded.

use judge::{Finding, Part, StreamFault};

/// The section of the beat's samples.
const SECTION_5: u16 = 5;

pub fn words(finding: &Finding, fault: &StreamFault) -> String {
    let number = match finding.part {
        Part::Sample { number, .. } => number,
        _ => 0,
    };
    let sample = match finding.section {
        Some(SECTION_5) => format!("beat sample {number}"),
        _ => format!("sample {number}"),
    };
    match *fault {
        StreamFault::NoCode { table, bit, bits } => {
            format!("no value for {sample}: no code of table {table} begins at bit {bit} of {bits}")
        }
        StreamFault::Ends { bit, bits } if bit > bits => {
            format!("no value for {sample}: the stream ends after its {bits} bits")
        }
        StreamFault::Ends { bit, bits } => {
            format!("no value for {sample}: the stream ends inside the code at bit {bit} of {bits}")
        }
        StreamFault::Outside(found) => format!("{sample} is {found}, outside 16 bits"),
        StreamFault::SumOutside { sum, beat_sample } => {
            format!("{sample} is {sum} with beat sample {beat_sample} added")
        }
        StreamFault::LeftOver { left, bits } => {
            format!("{left} bits are left of {bits} after the last sample")
        }
        StreamFault::NotEncodable { difference, order } => {
            format!("no code for its difference of order {order} at {sample}, {difference}")
        }
    }
}
