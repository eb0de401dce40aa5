//! Rows 8, 9 and 10: Sections 3 to 6.

use judge::{Finding, LeadFault, What, ZoneFault};

use super::subject::section;

pub fn words(finding: &Finding, fault: &LeadFault) -> String {
    let name = section(finding);
    match *fault {
        LeadFault::Backwards { first, last } => {
            format!("the first sample, {first}, is after the last, {last}")
        }
        LeadFault::ByteCounts { sum, left } => {
            format!("the byte counts of {name} add up to {sum}, and {left} bytes are there")
        }
        LeadFault::Zone(ref fault) => zone(fault),
        LeadFault::Bimodal => format!("{name} uses bimodal compression (its bimodal byte is 1)"),
        LeadFault::Differs {
            what,
            section_5,
            section_6,
        } => {
            let what = if what == What::Step {
                "step"
            } else {
                "interval"
            };
            format!("the {what} is {section_5} in Section 5 and {section_6} in Section 6")
        }
        LeadFault::PlaceZero => "--lead starts at 1".to_string(),
        LeadFault::NoLead { place, leads } => {
            format!("there is no lead {place}: Section 3 has {leads}")
        }
    }
}

/// Says what is wrong with a zone of the reference beat.
fn zone(fault: &ZoneFault) -> String {
    match *fault {
        ZoneFault::OfType {
            qrs_type,
            start,
            end,
        } => format!("type {qrs_type} must have zone 0 to 0; it has {start} to {end}"),
        ZoneFault::Empty { start: 0, end } => format!("the zone starts at sample 0 (to {end})"),
        ZoneFault::Empty { start, end } => {
            format!("the zone starts at sample {start}, after its end, {end}")
        }
        ZoneFault::Overlap { start, before } => {
            format!("the zone starts at {start}, and the one before it ends at {before}")
        }
        ZoneFault::Outside {
            first,
            last,
            samples,
        } => format!("the zone takes beat samples {first} to {last}; the beat has 1 to {samples}"),
    }
}
