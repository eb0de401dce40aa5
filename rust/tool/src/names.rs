//! Names of sections, of header fields and of leads, in a few words of our own.

/// The content of a section, in words.
pub fn section(id: u16) -> &'static str {
    match id {
        0 => "pointers",
        1 => "patient and recording",
        2 => "code tables",
        3 => "leads",
        4 => "beat places",
        5 => "reference beat",
        6 => "rhythm samples",
        7 => "measurements",
        8 => "diagnosis as text",
        9 => "maker's diagnosis",
        10 => "measurements by lead",
        11 => "diagnosis as codes",
        128..=1023 => "maker's own",
        _ => "not defined",
    }
}

/// The content of the fields of Section 1 in words, by their tags from 0.
const FIELDS: [&str; 36] = [
    "last name",
    "first name",
    "patient identifier",
    "second last name",
    "age",
    "date of birth",
    "height",
    "weight",
    "sex",
    "race",
    "drug",
    "systolic pressure",
    "diastolic pressure",
    "reason for referral",
    "recording device",
    "analysing device",
    "recording institution",
    "analysing institution",
    "recording department",
    "analysing department",
    "referring physician",
    "confirming physician",
    "technician",
    "room",
    "urgency",
    "date of recording",
    "time of recording",
    "high-pass filter",
    "low-pass filter",
    "other filters",
    "remark",
    "sequence number",
    "history as codes",
    "electrode placement",
    "time zone",
    "history as text",
];

/// The content of a field of Section 1, in words.
pub fn field(tag: u8) -> &'static str {
    FIELDS.get(usize::from(tag)).copied().unwrap_or("other")
}

/// The IDs of the leads that a lead of calibration stands for: those 31 to 60 for 1 to 30, and 79 to 85 for 66 to 72.
fn calibrated(id: u8) -> Option<u8> {
    match id {
        31..=60 => Some(id - 30),
        79..=85 => Some(id - 13),
        _ => None,
    }
}

/// The common name of a lead.
pub fn lead(id: u8) -> String {
    if let Some(lead) = calibrated(id) {
        return format!("{}-cal", self::lead(lead));
    }
    match id {
        3..=9 => format!("V{}", id - 2),
        10..=15 => format!("V{}R", id - 8),
        75..=78 => format!("A{}", id - 74),
        id => named(id).to_string(),
    }
}

/// The name of a lead that is not one of several in a row.
fn named(id: u8) -> &'static str {
    match id {
        0 => "unspecified",
        1 => "I",
        2 => "II",
        16 => "X",
        17 => "Y",
        18 => "Z",
        19 => "CC5",
        20 => "CM5",
        21 => "left arm",
        22 => "right arm",
        23 => "left leg",
        24 => "Frank I",
        25 => "Frank E",
        26 => "Frank C",
        27 => "Frank A",
        28 => "Frank M",
        29 => "Frank F",
        30 => "Frank H",
        61 => "III",
        62 => "aVR",
        63 => "aVL",
        64 => "aVF",
        65 => "-aVR",
        66 => "V8",
        67 => "V9",
        68 => "V8R",
        69 => "V9R",
        70 => "Nehb D",
        71 => "Nehb A",
        72 => "Nehb J",
        73 => "defibrillator",
        74 => "external pacing",
        100..=255 => "maker's own",
        _ => "not defined",
    }
}

/// The head of a lead's column in a table of samples: its place and name, and what a sample of 1 stands for.
pub fn column(place: usize, id: u8, step: u16) -> String {
    format!("{place} {} ({step} nV)", lead(id))
}

#[cfg(test)]
mod tests {
    use super::lead;

    #[test]
    fn leads_have_their_common_names() {
        let names: Vec<String> = [1, 2, 3, 8, 9, 10, 15, 24, 61, 62, 63, 64].map(lead).into();
        assert_eq!(
            names.join(" "),
            "I II V1 V6 V7 V2R V7R Frank I III aVR aVL aVF"
        );
        assert_eq!(
            [31, 33, 45, 60].map(lead).join(" "),
            "I-cal V1-cal V7R-cal Frank H-cal"
        );
        assert_eq!(
            [79, 82, 85].map(lead).join(" "),
            "V8-cal V9R-cal Nehb J-cal"
        );
        assert_eq!([75, 78].map(lead).join(" "), "A1 A4");
    }

    #[test]
    fn leads_that_are_defined_have_names_of_their_own() {
        let names: Vec<String> = (0..=86).map(lead).collect();
        for (place, name) in names.iter().enumerate() {
            assert!(!names[..place].contains(name), "{place}: {name}");
        }
    }
}
