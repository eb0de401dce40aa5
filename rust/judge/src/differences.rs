//! Differences of order 0, 1 and 2, both ways (01, Leads and samples).

/// The number to which a stored value is added to give the sample after these: 0 where samples are
/// stored as they are, else X(n-1) for order 1 and 2X(n-1)-X(n-2) for order 2.
pub fn foreseen(order: u8, earlier: &[i16]) -> i32 {
    match (order, earlier) {
        (1, [.., last]) => i32::from(*last),
        (2, [.., before, last]) => 2 * i32::from(*last) - i32::from(*before),
        _ => 0,
    }
}

/// The values to be stored for these samples.
pub fn differences(order: u8, samples: &[i16]) -> Vec<i32> {
    let value = |place: usize| i32::from(samples[place]) - foreseen(order, &samples[..place]);
    (0..samples.len()).map(value).collect()
}

#[cfg(test)]
mod tests {
    use super::{differences, foreseen};

    #[track_caller]
    fn stored(order: u8, samples: &[i16], values: &[i32]) {
        assert_eq!(differences(order, samples), values);
        let mut rebuilt: Vec<i16> = Vec::new();
        for value in values {
            let sample = foreseen(order, &rebuilt) + value;
            rebuilt.push(sample.try_into().expect("16 bits"));
        }
        assert_eq!(rebuilt, samples);
    }

    #[test]
    fn p1_order_1() {
        let samples = [10, 12, 13, 15, 18, 22, 20, 15];
        stored(1, &samples, &[10, 2, 1, 2, 3, 4, -2, -5]);
    }

    #[test]
    fn p2_order_2() {
        let samples = [10, 12, 13, 15, 18, 22, 20, 15];
        stored(2, &samples, &[10, 12, -1, 1, 1, 1, -6, -3]);
        stored(2, &[14, 18, 22, 22, 13, 3, -2], &[14, 18, 0, -4, -9, -1, 5]);
    }

    #[test]
    fn p9_widest() {
        let samples = [-32768, 32767, -32768];
        stored(1, &samples, &[-32768, 65535, -65535]);
        stored(2, &samples, &[-32768, 32767, -131_070]);
        stored(2, &[32767, -32768, 32767], &[32767, -32768, 131_070]);
    }

    #[test]
    fn fewer_samples_than_the_order_are_stored_as_they_are() {
        for order in 0..=2 {
            stored(order, &[], &[]);
            stored(order, &[-7], &[-7]);
        }
        stored(2, &[-7, 30_000], &[-7, 30_000]);
    }
}
