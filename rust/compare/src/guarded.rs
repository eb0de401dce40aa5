//! Calls that room is lent to, an output and a work space: room of every kind of length, with guards around it, and what a call
//! is to leave in it.

use std::fmt::Debug;

use judge::make::Rng;

use crate::answers::{hold, Difference};
use crate::lent::{Element, Space};

/// Room that is always enough.
pub const ROOM: usize = usize::MAX;

/// The right outcome of a call.
pub struct Right<'a, A, T> {
    /// The answer.
    pub answer: A,
    /// The elements that the output begins with; the rest of it is as it was.
    pub out: &'a [T],
    /// Whether all of the work space is zeros; else it is as it was.
    pub cleared: bool,
}

/// Makes a call of this name with this many elements of work space and of output, with guards around both, and compares what
/// comes back with what is right. The answer, if all is.
pub fn call<A: PartialEq + Debug, T: Element>(
    name: &str,
    (work_n, out_n): (usize, usize),
    right: Right<A, T>,
    rng: &mut Rng,
    call: impl FnOnce(&mut [T], &mut [T]) -> A,
) -> Result<A, Difference> {
    let mut work = Space::new(work_n, rng);
    let mut out = Space::new(out_n, rng);
    let answer = call(work.lent(), out.lent());
    let asked = |holds, words: &str| {
        let call = format!("{name}, work space of {work_n}, output of {out_n}");
        hold(holds, &format!("{call}: {words}"))
    };
    asked(
        answer == right.answer,
        &format!(
            "the library answers {answer:?}, and right is {:?}",
            right.answer
        ),
    )?;
    asked(
        out.holds(right.out),
        "the output differs, or other elements were changed",
    )?;
    match right.cleared {
        true => asked(work.is_cleared(), "the work space is not zeros, all of it")?,
        false => asked(work.is_untouched(), "the work space was changed")?,
    }
    Ok(answer)
}

/// Makes a call with work space and output of just enough, one too few, no and far too many elements, each with each. Now and
/// then far too many are more than `most`.
pub fn with_every_length(
    (work, out): (usize, usize),
    most: usize,
    rng: &mut Rng,
    mut call: impl FnMut((usize, usize), &mut Rng) -> Result<(), Difference>,
) -> Result<(), Difference> {
    let (works, outs) = (lengths(work, most, rng), lengths(out, most, rng));
    for &work in &works {
        for &out in &outs {
            call((work, out), rng)?;
        }
    }
    Ok(())
}

/// The lengths to try where `enough` elements are just enough.
fn lengths(enough: usize, most: usize, rng: &mut Rng) -> Vec<usize> {
    let far = match rng.one_in(40) {
        true => most + rng.small(3000),
        false => enough + 100 + rng.small(3000),
    };
    let mut lengths = vec![enough, enough.saturating_sub(1), 0, far];
    lengths.sort();
    lengths.dedup();
    lengths
}

#[cfg(test)]
mod tests {
    use judge::make::Rng;

    use super::{call, lengths, with_every_length, Right};

    /// A call that puts 7 into the output, and clears the work space or not: whether that is right.
    fn is_right(answer: u8, out: &[u8], cleared: bool) -> bool {
        let right = Right {
            answer,
            out,
            cleared,
        };
        let answer = call("call", (3, 2), right, &mut Rng::new(1), |work, out| {
            work.fill(0);
            out[0] = 7;
            1
        });
        answer.is_ok()
    }

    #[test]
    fn what_is_left_is_held_to_what_is_right() {
        assert!(is_right(1, &[7], true));
        assert!(!is_right(2, &[7], true));
        assert!(!is_right(1, &[9], true));
        assert!(!is_right(1, &[], true));
        assert!(!is_right(1, &[7], false));
    }

    #[test]
    fn every_length_is_tried_with_every_other() {
        let rng = &mut Rng::new(1);
        for enough in [0, 1, 2, 500] {
            let lengths = lengths(enough, 1000, rng);
            assert!([0, enough, enough.saturating_sub(1)]
                .iter()
                .all(|length| lengths.contains(length)));
            assert!(lengths.iter().any(|&length| length >= enough + 100));
        }
        let mut tried = Vec::new();
        let all = with_every_length((5, 9), 1000, rng, |lengths, _| {
            tried.push(lengths);
            Ok(())
        });
        assert_eq!((all, tried.len()), (Ok(()), 16));
        assert!(tried.contains(&(4, 9)) && tried.contains(&(5, 8)) && tried.contains(&(0, 0)));
    }
}
