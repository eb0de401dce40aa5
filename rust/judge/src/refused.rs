//! A refusal where work space was lent (01, Refusal numbers).

/// A refusal, and whether the work space lent is zeros because its use had begun; otherwise it is
/// untouched.
#[derive(Clone, Copy, Debug, PartialEq, Eq)]
pub struct Refused {
    pub number: u8,
    pub work_cleared: bool,
}

impl Refused {
    pub fn untouched(number: u8) -> Self {
        Refused {
            number,
            work_cleared: false,
        }
    }
}
