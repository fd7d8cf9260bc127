//! A refusal, by its number.

/// Why a call was refused: the number of the question that was answered with no.
#[derive(Clone, Copy, PartialEq, Eq, Debug)]
pub struct Refusal(pub u64);

pub const OUTSIDE: Refusal = Refusal(19);
pub const NOT_ALLOWED: Refusal = Refusal(20);

impl Refusal {
    /// The layer that refused.
    pub fn layer(self) -> &'static str {
        if self == OUTSIDE || self == NOT_ALLOWED {
            "module"
        } else {
            "store"
        }
    }
}
