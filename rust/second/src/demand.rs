//! A demand, and what is said where it does not hold.

/// Nothing where it holds, the fault where it does not.
pub fn demand<E>(holds: bool, fault: impl FnOnce() -> E) -> Result<(), E> {
    match holds {
        true => Ok(()),
        false => Err(fault()),
    }
}
