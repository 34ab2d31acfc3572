//! Checks that hand back what they found, so that a test can ask for a difference too.

/// What is wrong, where something is.
pub type Checked<T = ()> = Result<T, String>;

pub fn ensure(holds: bool, wrong: impl FnOnce() -> String) -> Checked {
    if holds {
        Ok(())
    } else {
        Err(wrong())
    }
}

/// That two records have no field in which they differ.
pub fn unchanged(difference: Option<&str>) -> Checked {
    difference.map_or(Ok(()), |name| Err(format!("another {name}")))
}
