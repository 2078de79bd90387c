//! What is said where the library differs from what is expected here.

pub type Verdict<T> = Result<T, String>;

pub fn same<T: PartialEq + std::fmt::Debug>(what: &str, library: T, here: T) -> Verdict<()> {
    if library == here {
        return Ok(());
    }
    Err(format!("{what}: the library has {library:?}, expected {here:?}"))
}

pub fn untouched<B: PartialEq>(what: &str, after: &B, before: &B) -> Verdict<()> {
    if after == before {
        return Ok(());
    }
    Err(format!("{what}: a buffer was written to"))
}

pub fn all_zero<E: PartialEq + Default>(what: &str, entries: &[E]) -> Verdict<()> {
    if entries.iter().all(|entry| *entry == E::default()) {
        return Ok(());
    }
    Err(format!("{what}: an entry is not 0"))
}
