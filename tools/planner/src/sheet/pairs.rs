//! Question 17: an edge entered twice.

/// The places of two equal records: the lowest first place, and then the lowest second one.
pub fn equal_pair<T: PartialEq>(records: &[T]) -> Option<(usize, usize)> {
    records.iter().enumerate().find_map(|(first, record)| {
        let second = records.iter().skip(first + 1).position(|other| other == record)?;
        Some((first, first + 1 + second))
    })
}
