//! The answer of a look at every position, which a search must give wherever positions never fall.

/// The last of some positions that is at or before a byte.
pub fn last_at_or_before(positions: impl Iterator<Item = u32>, byte: usize) -> Option<usize> {
    positions.zip(0..).filter(|(position, _number)| *position as usize <= byte).map(|(_position, number)| number).last()
}
