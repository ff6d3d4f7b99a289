//! Counts of children, around the position.

use crate::prng::Prng;

/// Counts of so many masters, and of so many Ends.
pub type Counts = [Vec<u64>; 2];

/// Counts within the position, some of them 0, some just at it.
pub fn within(prng: &mut Prng, position: u64, held: [usize; 2]) -> Counts {
    held.map(|count| (0..count).map(|_| count_within(prng, position)).collect())
}

fn count_within(prng: &mut Prng, position: u64) -> u64 {
    match prng.below(6) {
        0 => 0,
        1 => position,
        2 => prng.of_any_magnitude().min(position),
        _ => prng.below(5).min(position),
    }
}

/// The same, and one of them over the position, by one or by more, if there is one.
pub fn over(prng: &mut Prng, position: u64, held: [usize; 2]) -> Counts {
    let mut counts = within(prng, position, held);
    let list = &mut counts[usize::from(held[0] == 0 || held[1] > 0 && prng.below(2) == 0)];
    if !list.is_empty() {
        let place = prng.index(list.len());
        let one_more = position.saturating_add(1);
        list[place] = prng.pick(&[one_more, one_more, one_more.saturating_add(1), u64::MAX]);
    }
    counts
}
