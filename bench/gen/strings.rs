//! Every string of some items.

/// Every string of so many items, the shorter ones first; the first place changes fastest.
pub fn strings<T: Copy>(items: &[T], shortest: u32, longest: u32) -> impl Iterator<Item = Vec<T>> + '_ {
    (shortest..=longest).flat_map(move |length| {
        let base = items.len();
        (0..base.pow(length)).map(move |number| {
            (0..length)
                .map(|place| items[number / base.pow(place) % base])
                .collect()
        })
    })
}
