//! What a decoder saw of a stream: the count of its events and a sum in which every number of each counts, as
//! `bench_calls` makes it.

#[derive(Clone, Copy, Debug, Default, PartialEq)]
pub struct Seen {
    pub events: u64,
    pub sum: u64,
    /// 2: finished, 3: refused
    pub last: u64,
    pub position: u64,
}

impl Seen {
    #[inline]
    fn mix(&mut self, x: u64) {
        self.sum = self.sum.rotate_left(5) ^ x;
    }

    #[inline]
    pub fn element(&mut self, kind: u64, id: u64, offset: u64) {
        self.events += 1;
        self.mix(kind);
        self.mix(id);
        self.mix(offset);
    }

    #[inline]
    pub fn number(&mut self, kind: u64, id: u64, offset: u64, n: u64) {
        self.element(kind, id, offset);
        self.mix(n);
    }

    #[inline]
    pub fn range(&mut self, kind: u64, id: u64, offset: u64, begin: u64, end: u64) {
        self.number(kind, id, offset, begin);
        self.mix(end);
    }
}
