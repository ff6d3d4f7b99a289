//! How many children each open master and each waiting End has had. The Rust does not count them: they are counted here
//! by the events that it hands out, beside its own open masters and waiting Ends.

use crate::table::Tag;

/// The counts of the open masters, from the outermost, and of the waiting Ends, next first.
#[derive(Clone, Default)]
pub struct Counts {
    pub open: Vec<u64>,
    pub waiting: Vec<u64>,
}

impl Counts {
    /// The parents that a settling makes have had no child.
    pub fn settle(&mut self, parents: usize) {
        self.open = vec![0; parents];
    }

    /// An event was handed out, and so many masters are open after it. Answers the count of an End.
    pub fn hand_out(&mut self, tag: &Tag, still_open: usize) -> Option<u64> {
        match tag {
            Tag::End(_) => return Some(self.end(still_open)),
            Tag::Start(_) => {
                self.child();
                self.open.push(0);
            }
            _ => self.child(),
        }
        None
    }

    fn child(&mut self) {
        if let Some(parent) = self.open.last_mut() {
            *parent += 1;
        }
    }

    /// An End that waits comes first. Else the masters that are no longer open have closed, from the top down: the
    /// first End is handed out, and the others wait.
    fn end(&mut self, still_open: usize) -> u64 {
        if self.waiting.is_empty() {
            self.waiting = self.open.split_off(still_open);
            self.waiting.reverse();
        }
        self.waiting.remove(0)
    }
}
