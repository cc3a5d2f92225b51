//! Buffers to lend, with something around them that must stay.

use reference::random::Random;

/// A buffer inside a larger one. Where nothing follows it, it ends with its allocation, so
/// that a tool which watches memory sees a read past it.
pub struct Room<T> {
    items: Box<[T]>,
    before: usize,
    after: usize,
}

impl<T: Copy + PartialEq> Room<T> {
    /// Any number of guards come before the content, so that bytes begin at any alignment.
    pub fn new(content: &[T], guard: T, random: &mut Random) -> Room<T> {
        let before = random.below(17);
        let after = random.pick(&[0, 1, 64]);
        let items = [
            vec![guard; before].as_slice(),
            content,
            &vec![guard; after],
        ]
        .concat();
        Room {
            items: items.into(),
            before,
            after,
        }
    }

    pub fn lent(&mut self) -> &mut [T] {
        let end = self.items.len() - self.after;
        &mut self.items[self.before..end]
    }

    /// Whether the content is this, and every guard is as it was.
    pub fn holds(&self, content: &[T], guard: T) -> bool {
        let (before, rest) = self.items.split_at(self.before);
        let (inner, after) = rest.split_at(rest.len() - self.after);
        let stays = |guards: &[T]| guards.iter().all(|&item| item == guard);
        inner == content && stays(before) && stays(after)
    }
}
