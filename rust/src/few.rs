//! A list of which the first four members are held and all are counted.

/// The most updates that an operation may have.
pub const MOST: usize = 4;

/// Up to four values in place, beside the number that was said.
#[derive(Clone, Copy, Debug, Default, PartialEq, Eq)]
pub struct Few<T> {
    held: [T; MOST],
    said: usize,
}

impl<T: Copy> Few<T> {
    /// Counts a value, and holds it while there is room.
    pub fn push(&mut self, value: T) {
        if let Some(free) = self.held.get_mut(self.said) {
            *free = value;
        }
        self.said += 1;
    }

    /// How many values were pushed, held or not.
    pub fn said(&self) -> usize {
        self.said
    }

    /// Forgets that more were pushed than are held.
    pub fn forget_the_rest(&mut self) {
        self.said = self.said.min(MOST);
    }

    /// The values that are held, in order.
    pub fn iter(&self) -> std::slice::Iter<'_, T> {
        self.held[..self.said.min(MOST)].iter()
    }
}

impl<T: Copy + Default> FromIterator<T> for Few<T> {
    fn from_iter<I: IntoIterator<Item = T>>(values: I) -> Self {
        let mut few = Few::default();
        for value in values {
            few.push(value);
        }
        few
    }
}
