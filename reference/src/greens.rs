//! Posts, steps and signal greens.

/// An instant of the cycle, 0 to C-1: the one before step `post + 1`.
#[derive(Clone, Copy, Debug, PartialEq, Eq)]
pub struct Post(pub u32);

/// A one-second step of the cycle, 1 to C.
#[derive(Clone, Copy, Debug, PartialEq, Eq)]
pub struct Step(pub u32);

impl Step {
    /// Where the step's number stands in a profile.
    pub fn index(self) -> usize {
        (self.0 - 1) as usize
    }
}

/// The step reached by counting from 1 to `count`; a step past C continues at 1.
pub fn turned(count: u32, cycle: u32) -> Step {
    Step((count - 1) % cycle + 1)
}

/// A green: its start post and its length in steps.
#[derive(Clone, Copy, Debug, PartialEq, Eq)]
pub struct Green {
    pub start: Post,
    pub length: u32,
}

impl Green {
    /// The green steps in green order.
    pub fn steps(self, cycle: u32) -> impl Iterator<Item = Step> {
        (1..=self.length).map(move |k| turned(self.start.0 + k, cycle))
    }

    /// The green fits the cycle: post to C-1, length to C.
    pub fn fits(self, cycle: u32) -> bool {
        self.start.0 < cycle && self.length <= cycle
    }
}
