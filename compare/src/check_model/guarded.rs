//! A slice inside a larger one: what a call writes beside its slice is seen.

const BAND: usize = 8;

#[derive(Debug, Clone)]
pub struct Guarded<T> {
    all: Vec<T>,
    guard: T,
}

impl<T: Copy + PartialEq> Guarded<T> {
    pub fn new(content: &[T], guard: T) -> Self {
        let band = [guard; BAND];
        Self { all: [&band, content, &band].concat(), guard }
    }

    pub fn slice(&mut self) -> &mut [T] {
        let end = self.all.len() - BAND;
        &mut self.all[BAND..end]
    }

    pub fn content(&self) -> &[T] {
        &self.all[BAND..self.all.len() - BAND]
    }

    /// Whether nothing was written beside the slice.
    pub fn is_intact(&self) -> bool {
        let (front, rest) = self.all.split_at(BAND);
        let back = &rest[rest.len() - BAND..];
        front.iter().chain(back).all(|item| *item == self.guard)
    }
}
