//! Lists that lie between guards.

/// How many words guard either side of a list.
const GUARDS: usize = 16;

/// A list between words that hold the guard.
pub struct Guarded<T> {
    words: Vec<T>,
    guard: T,
}

impl<T: Copy + PartialEq> Guarded<T> {
    /// A list of this content.
    pub fn new(content: &[T], guard: T) -> Self {
        let guards = [guard; GUARDS];
        Guarded { words: [&guards, content, &guards].concat(), guard }
    }

    /// The list's start, taken from the whole's.
    pub fn start(&mut self) -> *mut T {
        self.words.as_mut_ptr().wrapping_add(GUARDS)
    }

    /// The list's content.
    pub fn content(&self) -> &[T] {
        &self.words[GUARDS..self.words.len() - GUARDS]
    }

    /// What is to be said of the list of this name where a guard was overwritten.
    pub fn complaint(&self, name: &str) -> Option<String> {
        let (before, rest) = self.words.split_at(GUARDS);
        let after = &rest[rest.len() - GUARDS..];
        let broken = before.iter().chain(after).any(|&word| word != self.guard);
        broken.then(|| format!("{name}: written next to its {} places", self.content().len()))
    }

    /// What is to be said of the list of this name, which was lent to be read.
    pub fn complaints(&self, name: &str, given: &[T]) -> impl Iterator<Item = String> {
        let changed = (self.content() != given).then(|| format!("{name}: changed"));
        self.complaint(name).into_iter().chain(changed)
    }
}
