//! How many calls differ.

/// How many differing calls are printed.
const PRINTED: u64 = 5;

/// The number of differing calls.
#[derive(Default)]
pub struct Differences(pub u64);

impl Differences {
    /// Counts one and prints the first few.
    pub fn add(&mut self, text: &str) {
        self.0 += 1;
        if self.0 <= PRINTED {
            println!("{text}");
        }
    }
}

/// How a list's content differs from the one expected.
pub fn of_lists(name: &str, ours: &[u32], expected: &[u32]) -> Option<String> {
    let places: Vec<usize> = (0..ours.len()).filter(|&place| ours[place] != expected[place]).collect();
    let &first = places.first()?;
    let (count, ours, expected) = (places.len(), ours[first], expected[first]);
    Some(format!("{name}, {count} places, the first is {first}: ours {ours}, expected {expected}"))
}
