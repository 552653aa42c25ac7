//! How many calls of each kind were to be answered with each number, and how many differ.
use calls::differences::Differences;
use calls::table;

/// The numbers with which a call is refused, in the order of the checks.
const REFUSALS: [usize; 7] = [6, 7, 8, 9, 10, 11, 5];

/// How many calls were to be answered with each number.
type Counts = [u64; 12];

/// The kinds in the order of their first call, with the counts by number.
#[derive(Default)]
pub struct Tally {
    kinds: Vec<(String, Counts)>,
    pub differences: Differences,
}

/// The counts by number as text.
fn shown(counts: &Counts) -> String {
    let refused = REFUSALS.map(|number| (counts[number], format!(", {} refused with {number}", counts[number])));
    let refused: String = refused.into_iter().filter(|(count, _)| *count != 0).map(|(_, text)| text).collect();
    format!("{} answered{refused}", counts[0])
}

impl Tally {
    /// Counts a call that was to be answered with this number, and how it differs, if it does.
    pub fn add(&mut self, kind: &str, number: u32, call: impl FnOnce() -> String, differences: &[String]) {
        let place = self.kinds.iter().position(|(name, _)| name == kind).unwrap_or(self.kinds.len());
        if place == self.kinds.len() {
            self.kinds.push((kind.to_string(), [0; 12]));
        }
        self.kinds[place].1[number as usize] += 1;
        if !differences.is_empty() {
            self.differences.add(&format!("{kind}: {}\n  {}", call(), differences.join("\n  ")));
        }
    }

    /// Prints a line for each kind, one for all, and one for the table.
    pub fn print(&self, name: &str) {
        let mut all = [0; 12];
        for (kind, counts) in &self.kinds {
            println!("{name}, {kind}: {}", shown(counts));
            all.iter_mut().zip(counts).for_each(|(all, count)| *all += count);
        }
        let calls = all.iter().sum::<u64>();
        println!("{calls} calls of {name}: {}", shown(&all));
        table::calls(name, calls, all[0], self.differences.0);
    }
}

/// How an output's content differs from the one expected.
pub fn of_values<T: PartialEq + std::fmt::LowerHex>(name: &str, ours: &[T], expected: &[T]) -> Option<String> {
    let place = ours.iter().zip(expected).position(|(ours, expected)| ours != expected)?;
    Some(format!("{name}, the first is {place}: ours {:x}, expected {:x}", ours[place], expected[place]))
}

/// How a number differs from the one expected.
pub fn of_numbers(name: &str, ours: usize, expected: usize) -> Option<String> {
    (ours != expected).then(|| format!("{name}: ours {ours}, expected {expected}"))
}
