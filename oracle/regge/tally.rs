//! What was compared, what differed, and how far the unaltered Rust is from us.
use crate::distance::{Angle, Distance, agree};
use crate::ours;
use crate::table::{self, OTHERS};

/// How many differences of a function are printed.
const PRINTED: u64 = 5;

/// One function's counts.
pub struct Tally {
    name: &'static str,
    calls: u64,
    answers: u64,
    nans: u64,
    timelike: u64,
    refused: u64,
    pub differences: u64,
    distance: Distance,
}

/// The bit patterns of some numbers.
pub fn hex(numbers: &[f64]) -> String {
    let words: Vec<String> = numbers.iter().map(|x| format!("{:016x}", x.to_bits())).collect();
    words.join(" ")
}

impl Tally {
    /// No counts yet.
    pub fn new(name: &'static str) -> Tally {
        let distance = Distance::default();
        Tally { name, calls: 0, answers: 0, nans: 0, timelike: 0, refused: 0, differences: 0, distance }
    }

    /// Compares the numbers that a call gave: ours, the altered and the unaltered Rust's.
    pub fn numbers(&mut self, place: impl Fn() -> String, ours: (u32, &[f64]), altered: &[f64], unaltered: &[f64]) {
        let plain = |x: &f64| (*x, 0);
        let rust = altered.iter().map(plain).zip(unaltered.iter().map(plain));
        self.call(place, ours.0, ours.1.iter().map(plain).zip(rust));
    }

    /// Compares the dihedrals that a call gave: ours, the altered and the unaltered Rust's.
    pub fn angles(
        &mut self,
        place: impl Fn() -> String,
        ours: (u32, &[Angle]),
        altered: &[Angle],
        unaltered: &[Angle],
    ) {
        let rust = altered.iter().copied().zip(unaltered.iter().copied());
        self.call(place, ours.0, ours.1.iter().copied().zip(rust));
    }

    /// Compares a call's answers one by one; a refusal and a stray write are differences too.
    fn call(
        &mut self,
        place: impl Fn() -> String,
        number: u32,
        answers: impl Iterator<Item = (Angle, (Angle, Angle))>,
    ) {
        self.calls += 1;
        let mut found = (number != 0).then(|| format!("refused with {number}"));
        if ours::has_strayed() {
            found.get_or_insert_with(|| "written next to a buffer".to_string());
        }
        for (index, (ours, (altered, unaltered))) in answers.enumerate() {
            self.answers += 1;
            self.nans += u64::from(altered.0.is_nan());
            self.timelike += u64::from(altered.1 == 1);
            if !agree(ours.0, altered.0) || ours.1 != altered.1 {
                found.get_or_insert_with(|| format!("answer {index}: ours {}, Rust {}", shown(ours), shown(altered)));
            }
            self.distance.add(ours, unaltered);
        }
        if let Some(found) = found {
            self.differ(|| format!("{}: {found}", place()));
        }
    }

    /// Counts a call that must be refused with number 11 and keep its buffers, and what lies next to them.
    pub fn refusal(&mut self, place: impl Fn() -> String, number: u32, kept: bool) {
        let kept = kept && !ours::has_strayed();
        self.refused += 1;
        if number != 11 || !kept {
            self.differ(|| format!("{}: to be refused with 11: number {number}, buffers kept {kept}", place()));
        }
    }

    /// Counts a difference and prints the first few.
    pub fn differ(&mut self, text: impl FnOnce() -> String) {
        self.differences += 1;
        if self.differences <= PRINTED {
            println!("{}: {}", self.name, text());
        }
    }

    /// Prints the counts.
    pub fn print(&self) {
        let Tally { name, calls, answers, nans, timelike, refused, differences, .. } = self;
        println!(
            "{name}: {calls} calls, {answers} answers ({nans} NaN, {timelike} Timelike), {refused} refused calls, {differences} differences"
        );
    }

    /// Prints the unaltered Rust's distance.
    pub fn print_distance(&self) {
        self.distance.print(self.name);
    }

    /// Prints the lines of the table; the function's name ends at a comma.
    pub fn print_table(&self) {
        let name = self.name.split(',').next().unwrap();
        table::calls(name, self.calls + self.refused, self.calls, self.differences);
        table::distance(name, OTHERS, &self.distance);
    }
}

/// An answer's bits and kind.
fn shown((value, kind): Angle) -> String {
    format!("{:016x} ({value:e}) kind {kind}", value.to_bits())
}
