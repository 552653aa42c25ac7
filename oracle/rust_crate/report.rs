//! How many calls of each function of the crate were compared, and how many differ.
use calls::differences::Differences;
use calls::table;
use cjapthumi::Refusal;
use std::collections::BTreeMap;
use std::fmt::Debug;

/// A refusal's number and place.
pub type Refused = (u32, usize);

/// How many calls of a function were compared, how many of them were to be answered, and how many differ.
#[derive(Default)]
struct Counts {
    calls: u64,
    answered: u64,
    differences: u64,
}

/// The counts of each function, or of a type with methods, and the differences that are printed.
#[derive(Default)]
pub struct Report {
    counts: BTreeMap<&'static str, Counts>,
    differences: Differences,
}

/// A number's bits; those of one NaN for every NaN.
pub fn bits(x: f64) -> u64 {
    if x.is_nan() { f64::NAN.to_bits() } else { x.to_bits() }
}

/// The bits of some numbers.
pub fn all_bits(numbers: &[f64]) -> Vec<u64> {
    numbers.iter().map(|&x| bits(x)).collect()
}

impl Report {
    /// Counts a call of a function, and what differs if anything does.
    fn count(&mut self, name: &'static str, is_answered: bool, difference: Option<String>) {
        let counts = self.counts.entry(name).or_default();
        counts.calls += 1;
        counts.answered += u64::from(is_answered);
        if let Some(difference) = difference {
            counts.differences += 1;
            self.differences.add(&format!("{name}, {difference}"));
        }
    }

    /// Compares what a call gave, in a form in which equal answers are the same, with what is due; a refusal also with the one that is
    /// made of the number and place that are due.
    pub fn call<T: PartialEq + Debug>(
        &mut self,
        name: &'static str,
        about: impl Fn() -> String,
        ours: Result<T, Refusal>,
        due: Result<T, Refused>,
    ) {
        if let (Err(refusal), Err((number, place))) = (&ours, &due) {
            let made = Refusal::from_number(*number, *place);
            let difference = || format!("{number}, {place} make {made:?}, given {refusal:?}");
            self.count("Refusal", true, (made != Some(*refusal)).then(difference));
        }
        let ours = ours.map_err(|refusal| (refusal.number(), refusal.place()));
        let difference = (ours != due).then(|| format!("{}\n  ours {ours:?}\n  due {due:?}", about()));
        self.count(name, due.is_ok(), difference);
    }

    /// Compares a call that is never refused.
    pub fn plain<T: PartialEq + Debug>(&mut self, name: &'static str, about: impl Fn() -> String, ours: T, due: T) {
        self.call(name, about, Ok(ours), Ok(due));
    }

    /// Compares a call that changes what it is lent: its refusal, if any, and what it left.
    pub fn lent<T: PartialEq + Debug>(
        &mut self,
        name: &'static str,
        about: impl Fn() -> String,
        (ours, left): (Result<(), Refusal>, T),
        (due, due_left): (Result<(), Refused>, T),
    ) {
        if left == due_left {
            self.call(name, about, ours, due);
        } else {
            let difference = format!("{}\n  left {left:?}\n  due {due_left:?}", about());
            self.count(name, due.is_ok(), Some(difference));
        }
    }

    /// Prints the counts; how many calls differ.
    pub fn print(&self) -> u64 {
        for (name, Counts { calls, answered, differences }) in &self.counts {
            println!("{calls} calls of {name}: {answered} answered, {} refused", calls - answered);
            table::calls(&format!("crate_{name}"), *calls, *answered, *differences);
        }
        self.differences.0
    }
}
