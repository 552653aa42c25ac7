//! What occurs among the inputs and in what must be printed, counted so that none of it goes without inputs.
use crate::expected::{Refusal, Verdict};
use crate::fields::{self, Fields, LARGEST_VERTEX, LONGEST, MOST_PENTS};
use calls::Pent;
use hinges::facts::print;

/// What is counted, in this order.
const NAMES: [&str; 23] = [
    "answers of no pentachorons",
    "answers of 64 pentachorons",
    "answers to inputs of 5,604 bytes",
    "answers with 4096 vertices",
    "answers with the vertex 4095",
    "lengths NaN",
    "lengths infinite",
    "lengths -0",
    "lengths subnormal",
    "lengths below 0",
    "lengths above 0",
    "hinges S",
    "hinges T",
    "hinges nan",
    "hinges with the deficit -0.0",
    "gradient entries nan",
    "gradient entries 0",
    "gradient entries of other bits",
    "refusals with 3 at the last of 64 pentachorons",
    "refusals with 4 at the last of 64 pentachorons",
    "refusals with 3 before a pentachoron with a vertex twice",
    "refusals with 3 at a pentachoron with a vertex twice",
    "refusals with 4 before a pentachoron with a vertex outside",
];

/// The counts.
#[derive(Default)]
pub struct Facts([u64; NAMES.len()]);

/// Whether a pentachoron has a vertex twice.
fn has_twice(pent: &Pent) -> bool {
    (0..5).any(|slot| pent[..slot].contains(&pent[slot]))
}

impl Facts {
    /// Counts from a fact on, one for each that holds.
    fn hold<const N: usize>(&mut self, first: usize, facts: [bool; N]) {
        facts.into_iter().enumerate().for_each(|(fact, holds)| self.0[first + fact] += u64::from(holds));
    }

    /// Counts what an answered input has and what is printed for it.
    fn answered(&mut self, input: &[u8], fields: &Fields, output: &str) {
        let Fields { n_vertices, n_pents, pents, lengths, .. } = fields;
        let has_last = pents.as_flattened().contains(&(LARGEST_VERTEX as u32));
        let sizes = [*n_pents == 0, *n_pents == MOST_PENTS, input.len() == LONGEST, *n_vertices == LARGEST_VERTEX + 1];
        self.hold(0, sizes);
        self.hold(4, [has_last]);
        for length in lengths.iter().map(|&bits| f64::from_bits(bits)) {
            let is_zero = length == 0.0 && length.is_sign_negative();
            let sizes = [length.is_nan(), length.is_infinite(), is_zero, length.is_subnormal()];
            self.hold(5, sizes);
            self.hold(9, [length < 0.0, length > 0.0]);
        }
        for line in output.lines() {
            match line.split(' ').collect::<Vec<_>>()[..] {
                ["hinge", _, kind, deficit] => {
                    self.hold(11, [kind == "S", kind == "T", deficit == "nan", deficit == "8000000000000000"]);
                }
                ["grad", _, entry] => {
                    let [nan, zero] = ["nan", "0000000000000000"].map(|text| entry == text);
                    self.hold(15, [nan, zero, !nan && !zero]);
                }
                _ => (),
            }
        }
    }

    /// Counts where a pentachoron is refused, and what others there are.
    fn pents(&mut self, input: &[u8], number: u32, place: usize) {
        let (n_vertices, n_pents) = fields::header(input).unwrap();
        let (pents, _) = fields::pents(input, n_pents).unwrap();
        let (refused, later) = (&pents[place], &pents[place + 1..]);
        let is_outside = |pent: &Pent| pent.iter().any(|&vertex| vertex as usize >= n_vertices);
        let is = |refusal: u32| number == refusal;
        let last = place + 1 == MOST_PENTS;
        self.hold(18, [is(3) && last, is(4) && last, is(3) && later.iter().any(has_twice)]);
        self.hold(21, [is(3) && has_twice(refused), is(4) && later.iter().any(is_outside)]);
    }

    /// Counts what occurs in an input and in what must be printed for it.
    pub fn add(&mut self, input: &[u8], verdict: &Verdict, output: &str) {
        match verdict {
            Ok(fields) => self.answered(input, fields, output),
            Err(Refusal::Builder(number @ 3..=4, place)) => self.pents(input, *number, *place),
            Err(_) => (),
        }
    }

    /// Prints the counts; how many are 0.
    pub fn print(&self) -> u64 {
        print(&self.0, &NAMES)
    }
}
