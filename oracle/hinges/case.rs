//! What is lent to a call to be read, between guards, and what the Rust answers to it.
use crate::both::Read;
use crate::ffi::{BuiltLists, Lists};
use crate::guarded_complex::GuardedComplex;
use crate::guards::Guarded;
use crate::incidence::Incidence;
use calls::checks::Check;
use hinges::expected::{self, Answers};
use phyz_regge::complex::SimplicialComplex;

/// What guards the lengths.
const GUARD: u64 = 0x5a5a_a5a5_5a5a_a5a5;

/// Counts, lists and lengths between guards, what a core takes besides unless 7 is due, the complex that they are, or 7 or 8, and the altered Rust's answers.
pub struct Case<'a> {
    complex: GuardedComplex<'a>,
    incidence: Option<Incidence>,
    lengths: Guarded<u64>,
    given: Vec<u64>,
    lent: usize,
    pub accepted: Result<SimplicialComplex, u32>,
    pub expected: Result<Answers, u32>,
}

impl<'a> Case<'a> {
    /// Counts, lists and so many of these lengths: what isn't lent of them stands past what is.
    pub fn new(check: &'a Check, lengths: &[f64], lent: usize) -> Self {
        let given = expected::bits(lengths);
        let accepted = expected::accepted(check, &lengths[..lent]);
        let expected = expected::over(&accepted, &lengths[..lent]);
        let (mut complex, lengths) = (GuardedComplex::new(check), Guarded::new(&given, GUARD));
        let is_built = !matches!(accepted, Err(7));
        let incidence = is_built.then(|| Incidence::new(&mut complex));
        Case { complex, incidence, lengths, given, lent, accepted, expected }
    }

    /// The counts, lists and lengths as they are lent.
    pub fn lent(&mut self) -> (Lists, *const f64, usize) {
        let complex = Lists { counts: self.complex.counts(), lists: self.complex.lists() };
        (complex, self.lengths.start().cast_const().cast(), self.lent)
    }

    /// How many triangles and edges the complex has, or as many as are counted where it isn't one.
    pub fn sizes(&self) -> [usize; 2] {
        match &self.expected {
            Ok(answers) => [answers.kinds.len(), answers.grad.len()],
            Err(_) => [3, 2].map(|place| self.complex.given.counts[place].min(10_000)),
        }
    }
}

impl Read for Case<'_> {
    fn built(&mut self) -> Option<BuiltLists> {
        Some(self.incidence.as_mut()?.built(&mut self.complex))
    }

    fn stray(&self) -> Vec<String> {
        let incidence = self.incidence.iter().flat_map(Incidence::stray);
        let lengths = self.lengths.complaints("lengths", &self.given);
        self.complex.stray().into_iter().chain(incidence).chain(lengths).collect()
    }

    fn shown(&self) -> String {
        let Check { counts, lengths, lists, .. } = self.complex.given;
        let pents = &lists[0][..lists[0].len().min(40)];
        let given: Vec<String> = self.given.iter().take(40).map(|bits| format!("{bits:016x}")).collect();
        let given = given.join(" ");
        format!("counts {counts:?}, lists of {lengths:?} places, pents {pents:?}, {} lengths of {given}", self.lent)
    }
}
