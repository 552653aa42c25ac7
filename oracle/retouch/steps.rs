//! The edges and new lengths of successive retouches.
use crate::expected::Change;
use calls::random::Random;
use hinges::simplexes::SORTS;
use phyz_regge::complex::SimplicialComplex;

/// How the new lengths of a sequence are drawn.
#[derive(Clone, Copy)]
enum Kind {
    Moved,
    Chosen,
    Undone,
    Any,
}

/// The kinds with their names.
const KINDS: [(&str, Kind); 4] = [
    ("lengths moved", Kind::Moved),
    ("chosen lengths", Kind::Chosen),
    ("lengths of any sort, each undone by the next", Kind::Undone),
    ("lengths of any sort", Kind::Any),
];

/// How many kinds there are.
pub const COUNT: usize = KINDS.len();

/// Successive retouches: how lengths are drawn, and the last change with the length that it replaced.
pub struct Steps {
    kind: Kind,
    last: Option<(u32, f64)>,
}

impl Steps {
    /// A sequence, the kinds in turn; and the kind's name.
    pub fn new(number: usize) -> (&'static str, Steps) {
        let (name, kind) = KINDS[number % COUNT];
        (name, Steps { kind, last: None })
    }

    /// The next change to the lengths of a complex, which has edges.
    pub fn next(&mut self, random: &mut Random, complex: &SimplicialComplex, lengths: &[f64]) -> Change {
        if let (Kind::Undone, Some((edge, length))) = (self.kind, self.last.take()) {
            return Change { edge, length };
        }
        let edge = self.edge(random, complex);
        let old = lengths[edge];
        let length = match self.kind {
            Kind::Moved => moved(random, old),
            Kind::Chosen => chosen(random, old),
            Kind::Undone | Kind::Any => random.pick(&SORTS)(random),
        };
        let change = Change { edge: edge as u32, length };
        self.last = Some((change.edge, old));
        change
    }

    /// The first edge, the last, the last one again, one of a pentachoron with it, any.
    fn edge(&self, random: &mut Random, complex: &SimplicialComplex) -> usize {
        let (count, choice) = (complex.edges.len(), random.below(8));
        match (choice, self.last) {
            (0, _) => 0,
            (1, _) => count - 1,
            (2, Some((edge, _))) => edge as usize,
            (3, Some((edge, _))) => {
                let pent = random.pick(&complex.edge_to_pents[edge as usize]);
                random.pick(&complex.pent_edge_indices(pent))
            }
            _ => random.below(count),
        }
    }
}

/// A length near the old one, or of its size; any where that isn't finite.
fn moved(random: &mut Random, old: f64) -> f64 {
    let (near, factor) = (old + random.between(-0.01, 0.01), old * random.between(-2.0, 2.0));
    let (nudged, any) = (random.nudged(old, 3), random.between(-2.0, 2.0));
    let moved = random.pick(&[near, near, factor, nudged, any]);
    if moved.is_finite() { moved } else { any }
}

/// A whole length, the old one, its negative, or one that stands out: either zero, an infinity, NaN, subnormal, huge.
fn chosen(random: &mut Random, old: f64) -> f64 {
    let ([low, high], subnormal) = ([f64::NEG_INFINITY, f64::INFINITY], random.subnormal());
    let (whole, huge, nan) = (random.whole(9), random.huge(), random.nan());
    random.pick(&[whole, whole, whole, old, old, -old, 0.0, -0.0, low, high, nan, subnormal, huge])
}
