//! Each retouch of our library, and how all that it left differs from what the altered Rust, the table and demand 3 say.
use crate::checked;
use crate::expected::{self, Change, Table};
use crate::facts::Facts;
use crate::ffi::{self, Lists};
use crate::guarded_complex::GuardedComplex;
use crate::guards::Guarded;
use crate::incidence::Incidence;
use crate::step::{Step, around};
use crate::tally::{Tally, of_numbers, of_values};
use calls::checks::Check;
use calls::table;
use hinges::distance::{Distance, agree};
use hinges::expected::{accepted, bits};
use phyz_regge::complex::SimplicialComplex;

/// What guards the lengths, the deficits and the kinds.
const GUARD: u64 = 0x5a5a_a5a5_5a5a_a5a5;
const GUARD_BYTE: u8 = 0xa5;

/// Counts and lists between guards, and what the core takes besides unless 7 is due; the complex that they are with their lengths, or 7 or 8; the lengths and the table, which retouches change; and the table worked out anew from the lengths, once it is known.
pub struct Case<'a> {
    complex: GuardedComplex<'a>,
    incidence: Option<Incidence>,
    pub accepted: Result<SimplicialComplex, u32>,
    pub lengths: Vec<f64>,
    pub table: Table,
    anew: Option<Table>,
}

impl<'a> Case<'a> {
    /// Counts, lists, lengths and a table.
    pub fn new(check: &'a Check, lengths: &[f64], table: Table) -> Self {
        let (mut complex, accepted) = (GuardedComplex::new(check), accepted(check, lengths));
        let is_built = !matches!(accepted, Err(7));
        let incidence = is_built.then(|| Incidence::new(&mut complex));
        Case { complex, incidence, accepted, lengths: lengths.to_vec(), table, anew: None }
    }

    /// What a call did to the counts, the lists and what the core takes besides.
    fn stray(&self) -> Vec<String> {
        let incidence = self.incidence.iter().flat_map(Incidence::stray);
        self.complex.stray().into_iter().chain(incidence).collect()
    }

    /// The case in short.
    fn shown(&self, change: Change) -> String {
        let Check { counts, lengths, lists, .. } = self.complex.given;
        let (pents, Change { edge, length }) = (&lists[0][..lists[0].len().min(40)], change);
        let given: Vec<String> =
            self.lengths.iter().take(40).map(|length| format!("{:016x}", length.to_bits())).collect();
        let (given, rooms) = (given.join(" "), [self.table.deficits.len(), self.table.kinds.len()]);
        let (new, lent) = (length.to_bits(), self.lengths.len());
        format!(
            "edge {edge}, new length {new:016x}, table of {rooms:?}, counts {counts:?}, lists of {lengths:?} places, pents {pents:?}, {lent} lengths {given}"
        )
    }
}

/// What our call gave and left: its number, the bits of the lengths, the table, and what it did to memory that it wasn't lent to write to.
struct Called {
    number: u32,
    lengths: Vec<u64>,
    table: Table,
    stray: Vec<String>,
}

/// The lengths, the deficits and the kinds as they are lent.
type Lent = ((*mut f64, usize), (*mut f64, usize), (*mut u8, usize));

/// Makes a call with the case's lengths and table between guards.
fn called(case: &Case, call: impl FnOnce(Lent) -> u32) -> Called {
    let mut lengths = Guarded::new(&bits(&case.lengths), GUARD);
    let mut deficits = Guarded::new(&case.table.deficits, GUARD);
    let mut kinds = Guarded::new(&case.table.kinds, GUARD_BYTE);
    let lent = (lengths.start().cast(), lengths.content().len());
    let table = ((deficits.start().cast(), deficits.content().len()), (kinds.start(), kinds.content().len()));
    let number = call((lent, table.0, table.1));
    let mut stray = case.stray();
    let complaints = [lengths.complaint("lengths"), deficits.complaint("deficits"), kinds.complaint("kinds")];
    stray.extend(complaints.into_iter().flatten());
    let table = Table { deficits: deficits.content().to_vec(), kinds: kinds.content().to_vec() };
    Called { number, lengths: lengths.content().to_vec(), table, stray }
}

/// Our checked call.
fn checked(case: &mut Case, Change { edge, length }: Change) -> Called {
    let complex = Lists { counts: case.complex.counts(), lists: case.complex.lists() };
    called(case, |(s, d, k)| unsafe { checked::retouch(complex, s.0, s.1, edge, length, d.0, d.1, k.0, k.1) })
}

/// The core's call, unless 7 is due.
fn core(case: &mut Case, Change { edge, length }: Change) -> Option<Called> {
    let built = case.incidence.as_mut()?.built(&mut case.complex);
    Some(called(case, |(s, d, k)| unsafe { ffi::retouch_built(built, s.0, s.1, edge, length, d.0, d.1, k.0, k.1) }))
}

/// How doubles differ from those expected; any NaN agrees with any at the places that are written, which ascend.
fn of_doubles(name: &str, ours: &[u64], expected: &[u64], written: &[usize]) -> Option<String> {
    let same = |place: usize| agree(f64::from_bits(ours[place]), f64::from_bits(expected[place]));
    let nans = |place: usize| written.binary_search(&place).is_ok() && same(place);
    let place = (0..ours.len()).find(|&place| ours[place] != expected[place] && !nans(place))?;
    Some(format!("{name}, the first is {place}: ours {:016x}, expected {:016x}", ours[place], expected[place]))
}

/// What is due: the number, the bits of the lengths and the table, and the edge and the triangles that are written.
struct Due {
    number: u32,
    lengths: Vec<u64>,
    table: Table,
    edge: Vec<usize>,
    tris: Vec<usize>,
}

/// All that a call did otherwise than is due.
fn differences(ours: &Called, due: &Due) -> Vec<String> {
    let found = [
        of_numbers("number", ours.number as usize, due.number as usize),
        of_doubles("lengths", &ours.lengths, &due.lengths, &due.edge),
        of_doubles("deficits", &ours.table.deficits, &due.table.deficits, &due.tris),
        of_values("kinds", &ours.table.kinds, &due.table.kinds),
    ];
    ours.stray.iter().cloned().chain(found.into_iter().flatten()).collect()
}

/// What was compared, of the core too, what occurred, and how far the unaltered Rust is from us on lattices and elsewhere.
#[derive(Default)]
pub struct Report {
    tally: Tally,
    core: Tally,
    facts: Facts,
    distances: [Distance; 2],
}

impl Report {
    /// Asks for a retouch, and for the core's; what the first leaves is the case's then.
    pub fn retouch(&mut self, kind: &str, case: &mut Case, change: Change, is_lattice: bool) {
        let (ours, core) = (checked(case, change), core(case, change));
        let number = expected::number(&case.accepted, change.edge, &case.table);
        let (lengths, table) = (bits(&case.lengths), case.table.clone());
        let mut due = Due { number, lengths, table, edge: vec![], tris: vec![] };
        let complaint = if number == 0 { self.answered(case, change, &ours, &mut due, is_lattice) } else { None };
        let found: Vec<String> = differences(&ours, &due).into_iter().chain(complaint).collect();
        self.tally.add(kind, number, || case.shown(change), &found);
        if let Some(core) = core {
            self.core.add(kind, number, || case.shown(change), &differences(&core, &due));
        }
        case.lengths = ours.lengths.into_iter().map(f64::from_bits).collect();
        case.table = ours.table;
    }

    /// Puts what is due of an answered retouch; what is to be said where demand 3 doesn't hold.
    fn answered(
        &mut self,
        case: &mut Case,
        change: Change,
        ours: &Called,
        due: &mut Due,
        is_lattice: bool,
    ) -> Option<String> {
        let (complex, edge) = (case.accepted.as_ref().ok().unwrap(), change.edge as usize);
        let mut lengths = case.lengths.clone();
        lengths[edge] = change.length;
        let old = case.anew.take().unwrap_or_else(|| expected::anew(complex, &case.lengths));
        let (new, (holders, touched)) = (expected::anew(complex, &lengths), around(complex, change));
        due.table = expected::left(&case.table, &touched, &new);
        (due.lengths, due.edge, due.tris) = (bits(&lengths), vec![edge], touched.clone());
        let (before, after, old_length) = (&case.table, &ours.table, case.lengths[edge]);
        let step = Step { complex, change, old_length, holders, touched, before, after, old: &old, new: &new };
        let complaint = step.complaint();
        self.facts.add(&step);
        self.measure(&step, &lengths, is_lattice);
        case.anew = Some(new);
        complaint
    }

    /// Takes the unaltered Rust's distance at the touched triangles into account.
    fn measure(&mut self, step: &Step, lengths: &[f64], is_lattice: bool) {
        let theirs = phyz_regge::lorentzian_regge::lorentzian_deficit_angles(step.complex, lengths);
        for &tri in &step.touched {
            let ours = (f64::from_bits(step.after.deficits[tri]), step.after.kinds[tri]);
            self.distances[usize::from(!is_lattice)].add(ours, (theirs[tri].0, theirs[tri].1 as u8));
        }
    }

    /// Prints the counts; how many calls differ, and how many facts didn't occur.
    pub fn print(&self) -> [u64; 2] {
        self.tally.print("retouch");
        self.core.print("retouch_built");
        println!("distance of the unaltered Rust from us, no pass mark:");
        let inputs = [("lattices with lengths moved", table::LATTICES), ("others", table::OTHERS)];
        for (distance, (name, inputs)) in self.distances.iter().zip(inputs) {
            distance.print(&format!("deficits, {name}"));
            table::distance("retouch", inputs, distance);
        }
        [self.tally.differences.0 + self.core.differences.0, self.facts.print()]
    }
}
