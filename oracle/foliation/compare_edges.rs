//! Compares our library's edge types and flat lengths with the altered Rust's and their refusals with the table.
use crate::ffi::{self, Lists};
use crate::guarded_complex::GuardedComplex;
use crate::guards::Guarded;
use crate::tally::{Tally, of_numbers, of_values};
use altered::foliation::FoliatedComplex;
use calls::checks::{Check, longer};
use calls::damages::{DAMAGES, Damage};
use calls::random::Random;
use lattices::expected::{self, Lattices};
use lattices::others::OTHERS;
use lattices::sizes::{self, Size};
use lattices::units::{self, Units};
use phyz_regge::complex::SimplicialComplex;

/// A lattice with at most so many vertices is small.
const SMALL: usize = 81;

/// How many pairs of spacing and step are drawn for a small lattice, and for a large one, beside those that are chosen: all, or one in so many.
const DRAWN: [usize; 2] = [200, 40];
const CHOSEN: [usize; 2] = [1, 23];

/// What guards the outputs.
const GUARD_BYTE: u8 = 0xa5;
const GUARD_BITS: u64 = 0x5a5a_a5a5_5a5a_a5a5;

/// Counts and lists between guards, the size that is asked for with them, and what the Rust has there.
struct Over<'a> {
    size: Size,
    complex: GuardedComplex<'a>,
    expected: Result<&'a FoliatedComplex, u32>,
}

impl<'a> Over<'a> {
    /// A size with counts and lists.
    fn new(lattices: &'a Lattices, size: Size, given: &'a Check) -> Self {
        Over { size, complex: GuardedComplex::new(given), expected: expected::over(lattices, size, given) }
    }

    /// How many edges the size's lattice has, or how many are counted.
    fn edges(&self) -> usize {
        self.expected.map_or(self.complex.given.counts[2].min(10_000), |lattice| lattice.complex.edges.len())
    }

    /// The counts and lists as they are lent.
    fn lent(&mut self) -> Lists {
        Lists { counts: self.complex.counts(), lists: self.complex.lists() }
    }

    /// The call in short.
    fn shown(&self, room: usize) -> String {
        let Check { counts, lengths, .. } = self.complex.given;
        format!("lattice {:?}, counts {counts:?}, lists of {lengths:?} places, output of {room}", self.size)
    }
}

/// The lengths of outputs for so many edges: enough in the first four, not in the others.
fn rooms(random: &mut Random, edges: usize) -> [usize; 7] {
    [edges, edges + 1, edges + 2 + random.below(100), edges + 5_000, edges - 1, 0, random.below(edges)]
}

/// A length of the output, mostly enough.
fn any_room(random: &mut Random, edges: usize) -> usize {
    let edges = edges.max(1);
    let rooms = rooms(random, edges);
    random.pick(&[edges, edges, edges, rooms[2], rooms[4], rooms[5]])
}

/// What was compared.
pub struct Edges<'a> {
    pub lattices: &'a Lattices,
    pub types: Tally,
    pub lengths: Tally,
}

impl Edges<'_> {
    /// Asks for the types and compares all that the call left.
    fn types(&mut self, kind: &str, over: &mut Over, room: usize) {
        let before: Vec<u8> = (0..room).map(|place| (place % 250) as u8 + 5).collect();
        let mut output = Guarded::new(&before, GUARD_BYTE);
        let ((n_t, n_s), lists) = (over.size, over.lent());
        let number = unsafe { ffi::edge_types(n_t, n_s, lists, output.start(), room) };
        let (expected, values) = expected::filled(over.expected, expected::types, before);
        let mut found = over.complex.stray();
        found.extend(output.complaint("types"));
        found.extend(of_numbers("number", number as usize, expected as usize));
        found.extend(of_values("types", output.content(), &values));
        self.types.add(kind, expected, || over.shown(room), &found);
    }

    /// Asks for the lengths and compares all that the call left.
    fn lengths(&mut self, kind: &str, over: &mut Over, room: usize, units: Units) {
        let before: Vec<u64> = (0..room as u64).map(|place| 0x1357_0000_0000_0000 + place).collect();
        let mut output = Guarded::new(&before, GUARD_BITS);
        let ((n_t, n_s), lists, to) = (over.size, over.lent(), output.start().cast());
        let number = unsafe { ffi::flat_minkowski_sq_lengths(n_t, n_s, lists, units.0, units.1, to, room) };
        let values = |lattice: &FoliatedComplex| expected::lengths(lattice, units);
        let (expected, values) = expected::filled(over.expected, values, before);
        let ours: Vec<u64> = output.content().iter().map(|&bits| expected::bits(f64::from_bits(bits))).collect();
        let mut found = over.complex.stray();
        found.extend(output.complaint("lengths"));
        found.extend(of_numbers("number", number as usize, expected as usize));
        found.extend(of_values("lengths", &ours, &values));
        self.lengths.add(kind, expected, || format!("{}, units {units:?}", over.shown(room)), &found);
    }

    /// Asks for both, with outputs of any length and any units.
    fn both(&mut self, random: &mut Random, kind: &str, size: Size, check: &Check) {
        let mut over = Over::new(self.lattices, size, check);
        let edges = over.edges();
        let room = any_room(random, edges);
        self.types(kind, &mut over, room);
        let (room, units) = (any_room(random, edges), units::drawn(random));
        self.lengths(kind, &mut over, room, units);
    }

    /// Every lattice with outputs of each length and units of every kind.
    fn answered(&mut self) {
        let mut random = Random::of_round(700);
        for (size, lattice) in &self.lattices.0 {
            let check = longer(&mut random, Check::new(&lattice.complex));
            let mut over = Over::new(self.lattices, *size, &check);
            let edges = over.edges();
            for room in rooms(&mut random, edges) {
                self.types("outputs of each length", &mut over, room);
                self.lengths("outputs of each length", &mut over, room, (1.0, 0.5));
            }
            let large = usize::from(lattice.complex.n_vertices > SMALL);
            for units in units::chosen().skip(large * size.0).step_by(CHOSEN[large]) {
                self.lengths("chosen spacings and steps", &mut over, edges, units);
            }
            for _ in 0..DRAWN[large] {
                let units = units::drawn(&mut random);
                self.lengths("drawn spacings and steps", &mut over, edges, units);
            }
        }
    }

    /// Every kind of damage to each lattice's lists: each turn of it to those of a small lattice, any turn to those of a large one.
    fn damaged(&mut self) {
        let mut random = Random::of_round(701);
        for (size, lattice) in &self.lattices.0 {
            for Damage { name, turns, make } in DAMAGES.iter().filter(|damage| !damage.name.starts_with("outputs")) {
                let large = lattice.complex.n_vertices > SMALL;
                let turns = if large { vec![random.below(*turns)] } else { Vec::from_iter(0..*turns) };
                for turn in turns {
                    let mut check = longer(&mut random, Check::new(&lattice.complex));
                    make(&mut random, turn, &lattice.complex, &mut check);
                    self.both(&mut random, &format!("damage: {name}"), *size, &check);
                }
            }
        }
    }

    /// Complexes that are built but aren't that lattice's.
    fn others(&mut self) {
        let mut random = Random::of_round(702);
        for (size, lattice) in &self.lattices.0 {
            for other in &OTHERS {
                let rounds = if lattice.complex.n_vertices > SMALL { 1 } else { 4 };
                for _ in 0..rounds {
                    let complex = other.make(&mut random, &lattice.complex);
                    let check = longer(&mut random, Check::new(&complex));
                    self.both(&mut random, &format!("built: {}", other.name), *size, &check);
                }
            }
        }
    }

    /// Every lattice's lists with every other lattice's size, and with none.
    fn other_sizes(&mut self) {
        let mut random = Random::of_round(703);
        for (size, lattice) in &self.lattices.0 {
            let check = Check::new(&lattice.complex);
            for (other, _) in self.lattices.0.iter().filter(|(other, _)| other != size) {
                self.both(&mut random, "another lattice's size", *other, &check);
            }
            let mut empty = Check::new(&SimplicialComplex::from_pentachorons(lattice.complex.n_vertices, &[]));
            self.both(&mut random, "no pentachorons", *size, &empty);
            empty.counts = [0; 5];
            self.both(&mut random, "no pentachorons", *size, &empty);
        }
    }

    /// Sizes that aren't lawful with a lattice's lists, whole and damaged, those with as many vertices among them.
    fn unlawful(&mut self) {
        let mut random = Random::of_round(704);
        let small: Vec<_> = self.lattices.0.iter().filter(|(_, lattice)| lattice.complex.n_vertices <= SMALL).collect();
        for (number, size) in sizes::unlawful(&mut random).into_iter().enumerate() {
            let (_, lattice) = small[number % small.len()];
            let mut check = Check::new(&lattice.complex);
            self.both(&mut random, "size not lawful", size, &check);
            let damage = &DAMAGES[1 + random.below(DAMAGES.len() - 1)];
            let turn = random.below(damage.turns);
            (damage.make)(&mut random, turn, &lattice.complex, &mut check);
            self.both(&mut random, "size not lawful, and a damage", size, &check);
        }
        for ((n_t, n_s), lattice) in &self.lattices.0 {
            let check = Check::new(&lattice.complex);
            let cut = [1 << 16, 1 << 32, 1 << 61, 1 << 62, 1 << 63];
            let near =
                [(lattice.complex.n_vertices, 1), (1, *n_s), (*n_t, 1), (*n_t, 9), (9, *n_s), (0, *n_s), (*n_t, 0)];
            let sizes = cut.into_iter().flat_map(|cut| [(n_t + cut, *n_s), (*n_t, n_s + cut)]).chain(near);
            for size in sizes {
                self.both(&mut random, "size not lawful, near the lattice's", size, &check);
            }
        }
    }

    /// Compares everything.
    pub fn compare(&mut self) {
        self.answered();
        self.damaged();
        self.others();
        self.other_sizes();
        self.unlawful();
        self.types.print("edge_types");
        self.lengths.print("flat_minkowski_sq_lengths");
    }
}
