//! Compares our library's hinges, gradient and Hessian over free edges with the altered Rust's answers and their refusals with the table.
use crate::case::Case;
use crate::report_local::{Asked, LocalDistances, LocalReport};
use crate::{any_room, count, print};
use calls::checks::{Check, longer};
use calls::complexes::shuffle;
use calls::random::Random;
use calls::table;
use hinges::free_edges::{self, put_outside, put_twice};
use hinges::lengths;
use hinges::local::{self, Free};
use hinges::local_facts::Facts;
use phyz_regge::complex::SimplicialComplex;

/// How many lists of free edges a complex gets for its first lengths, and up to how many pentachorons; others get one.
const SOME: usize = 4;
const SMALL: usize = 120;

/// The steps on lattices with flat lengths.
const USUAL: [f64; 2] = [1e-6, 1e-3];

/// The refusals in the order of the checks; the last is the outputs'.
const REFUSALS: [u32; 5] = [7, 8, 9, 10, 5];

/// What was compared, what occurred, how far the unaltered Rust is from us, and how many lists of free edges of each kind there were.
pub struct CompareLocal {
    random: Random,
    drawn: usize,
    report: LocalReport,
    facts: Facts,
    lattice_distances: LocalDistances,
    other_distances: LocalDistances,
    frees: Vec<(String, usize)>,
}

impl Default for CompareLocal {
    fn default() -> Self {
        let (report, facts, frees) = (LocalReport::default(), Facts::default(), Vec::new());
        let [lattice_distances, other_distances] = Default::default();
        CompareLocal {
            random: Random::of_round(1_600),
            drawn: 0,
            report,
            facts,
            lattice_distances,
            other_distances,
            frees,
        }
    }
}

impl CompareLocal {
    /// Every function on a case that is accepted, with lists of free edges of the kinds in turn, given our gradient of all edges.
    pub fn answered(&mut self, kind: &str, case: &mut Case, lengths: &[f64], global: &[u64], every: bool, flat: bool) {
        let small = case.accepted.as_ref().is_ok_and(|complex| complex.pents.len() <= SMALL);
        for _ in 0..if every && small { SOME } else { 1 } {
            let complex = case.accepted.as_ref().ok().unwrap();
            let (name, mut free) = free_edges::drawn(&mut self.random, self.drawn, complex);
            if flat {
                free.fd_eps = self.random.pick(&USUAL);
            }
            self.drawn += 1;
            count(&mut self.frees, name);
            self.asked(kind, case, lengths, &free, global, flat);
        }
    }

    /// Every function with these free edges, with outputs of just their room and of any length.
    fn asked(&mut self, kind: &str, case: &mut Case, lengths: &[f64], free: &Free, global: &[u64], flat: bool) {
        let distances = if flat { &mut self.lattice_distances } else { &mut self.other_distances };
        let mut asked = Asked::new(case, lengths, free);
        let (complex, answers) = asked.accepted();
        if complex.pents.len() <= SMALL {
            self.facts.add(complex, lengths, free, answers);
        }
        let theirs = local::unaltered(complex, lengths, free);
        self.report.exact(kind, &mut asked, global, &theirs, distances);
        self.outputs(&mut asked);
    }

    /// Every function with outputs of any lengths.
    fn outputs(&mut self, asked: &mut Asked) {
        let name = "outputs of any length";
        let sizes = asked.sizes();
        let rooms = [(); 3].map(|()| any_room(&mut self.random, sizes[0]));
        self.report.hinges(name, asked, rooms);
        let room = any_room(&mut self.random, sizes[1]);
        self.report.gradient(name, asked, room);
        let room = any_room(&mut self.random, sizes[2]);
        let room = self.random.pick(&[room, room, room, sizes[1]]);
        self.report.hessian(name, asked, room);
    }

    /// Every function on a case that is refused, with free edges and outputs that are lawful, or that aren't.
    pub fn refused(&mut self, kind: &str, case: &mut Case, complex: &SimplicialComplex, lengths: &[f64], lawful: bool) {
        let (_, mut free) = free_edges::drawn(&mut self.random, self.drawn, complex);
        self.drawn += 1;
        let mut defects = [false; 3];
        if !lawful {
            defects = [(); 3].map(|()| self.random.below(2) == 0);
        }
        self.put_defects(&mut free, complex.edges.len(), [defects[0], defects[1]]);
        let mut asked = Asked::new(case, lengths, &free);
        self.all_with(kind, &mut asked, defects[2]);
    }

    /// Puts a number that is no edge's into a list, or one twice, in either order.
    fn put_defects(&mut self, free: &mut Free, edges: usize, [outside, twice]: [bool; 2]) {
        let first = self.random.below(2) == 0;
        if twice && first {
            put_twice(&mut self.random, edges, &mut free.edges);
        }
        if outside {
            put_outside(&mut self.random, edges, &mut free.edges);
        }
        if twice && !first {
            put_twice(&mut self.random, edges, &mut free.edges);
        }
    }

    /// Every function with outputs of just their room or one short; of the hinges' three it is any.
    fn all_with(&mut self, kind: &str, asked: &mut Asked, short: bool) {
        let less = |places: usize| places.saturating_sub(usize::from(short));
        let [tris, free, entries] = asked.sizes();
        let mut rooms = [tris; 3];
        rooms[self.random.below(3)] = less(tris);
        self.report.hinges(kind, asked, rooms);
        self.report.gradient(kind, asked, less(free));
        self.report.hessian(kind, asked, less(entries));
    }

    /// Every choice of the five defects on a complex with lengths: the earliest of the table's row must be given.
    pub fn combined(&mut self, complex: &SimplicialComplex, number: usize) {
        let (_, lengths) = lengths::drawn(&mut self.random, number, complex);
        let (edges, more) = (lengths.len(), [&lengths[..], &lengths, &[0.0]].concat());
        for choice in 0..1 << REFUSALS.len() {
            let [damaged, wrong, outside, twice, short] = std::array::from_fn(|defect| choice >> defect & 1 == 1);
            let mut check = longer(&mut self.random, Check::new(complex));
            check.counts[1 + self.random.below(4)] += usize::from(damaged);
            let other = self.random.pick(&[0, edges + 1, 2 * edges, edges.saturating_sub(1)]);
            let lent = if wrong { other } else { edges };
            let mut free = self.some_free(complex);
            self.put_defects(&mut free, edges, [outside, twice]);
            let mut case = Case::new(&check, &more, lent);
            let mut asked = Asked::new(&mut case, &more[..lent], &free);
            let due = (0..4).find(|defect| choice >> defect & 1 == 1).map(|defect| REFUSALS[defect]);
            let agrees = edges == 0 || asked.expected.as_ref().err().copied() == due;
            assert!(agrees, "the table gives another number for the defects {choice:05b}");
            self.all_with("defects combined", &mut asked, short);
        }
    }

    /// Free edges of the kinds in turn, one at least where there are edges.
    fn some_free(&mut self, complex: &SimplicialComplex) -> Free {
        let (_, mut free) = free_edges::drawn(&mut self.random, self.drawn, complex);
        self.drawn += 1;
        if free.edges.is_empty() && !complex.edges.is_empty() {
            free.edges.push(0);
        }
        free
    }

    /// Lists longer than a complex's edges: one number again and again, all numbers and again, one outside at the end.
    pub fn long_lists(&mut self, complex: &SimplicialComplex, lengths: &[f64]) {
        let (check, edges) = (Check::new(complex), complex.edges.len() as u32);
        let again = |count: usize| (0..edges).cycle().take(count).collect::<Vec<u32>>();
        let outside = [again(300_000), vec![edges]].concat();
        let lists = [again(edges as usize + 1), again(90_000), vec![0; 1 << 17], vec![edges; 90_000], outside];
        let mut case = Case::new(&check, lengths, lengths.len());
        for edges in lists {
            let free = Free { edges, fd_eps: 1e-6 };
            let mut asked = Asked::new(&mut case, lengths, &free);
            self.all_with("lists longer than the edges", &mut asked, false);
        }
    }

    /// All edges of a complex, ascending and in any order; our gradient of all edges is given.
    pub fn all_edges(&mut self, kind: &str, case: &mut Case, lengths: &[f64], global: &[u64], fd_eps: f64) {
        let ascending: Vec<u32> = (0..lengths.len() as u32).collect();
        let mut any = ascending.clone();
        shuffle(&mut self.random, &mut any);
        for edges in [ascending, any] {
            count(&mut self.frees, "all");
            self.asked(kind, case, lengths, &Free { edges, fd_eps }, global, false);
        }
    }

    /// Prints the report; how many calls differ, and how many facts didn't occur.
    pub fn print(&self, lattices: &str) -> [u64; 2] {
        print("free edges", &self.frees);
        let differences = self.report.print();
        println!("distance of the unaltered Rust from us, no pass mark; its sums come in another order in each run:");
        self.lattice_distances.print(&format!("{lattices}, steps 1e-6 and 1e-3"), table::LATTICES);
        self.other_distances.print("others, steps of all kinds", table::OTHERS);
        [differences, self.facts.print()]
    }
}
