//! The changes between the checks of a replay.
use calls::Call;
use calls::checks::{self, Check};
use calls::damages::DAMAGES;
use calls::random::Random;
use phyz_regge::complex::SimplicialComplex;

/// The most changes that a frozen damage has.
const MOST: usize = 17;

/// How often a damage is drawn until one is refused, then until one is small.
const DRAWS: usize = 100;

/// A number put at a place of one of the ten lists or, for 10, of the settings, which are the counts, then the lengths of the lists and of the outputs.
#[derive(Clone, Copy)]
pub struct Change {
    list: usize,
    place: usize,
    number: usize,
}

/// The settings in their order.
fn settings(check: &mut Check) -> Vec<&mut usize> {
    check.counts.iter_mut().chain(&mut check.lengths).chain(&mut check.outputs).collect()
}

impl Change {
    /// Makes the change.
    pub fn make(&self, check: &mut Check) {
        let Change { list, place, number } = *self;
        match check.lists.get_mut(list) {
            Some(list) => list[place] = number as u32,
            None => *settings(check)[place] = number,
        }
    }

    /// One number: 16 bits for the list, 16 for the place, 32 for the number; for a setting near the largest 11, and what lacks to that.
    pub fn packed(&self) -> usize {
        let Change { list, place, number } = *self;
        if number >> 32 == 0 { list << 48 | place << 32 | number } else { 11 << 48 | place << 32 | !number }
    }

    /// Whether it is all in that number.
    fn fits(&self) -> bool {
        self.number >> 32 == 0 || self.list == 10 && !self.number >> 32 == 0
    }
}

/// What has to be changed in one check to get the other, if that is all that differs.
fn between(from: &Check, to: &Check) -> Option<Vec<Change>> {
    let (mut from, mut to) = (from.clone(), to.clone());
    let mut changes = Vec::new();
    for (list, (old, new)) in from.lists.iter().zip(&to.lists).enumerate() {
        let places = (0..old.len()).filter(|&place| old[place] != new[place]);
        changes.extend(places.map(|place| Change { list, place, number: new[place] as usize }));
        if old.len() != new.len() {
            return None;
        }
    }
    for (place, (old, new)) in settings(&mut from).into_iter().zip(settings(&mut to)).enumerate() {
        if old != new {
            changes.push(Change { list: 10, place, number: *new });
        }
    }
    changes.iter().all(Change::fits).then_some(changes)
}

/// Adds each turn of every kind of damage, where one is small, to the lines in turn, and undoes it again.
pub fn damage(lines: &mut [(Call, Vec<Change>)], built: impl Fn(&Call) -> Check) {
    let mut random = Random(500);
    let turns = DAMAGES.iter().flat_map(|damage| (0..damage.turns).map(move |turn| (damage, turn)));
    for (number, (damage, turn)) in turns.enumerate() {
        let (call, changes) = &mut lines[number % 3];
        let base = built(call);
        let complex = SimplicialComplex::from_pentachorons(call.n_vertices, &calls::as_rust(call.pents.as_chunks().0));
        let draw = |_| {
            let mut check = base.clone();
            (damage.make)(&mut random, turn, &complex, &mut check);
            let changes = between(&base, &check)?;
            (1..=MOST).contains(&changes.len()).then_some((check, changes))
        };
        let drawn: Vec<_> = (0..DRAWS).filter_map(draw).collect();
        let refused =
            |(check, _): &&(Check, _)| checks::answer(check, check.outputs.map(|length| vec![0; length])).number != 0;
        if let Some((check, done)) = drawn.iter().find(refused).or(drawn.first()) {
            changes.extend(done);
            changes.extend(between(check, &base).unwrap());
        }
    }
}
