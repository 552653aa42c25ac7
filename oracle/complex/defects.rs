//! Calls with defects; a defect is known by the number of the refusal that it earns where it stands alone.
use crate::complexes::{MOST_PENTS, VERTICES, scattered, shuffle};
use crate::random::Random;
use crate::{Call, rooms};

/// The defects in the order in which they are looked for.
const DEFECTS: [u32; 5] = [1, 2, 5, 3, 4];

/// Every choice of one defect or several.
pub fn choices() -> impl Iterator<Item = Vec<u32>> {
    let chosen = |choice: usize| (0..5).filter(move |place| choice >> place & 1 == 1).map(|place| DEFECTS[place]);
    (1..32).map(move |choice| chosen(choice).collect())
}

/// The call of a number with these defects, which may cause others: mostly on up to twelve pentachorons, now and then on as many as are lawful.
pub fn call(random: &mut Random, number: usize, defects: &[u32]) -> Call {
    let has = |defect: u32| defects.contains(&defect);
    let n_vertices = VERTICES[number % VERTICES.len()];
    let count = if number % 150 == 149 { MOST_PENTS } else { random.below(12) + usize::from(has(3) || has(4)) };
    let pents = scattered(random, n_vertices, count).into_flattened();
    let mut call = Call { n_vertices, pents, lengths: [0; 10] };
    if has(1) {
        call.n_vertices = wrong_vertex_count(random);
    }
    spoil_pents(random, &mut call, has(3), has(4));
    if has(2) {
        spoil_length(random, &mut call.pents);
    }
    let extra = random.pick(&[0, 0, 1, 30]);
    call.lengths = rooms(call.pents.len() + 4).map(|room| room + extra);
    if has(5) {
        shorten(random, &mut call, number);
    }
    call
}

/// 0, or a vertex count above 4096.
fn wrong_vertex_count(random: &mut Random) -> usize {
    let any = random.word() as usize | 1 << 13;
    random.pick(&[0, 0, 4_097, 4_097, 4_098, 8_192, 65_536, 65_541, 1 << 32, (1 << 32) + 12, 1 << 63, usize::MAX, any])
}

/// Puts vertices outside into some pentachorons, then a vertex twice into some: in the same one, in others, in any order; a vertex outside may itself be there twice.
fn spoil_pents(random: &mut Random, call: &mut Call, outside: bool, twice: bool) {
    let mut slots = [0, 1, 2, 3, 4];
    shuffle(random, &mut slots);
    let first = random.below(1 + call.pents.len() / 5);
    if outside {
        let slot = random.pick(&slots[1..3]);
        for pent in spoilt(random, call, first) {
            call.pents[5 * pent + slot] = vertex_outside(random, call.n_vertices);
        }
    }
    if twice {
        for pent in spoilt(random, call, first) {
            call.pents[5 * pent + slots[0]] = call.pents[5 * pent + slots[1]];
        }
    }
}

/// One to three pentachorons: half of the time `first` is among them, or the last.
fn spoilt(random: &mut Random, call: &Call, first: usize) -> Vec<usize> {
    let count = call.pents.len() / 5;
    let mut spoilt: Vec<usize> = (0..random.pick(&[1, 1, 2, 3])).map(|_| random.below(count)).collect();
    if random.below(2) == 0 {
        spoilt[0] = first.min(count - 1);
    }
    spoilt
}

/// A vertex that isn't below the count, or the largest where there is none: the next ones, some that are small after a cut to 12, 16 or 31 bits, the last one, any.
fn vertex_outside(random: &mut Random, n_vertices: usize) -> u32 {
    let (small, any) = (random.below(5), random.below(1 << 32));
    let next = n_vertices.saturating_add(1);
    let cut = random.pick(&[1 << 12, 1 << 16, 1 << 31]) + small;
    let vertex = random.pick(&[n_vertices, n_vertices, next, cut, cut, u32::MAX as usize, any]);
    u32::try_from(vertex.max(n_vertices)).unwrap_or(u32::MAX)
}

/// Makes the length no multiple of 5 or, now and then, greater than is lawful; what is added is 0, 1, 2, 3, 4 again and again.
fn spoil_length(random: &mut Random, pents: &mut Vec<u32>) {
    let ragged = pents.len() + 1 + random.below(4);
    let long = 5 * MOST_PENTS + random.pick(&[1, 4, 5, 5, 10, 500]);
    let length = if random.below(16) == 0 { long } else { ragged };
    pents.extend((pents.len()..length).map(|place| place as u32 % 5));
}

/// Makes one list too short, each in turn, or several: by one place, by some, by all.
fn shorten(random: &mut Random, call: &mut Call, number: usize) {
    let rooms = rooms(call.pents.len());
    for again in 0..random.pick(&[1, 1, 1, 2, 5]) {
        let list = if again == 0 { number % 10 } else { random.below(10) };
        let list = if rooms[list] == 0 { random.pick(&[5, 7, 9]) } else { list };
        let any = random.below(rooms[list]);
        call.lengths[list] = random.pick(&[rooms[list] - 1, rooms[list] - 1, 0, any]);
    }
}
