//! Inputs that are refused, each with the reason that it has by how it is made.
use crate::defects::{bytes, many_pents, sized, spoil, spoil_pents, vertex_outside, wrong_size, wrong_vertex_count};
use crate::expected::Refusal;
use crate::fields::{
    Fields, HEADER_BYTES, LARGEST_VERTEX, LARGEST_VERTEX_COUNT, LONGEST, MOST_PENTS, padding_bits, vertex_bytes,
};
use crate::lawful;
use calls::random::Random;
use hinges::simplexes::EDGES;

/// An input, and why it is refused.
type Refused = (Vec<u8>, Refusal);

/// A kind of refused inputs: how many are compared, and how the one of a number is drawn.
pub struct Kind {
    pub name: &'static str,
    pub count: usize,
    pub draw: fn(&mut Random, usize) -> Refused,
}

pub const KINDS: [Kind; 14] = [
    Kind { name: "no byte, one byte of each value", count: 257, draw: |_, number| one_byte(number) },
    Kind { name: "one byte to three", count: 300, draw: |random, _| header_short(random) },
    Kind { name: "more than 64 pentachorons", count: 1_000, draw: many },
    Kind { name: "vertices cut short, of 1 to 64 pentachorons", count: 10 * MOST_PENTS, draw: vertices_short },
    Kind { name: "every vertex count that isn't lawful", count: UNLAWFUL, draw: vertex_count },
    Kind { name: "a vertex outside in each slot of 64 pentachorons", count: 5 * MOST_PENTS, draw: each_slot },
    Kind { name: "a vertex twice in each two slots of 64 pentachorons", count: 10 * MOST_PENTS, draw: each_two_slots },
    Kind { name: "vertices outside", count: 500, draw: |random, _| pents(random, [true, false], false) },
    Kind { name: "vertices twice", count: 500, draw: |random, _| pents(random, [false, true], false) },
    Kind {
        name: "vertices outside and twice",
        count: 1_200,
        draw: |random, number| pents(random, [true; 2], number % 3 == 0),
    },
    Kind { name: "every choice of pad bits after 0 to 64 pentachorons", count: PADDINGS, draw: padding },
    Kind { name: "lengths of a wrong number", count: 1_500, draw: lengths },
    Kind { name: "every choice of seven defects", count: 8 * CHOICES, draw: combined },
    Kind { name: "longer, up to 100,000 bytes", count: 600, draw: long },
];

/// How many vertex counts aren't lawful: 0, and those above 4096.
const UNLAWFUL: usize = LARGEST_VERTEX_COUNT - LARGEST_VERTEX;

/// How many choices of pad bits there are: of five bits where the number of pentachorons is even, of one where it is odd.
const PADDINGS: usize = 33 * 31 + 32;

/// How many choices of one defect or several of seven there are.
const CHOICES: usize = (1 << 7) - 1;

/// Up to how many pentachorons an input that has too many has them all, and its lengths.
const ALL_PENTS: usize = 264;

/// The sizes in bytes of long inputs: just above the largest that is answered, about 8,192 and 65,536, much larger.
const LONG: [usize; 9] = [LONGEST + 1, 8_191, 8_192, 8_193, 10_000, 16_384, 65_536, 65_537, 100_000];

/// By how many bytes an input that could be answered is made longer: its size is right after a cut to 12, 13, 14 or 16 bits.
const MORE: [usize; 4] = [4_096, 8_192, 16_384, 65_536];

/// No byte, or just one.
fn one_byte(number: usize) -> Refused {
    (number.checked_sub(1).map(|byte| byte as u8).into_iter().collect(), Refusal::HeaderShort)
}

/// One byte to three, of an input that could be answered or any.
fn header_short(random: &mut Random) -> Refused {
    let mut input = if random.below(2) == 0 { lawful::any(random).packed() } else { bytes(random, 3) };
    input.truncate(1 + random.below(3));
    (input, Refusal::HeaderShort)
}

/// 65 to 264 pentachorons in turn, then of any such count; the input otherwise lawful or not; whole, cut anywhere after the header, or longer.
fn many(random: &mut Random, number: usize) -> Refused {
    let (in_turn, any) = (MOST_PENTS + 1 + number, many_pents(random));
    let n_pents = if in_turn <= ALL_PENTS { in_turn } else { any };
    let count = if n_pents <= ALL_PENTS { n_pents } else { random.below(MOST_PENTS + 2) };
    let mut fields = lawful::of_count(random, count);
    if random.below(3) == 0 {
        spoil(random, &mut fields);
    }
    fields.n_pents = n_pents;
    let mut input = fields.packed();
    let (whole, any) = (input.len(), random.below(input.len()));
    let size = random.pick(&[whole, whole, HEADER_BYTES, any, vertex_bytes(count) - 1, whole + 1 + any]);
    input.resize(size.max(HEADER_BYTES), 0);
    (input, Refusal::ManyPents)
}

/// Vertices that are cut by a byte, by half, after the header, by two bytes, anywhere; of an input that is otherwise lawful or not.
fn vertices_short(random: &mut Random, number: usize) -> Refused {
    let count = 1 + number % MOST_PENTS;
    let mut fields = lawful::of_count(random, count);
    if random.below(3) == 0 {
        spoil(random, &mut fields);
    }
    let (mut input, end) = (fields.packed(), vertex_bytes(count));
    let any = HEADER_BYTES + random.below(end - HEADER_BYTES);
    input.truncate(*[end - 1, end / 2, HEADER_BYTES, end - 2].get(number / MOST_PENTS).unwrap_or(&any));
    (input, Refusal::VerticesShort)
}

/// An input with what follows its vertices as it is, none of it, or a byte more: what is refused before doesn't ask for it.
fn any_tail(random: &mut Random, fields: &Fields) -> Vec<u8> {
    let mut input = fields.packed();
    input.resize(random.pick(&[input.len(), input.len(), vertex_bytes(fields.pents.len()), input.len() + 1]), 0);
    input
}

/// The vertex counts that aren't lawful in turn, 0 and those from 4097 on; the input otherwise lawful or not.
fn vertex_count(random: &mut Random, number: usize) -> Refused {
    let count = random.pick(&[0, 0, 1, 1, 2, 3]);
    let mut fields = lawful::of_count(random, count);
    if random.below(4) == 0 {
        spoil(random, &mut fields);
    }
    fields.n_vertices = if number == 0 { 0 } else { LARGEST_VERTEX + 1 + number };
    (any_tail(random, &fields), Refusal::Builder(1, 0))
}

/// 64 pentachorons with a vertex outside, in each slot in turn.
fn each_slot(random: &mut Random, number: usize) -> Refused {
    let (mut fields, pent) = (lawful::of_count_below(random, MOST_PENTS), number / 5);
    fields.pents[pent][number % 5] = vertex_outside(random, fields.n_vertices);
    (fields.packed(), Refusal::Builder(3, pent))
}

/// 64 pentachorons with a vertex twice, in each two slots of a pentachoron in turn.
fn each_two_slots(random: &mut Random, number: usize) -> Refused {
    let (mut fields, pent) = (lawful::of_count_below(random, MOST_PENTS), number / 10);
    let (one, other) = EDGES[number % 10];
    fields.pents[pent][one] = fields.pents[pent][other];
    (fields.packed(), Refusal::Builder(4, pent))
}

/// A vertex outside, a vertex twice, or both, in any pentachorons, the first, the last or the same; what follows the vertices is lawful or not.
fn pents(random: &mut Random, [outside, twice]: [bool; 2], same: bool) -> Refused {
    let mut fields = lawful::any_with(random, 1);
    let count = fields.n_pents;
    let [one, other] = [(); 2].map(|()| {
        let any = random.below(count);
        random.pick(&[0, count - 1, any, any, any])
    });
    let other = if same { one } else { other };
    let refusal = spoil_pents(random, &mut fields, outside.then_some(one), twice.then_some(other));
    if random.below(4) == 0 {
        fields.padding = random.below(1 << padding_bits(count));
    }
    (any_tail(random, &fields), refusal.unwrap())
}

/// The choices of pad bits in turn.
fn padding(random: &mut Random, number: usize) -> Refused {
    let mut choices =
        (0..=MOST_PENTS).flat_map(|count| (1..1 << padding_bits(count)).map(move |padding| (count, padding)));
    let (count, padding) = choices.nth(number).unwrap();
    let mut fields = lawful::of_count(random, count);
    fields.padding = padding;
    (fields.packed(), Refusal::PadBit)
}

/// Lengths that don't end the input.
fn lengths(random: &mut Random, number: usize) -> Refused {
    let fields = lawful::any(random);
    let size = wrong_size(random, number, &fields);
    (sized(random, &fields, size), Refusal::Lengths)
}

/// The choices of defects in turn: the earliest must be given, and of a vertex outside and one twice the earlier pentachoron's.
fn combined(random: &mut Random, number: usize) -> Refused {
    let (choice, round) = (1 + number % CHOICES, number / CHOICES);
    let [many, cut, vertices, outside, twice, pad, lengths] = std::array::from_fn(|defect| choice >> defect & 1 == 1);
    let mut fields = lawful::any_with(random, 2);
    let count = fields.n_pents;
    let [one, other] = [(); 2].map(|()| random.below(count));
    let pents = spoil_pents(random, &mut fields, outside.then_some(one), twice.then_some(other));
    let wrong = wrong_size(random, choice + 5 * round, &fields);
    let size = if lengths { wrong } else { 8 * fields.lengths.len() };
    if many {
        fields.n_pents = many_pents(random);
    }
    if vertices {
        fields.n_vertices = wrong_vertex_count(random);
    }
    if pad {
        fields.padding = 1 + random.below((1 << padding_bits(count)) - 1);
    }
    let mut input = sized(random, &fields, size);
    if cut {
        input.truncate(HEADER_BYTES + random.below(vertex_bytes(count) - HEADER_BYTES));
    }
    let refusals = [
        many.then_some(Refusal::ManyPents),
        cut.then_some(Refusal::VerticesShort),
        vertices.then_some(Refusal::Builder(1, 0)),
        pents,
        pad.then_some(Refusal::PadBit),
        lengths.then_some(Refusal::Lengths),
    ];
    (input, refusals.into_iter().flatten().next().unwrap())
}

/// An input that could be answered, of the largest size or not, or has one defect, and many more bytes: zeros, ones, any, or the same input again and again.
fn long(random: &mut Random, number: usize) -> Refused {
    let mut fields = lawful::any_with(random, 1);
    let (count, pent) = (fields.n_pents, Some(random.below(fields.n_pents)));
    let mut size = LONG[number / 7 % LONG.len()];
    let mut refusal = Refusal::Lengths;
    match number % 7 {
        0 => (fields.n_pents, refusal) = (many_pents(random), Refusal::ManyPents),
        1 => (fields.n_vertices, refusal) = (wrong_vertex_count(random), Refusal::Builder(1, 0)),
        2 => refusal = spoil_pents(random, &mut fields, pent, None).unwrap(),
        3 => refusal = spoil_pents(random, &mut fields, None, pent).unwrap(),
        4 => (fields.padding, refusal) = ((1 << padding_bits(count)) - 1, Refusal::PadBit),
        5 => fields = lawful::of_every_vertex(random, number),
        _ => size = fields.packed().len() + random.pick(&MORE),
    }
    let mut input = fields.packed();
    let more = if random.below(4) == 0 { input.clone() } else { bytes(random, size) };
    input.extend(more.into_iter().cycle().take(size - input.len()).collect::<Vec<_>>());
    (input, refusal)
}
