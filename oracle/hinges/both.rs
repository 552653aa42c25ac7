//! A checked call and that of its core: what each left of outputs between guards, beside what is due.
use crate::ffi::BuiltLists;
use crate::guards::Guarded;
use crate::tally::{Tally, of_numbers, of_values};
use hinges::distance::agree;
use hinges::local::Hinges;

/// What guards the outputs.
const GUARD: u64 = 0x5a5a_a5a5_5a5a_a5a5;

/// What is lent to a call to be read.
pub trait Read {
    /// The complex as a core takes it, unless 7 is due.
    fn built(&mut self) -> Option<BuiltLists>;

    /// What a call did to all that is lent.
    fn stray(&self) -> Vec<String>;

    /// The call in short.
    fn shown(&self) -> String;
}

/// The outputs as they are lent; a call takes those that it has.
pub struct Outputs {
    pub tris: (*mut u32, usize),
    pub doubles: (*mut f64, usize),
    pub kinds: (*mut u8, usize),
    pub count: *mut usize,
}

/// A call that is asked for: its kind, what it is about, the outputs' content before it, the number and the content that are due, and how many doubles are its answer.
pub struct Call<'a> {
    pub kind: &'a str,
    pub about: String,
    pub before: Hinges,
    pub due: (u32, Hinges),
    pub answers: usize,
}

/// What a call left: its number, the outputs' content, and what it did to memory that it wasn't lent to write to.
struct Left {
    number: u32,
    content: Hinges,
    stray: Vec<String>,
}

/// Makes a call on outputs of this content.
fn called(before: &Hinges, call: impl FnOnce(Outputs) -> u32) -> Left {
    let mut tris = Guarded::new(&before.tris, GUARD as u32);
    let mut doubles = Guarded::new(&before.deficits, GUARD);
    let mut kinds = Guarded::new(&before.kinds, GUARD as u8);
    let mut count = Guarded::new(&[before.count], GUARD as usize);
    let number = call(Outputs {
        tris: (tris.start(), before.tris.len()),
        doubles: (doubles.start().cast(), before.deficits.len()),
        kinds: (kinds.start(), before.kinds.len()),
        count: count.start(),
    });
    let stray = [tris.complaint("triangles"), doubles.complaint("doubles"), kinds.complaint("kinds")];
    let stray = stray.into_iter().chain([count.complaint("count")]).flatten().collect();
    let (tris, deficits) = (tris.content().to_vec(), doubles.content().to_vec());
    let content = Hinges { tris, deficits, kinds: kinds.content().to_vec(), count: count.content()[0] };
    Left { number, content, stray }
}

/// How doubles differ from those expected; any NaN agrees with any in so many answers at their start.
pub fn of_doubles(name: &str, ours: &[u64], expected: &[u64], answers: usize) -> Option<String> {
    let double = |bits: u64| f64::from_bits(bits);
    let nans = |place: usize| place < answers && agree(double(ours[place]), double(expected[place]));
    let place = (0..ours.len()).find(|&place| ours[place] != expected[place] && !nans(place))?;
    Some(format!("{name}, the first is {place}: ours {:016x}, expected {:016x}", ours[place], expected[place]))
}

/// All that a call did otherwise than expected, with so many answers at the doubles' start.
fn differences(ours: &Left, (number, content): (u32, &Hinges), answers: usize) -> Vec<String> {
    let found = [
        of_numbers("number", ours.number as usize, number as usize),
        of_values("triangles", &ours.content.tris, &content.tris),
        of_doubles("doubles", &ours.content.deficits, &content.deficits, answers),
        of_values("kinds", &ours.content.kinds, &content.kinds),
        of_numbers("count", ours.content.count, content.count),
    ];
    ours.stray.iter().cloned().chain(found.into_iter().flatten()).collect()
}

/// What was compared of a function, and of its core.
#[derive(Default)]
pub struct Both {
    checked: Tally,
    core: Tally,
}

impl Both {
    /// Makes a call and that of the core, which must both leave what is due; what the first left.
    pub fn ask(
        &mut self,
        read: &mut impl Read,
        call: Call,
        checked: impl FnOnce(Outputs) -> u32,
        core: impl FnOnce(BuiltLists, Outputs) -> u32,
    ) -> Hinges {
        let Call { kind, about, before, due: (due, content), answers } = call;
        let mut ours = called(&before, checked);
        ours.stray.extend(read.stray());
        let again = read.built().map(|built| called(&before, |outputs| core(built, outputs)));
        let rooms = [before.tris.len(), before.deficits.len(), before.kinds.len()];
        let shown = || format!("{about}outputs of {rooms:?}, {}", read.shown());
        let answers = if due == 0 { answers } else { 0 };
        if let Some(mut again) = again {
            again.stray.extend(read.stray());
            self.core.add(kind, due, shown, &differences(&again, (due, &content), answers));
        }
        self.checked.add(kind, due, shown, &differences(&ours, (due, &content), answers));
        ours.content
    }

    /// Prints the counts of both, the function's under its name; how many calls differ.
    pub fn print(&self, name: &str) -> u64 {
        self.checked.print(name);
        self.core.print(&format!("{name}_built"));
        self.checked.differences.0 + self.core.differences.0
    }
}
