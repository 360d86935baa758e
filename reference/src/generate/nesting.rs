//! Where 2B and 2C may stand: at every depth, side by side, but not one inside
//! another, however far down.

use super::codes;
use super::course::{level, Comes, Course, Place, PLACES};
use super::draft::Draft;
use super::faults::Lines;
use super::laws::{and, constant, node, not, or, reified, wrapped, FALSE, TRUE};
use super::looking_back::{deciding, pairs, BESIDE, CODES};
use super::random::Random;
use super::troubles::add;
use super::verdicts::Trial;
use crate::law::MAX_DEPTH;
use crate::refusal::PAYLOAD;

/// A constraint so many levels further down, with others around it that leave it as
/// true as it is. Nothing beside it is deeper than it is itself.
fn deepened(r: &mut Random, tree: &[u8], levels: usize) -> Vec<u8> {
    let (taken, around) = match r.below(6) {
        0 if levels > 1 => (2, wrapped(0x28, 2, tree)),
        1 if levels > 1 => (2, node(0x20, &[&reified(tree), &constant(1)])),
        2 if levels > 1 => (2, node(0x22, &[&constant(0), &reified(tree)])),
        3 if levels > 2 => (3, not(&or(FALSE, &not(tree)))),
        _ if levels == 0 => return tree.to_vec(),
        4 => (1, and(TRUE, tree)),
        _ => (1, and(tree, TRUE)),
    };
    deepened(r, &around, levels - taken)
}

/// A constraint in a place with a code at this depth.
fn at_depth(r: &mut Random, place: &Place, code: u8, depth: usize, held: &[u8]) -> Vec<u8> {
    deepened(r, &node(code, &[held]), depth - place.top)
}

/// Where a code can stand: all places, and each depth that leaves room for a level
/// below it.
fn depths() -> impl Iterator<Item = (&'static Place, u8, usize)> {
    let at = |place: &'static Place| {
        let depths = place.top..MAX_DEPTH;
        depths.flat_map(move |depth| CODES.map(|code| (place, code, depth)))
    };
    PLACES.iter().flat_map(at)
}

/// Each code at each depth in each place, over levels of 1 and then 0; the law is as
/// deep as it may be.
pub fn further() -> Vec<Trial> {
    let mut trials = Vec::new();
    for (place, code, depth) in depths() {
        let left = MAX_DEPTH - depth;
        // A comparison needs two levels.
        let truth = left < 2 || (depth + usize::from(code)) % 2 == 0;
        let label = format!("{code:X} in {} at depth {depth}, {truth}", place.name);
        add(
            &mut trials,
            label,
            place.verdict(Comes::To(truth)),
            move |r| {
                let held = match left {
                    1 => TRUE.to_vec(),
                    _ => deepened(r, &deciding(code, truth), left - 2),
                };
                let constraint = at_depth(r, place, code, depth, &held);
                place.throughout(&Course::through(r, &[1, 0]), &constraint)
            },
        );
    }
    trials
}

/// A constraint that any domain knows what to do with.
fn any(r: &mut Random) -> Vec<u8> {
    match r.one_in(3) {
        true => TRUE.to_vec(),
        false => node(
            r.from_to(0x20, 0x25) as u8,
            &[&level(0), &constant(r.value())],
        ),
    }
}

/// A comparison with an expression on either side.
fn left_of(part: &[u8]) -> Vec<u8> {
    node(0x24, &[part, &constant(0)])
}

fn right_of(part: &[u8]) -> Vec<u8> {
    node(0x21, &[&level(0), part])
}

/// Ways for a part to stand somewhere inside a constraint.
type Inside = (&'static str, fn(&mut Random, &[u8]) -> Vec<u8>);

const INSIDE: &[Inside] = &[
    ("at once", |_, part| part.to_vec()),
    ("under 28", |_, part| not(part)),
    ("on the left of 26", |r, part| and(part, &any(r))),
    ("on the right of 26", |r, part| and(&any(r), part)),
    ("on the left of 27", |r, part| or(part, &any(r))),
    ("on the right of 27", |r, part| or(&any(r), part)),
    ("under 19 on the left of a comparison", |_, part| {
        left_of(&reified(part))
    }),
    ("under 19 on the right of a comparison", |_, part| {
        right_of(&reified(part))
    }),
    ("under 19 on the left of 12 to 16", |r, part| {
        let code = r.from_to(0x12, 0x16) as u8;
        left_of(&node(code, &[&reified(part), &level(1)]))
    }),
    ("under 19 on the right of 12 to 16", |r, part| {
        let code = r.from_to(0x12, 0x16) as u8;
        right_of(&node(code, &[&constant(3), &reified(part)]))
    }),
    ("under 19 under 17 or 18", |r, part| {
        let code = r.from_to(0x17, 0x18) as u8;
        left_of(&node(code, &[&reified(part)]))
    }),
    ("under 19 twice", |_, part| {
        right_of(&reified(&left_of(&reified(part))))
    }),
    ("under 28 behind a deep side", |r, part| {
        let deep = deepened(r, TRUE, 8);
        and(&deep, &wrapped(0x28, 3, part))
    }),
    ("many levels down", |r, part| {
        let levels = r.from_to(4, 10);
        deepened(r, part, levels)
    }),
];

/// Those of them, by number, in which code 29 is put in A7 and A9.
const OCCURRING: [usize; 4] = [0, 1, 3, 6];

#[derive(Clone, Copy)]
enum Shape {
    /// A code at this depth in a law of 17 levels.
    TooDeep(u8, usize),
    /// The second code inside the first.
    Nested([u8; 2], Inside),
    /// Code 29 inside a code.
    Occurring(u8, Inside),
    /// Two codes side by side, which is in order.
    Beside([u8; 2], fn(&[u8], &[u8]) -> Vec<u8>),
}

/// A law of some domain.
#[derive(Clone, Copy)]
pub struct Shaped {
    place: &'static Place,
    shape: Shape,
}

impl Shaped {
    fn constraint(self, r: &mut Random) -> Vec<u8> {
        let looking = |r: &mut Random, code| node(code, &[&any(r)]);
        match self.shape {
            Shape::TooDeep(code, depth) => {
                let held = deepened(r, TRUE, MAX_DEPTH - depth);
                at_depth(r, self.place, code, depth, &held)
            }
            Shape::Nested([outer, inner], (_, inside)) => {
                let part = looking(r, inner);
                let nested = node(outer, &[&inside(r, &part)]);
                let beside = looking(r, inner);
                match r.below(4) {
                    0 => and(&beside, &nested),
                    1 => or(&nested, &beside),
                    2 => wrapped(0x28, 2, &nested),
                    _ => nested,
                }
            }
            Shape::Occurring(code, (_, inside)) => {
                let lag = r.below(64) as u8;
                node(code, &[&inside(r, &[0x29, 0, lag])])
            }
            Shape::Beside(codes, beside) => {
                let [one, other] = codes.map(|code| looking(r, code));
                beside(&one, &other)
            }
        }
    }

    fn law(self, r: &mut Random, entry: u8) -> Vec<u8> {
        let constraint = self.constraint(r);
        self.place.law(entry, &constraint)
    }

    /// Whether it is one of the many that are.
    pub fn too_deep(self) -> bool {
        matches!(self.shape, Shape::TooDeep(..))
    }

    pub fn in_domain(self, r: &mut Random) -> Lines {
        codes::in_domain(r, |r, _, entry| self.law(r, entry))
    }

    pub fn in_supplement(self, r: &mut Random) -> (Draft, Lines) {
        codes::in_supplement(r, self.place.kind, |r, _, entry| self.law(r, entry))
    }
}

/// Label, refusal, law. Number 0 means that it is in order.
type Labelled = (String, u8, Shaped);

/// Laws of a shape, in places that are taken in turns.
#[derive(Default)]
struct Laws {
    laws: Vec<Labelled>,
    turn: usize,
}

impl Laws {
    fn add(&mut self, label: String, number: u8, shape: Shape) {
        let place = &PLACES[self.turn % PLACES.len()];
        self.turn += 1;
        self.add_in(place, label, number, shape);
    }

    fn add_in(&mut self, place: &'static Place, label: String, number: u8, shape: Shape) {
        let label = format!("{label} in {}", place.name);
        self.laws.push((label, number, Shaped { place, shape }));
    }

    /// What follows comes to other places.
    fn skip(&mut self) {
        self.turn += 1;
    }
}

fn too_deep(laws: &mut Laws) {
    // Under 19 no code is at the top.
    for place in PLACES.iter().filter(|place| place.top == 1) {
        for code in CODES {
            let label = format!("depth 17, {code:X} at the top");
            laws.add_in(place, label, PAYLOAD, Shape::TooDeep(code, 1));
        }
    }
    for depth in 2..=MAX_DEPTH {
        for code in CODES {
            for _ in 0..3 {
                let label = format!("depth 17, {code:X} at depth {depth}");
                laws.add(label, PAYLOAD, Shape::TooDeep(code, depth));
            }
        }
        laws.skip();
    }
}

/// All laws of a shape.
pub fn laws() -> Vec<Labelled> {
    let mut laws = Laws::default();
    too_deep(&mut laws);
    for &inside in INSIDE {
        for codes in pairs() {
            let [outer, inner] = codes;
            let label = format!("{inner:X} inside {outer:X} {}", inside.0);
            laws.add(label, PAYLOAD, Shape::Nested(codes, inside));
        }
        laws.skip();
    }
    for &(form, beside) in BESIDE {
        for codes in pairs() {
            let [one, other] = codes;
            let label = format!("edge: {one:X} and {other:X} {form}");
            laws.add(label, 0, Shape::Beside(codes, beside));
        }
        laws.skip();
    }
    for place in PLACES.iter().filter(|place| !place.in_a_step()) {
        for code in CODES {
            for inside in OCCURRING.map(|at| INSIDE[at]) {
                let label = format!("29 inside {code:X} {}", inside.0);
                laws.add_in(place, label, PAYLOAD, Shape::Occurring(code, inside));
            }
        }
    }
    laws.laws
}
