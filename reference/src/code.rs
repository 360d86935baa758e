//! Laws compiled from their prefix bytes.
//!
//! The compiled form is postfix, one [`Op`] for each operator. Constants and the
//! present values of fluents are found without reckoning: they are leaves, and
//! operations take them with them. Truth is 1 and falsehood 0, so a reified
//! constraint (code 19) leaves no trace. Codes 2B and 2C alone stand before their
//! operand, since it is evaluated more than once.

use crate::domain::Domain;
use crate::number;

/// What an operation gives. What it is given are its leaves, the last value
/// reckoned, and the one before that still waits; where it takes no value, the
/// last one waits from then on.
#[derive(Clone, Copy, PartialEq, Eq, Debug)]
pub(crate) enum Code {
    /// The left leaf.
    Leaf,
    /// The value of a fluent at a lag, by their numbers.
    Lagged,
    /// Whether an entry occurs at a lag, by their numbers.
    Occurs,
    /// How the leaves compare.
    Compare,
    /// The last value, joined with how the leaves compare.
    Joined,
    /// How the last value and the right leaf compare.
    CompareLast,
    /// How the waiting value and the last compare.
    CompareWaiting,
    /// The waiting value joined with the last.
    Join,
    /// The sum of the leaves.
    Sum,
    /// The sum of the last value and the right leaf.
    SumLast,
    /// The sum of the waiting value and the last.
    SumWaiting,
    /// The difference of the leaves.
    Difference,
    /// The last value less the right leaf.
    DifferenceLast,
    /// The right leaf less the last value.
    LeafLessLast,
    /// The waiting value less the last.
    DifferenceWaiting,
    /// The product of the waiting value and the last, and so on.
    Product,
    Quotient,
    Remainder,
    /// The absolute value of the last.
    Absolute,
    /// The truths of the operations that follow, the left number of them, at all
    /// positions from 0 to this one, joined.
    Positions,
}

/// Where a comparison is true, a bit each, and whether truths are joined by "or".
pub(crate) type Manner = u8;

pub(crate) const LESS: Manner = 1;
pub(crate) const EQUAL: Manner = 2;
pub(crate) const GREATER: Manner = 4;
pub(crate) const OR: Manner = 8;

/// An operand that needs no reckoning: what stands at a place of the present
/// state, and a number besides.
#[derive(Clone, Copy, Debug)]
struct Leaf {
    place: u8,
    number: i16,
}

/// Where a state has nothing but zeros.
const NOTHING: u8 = Domain::MAX_FLUENTS as u8;

impl Leaf {
    const ZERO: Leaf = Leaf::constant(0);

    const fn constant(number: i16) -> Self {
        Leaf {
            place: NOTHING,
            number,
        }
    }
}

/// One operation: its leaves are the places and numbers of the left and right.
#[derive(Clone, Copy, Debug)]
pub struct Op {
    pub(crate) code: Code,
    pub(crate) manner: Manner,
    pub(crate) places: [u8; 2],
    pub(crate) numbers: [i16; 2],
}

impl Op {
    /// What stands where nothing was compiled yet.
    pub const NONE: Op = Op {
        code: Code::Leaf,
        manner: 0,
        places: [0; 2],
        numbers: [0; 2],
    };
}

/// Compiles the bytes of a law from front to back. They were checked before, so
/// they are as the paper says.
pub struct Compiler<'a> {
    bytes: &'a [u8],
    code: &'a mut [Op],
    used: usize,
    named: u32,
}

impl<'a> Compiler<'a> {
    /// Puts operations behind those that are used already. No operation comes
    /// from less than a byte.
    pub fn of(bytes: &'a [u8], code: &'a mut [Op], used: usize) -> Self {
        Compiler {
            bytes,
            code,
            used,
            named: 0,
        }
    }

    /// Number of the operations that are used now.
    pub fn used(&self) -> usize {
        self.used
    }

    /// Mask of the fluents named so far.
    pub fn named(&self) -> u32 {
        self.named
    }

    pub fn byte(&mut self) -> u8 {
        let (&first, rest) = self.bytes.split_first().unwrap_or((&0, &[]));
        self.bytes = rest;
        first
    }

    /// One that is simply true gets no operations.
    pub fn constraint(&mut self) {
        match self.bytes {
            [0x2A, rest @ ..] => self.bytes = rest,
            _ => self.reckoned(),
        }
    }

    pub fn expression(&mut self) {
        self.reckoned();
    }

    /// A part whose value is the last one then, whatever it is.
    fn reckoned(&mut self) {
        if let Some(leaf) = self.part() {
            self.put(Code::Leaf, 0, leaf, Leaf::ZERO);
        }
    }

    /// A part: the leaf that it is, or `None` where its value is the last one.
    fn part(&mut self) -> Option<Leaf> {
        match self.byte() {
            0x10 => return Some(Leaf::constant(number::value(self.byte(), self.byte()))),
            0x11 => {
                let (fluent, lag) = (self.byte(), self.byte());
                self.named |= 1 << fluent;
                if lag == 0 {
                    let (place, number) = (fluent, 0);
                    return Some(Leaf { place, number });
                }
                self.past(Code::Lagged, fluent, lag);
            }
            0x12 => {
                use Code::{Sum, SumLast, SumWaiting};
                self.by_leaves([Sum, SumLast, SumLast, SumWaiting], [0; 2]);
            }
            0x13 => {
                use Code::{Difference, DifferenceLast, DifferenceWaiting, LeafLessLast};
                let codes = [Difference, DifferenceLast, LeafLessLast, DifferenceWaiting];
                self.by_leaves(codes, [0; 2]);
            }
            0x14 => self.of_two(Code::Product),
            0x15 => self.of_two(Code::Quotient),
            0x16 => self.of_two(Code::Remainder),
            0x17 => self.of_one(Code::LeafLessLast, 0),
            0x18 => self.of_one(Code::Absolute, 0),
            0x19 => return self.part(),
            0x20 => self.comparison([EQUAL; 2]),
            0x21 => self.comparison([LESS | GREATER; 2]),
            0x22 => self.comparison([LESS, GREATER]),
            0x23 => self.comparison([LESS | EQUAL, GREATER | EQUAL]),
            0x24 => self.comparison([GREATER, LESS]),
            0x25 => self.comparison([GREATER | EQUAL, LESS | EQUAL]),
            0x26 => self.join(0),
            0x27 => self.join(OR),
            0x28 => self.of_one(Code::CompareLast, EQUAL),
            0x2B => self.positions(0),
            0x2C => self.positions(OR),
            0x29 => {
                let (entry, lag) = (self.byte(), self.byte());
                self.past(Code::Occurs, entry, lag);
            }
            _ => return Some(Leaf::constant(1)),
        }
        None
    }

    fn past(&mut self, code: Code, number: u8, lag: u8) {
        let [number, lag] = [number, lag].map(|byte| Leaf::constant(byte.into()));
        self.put(code, 0, number, lag);
    }

    /// The operand comes first, and zero second.
    fn of_one(&mut self, code: Code, manner: Manner) {
        self.reckoned();
        self.put(code, manner, Leaf::ZERO, Leaf::ZERO);
    }

    fn of_two(&mut self, code: Code) {
        self.reckoned();
        self.of_one(code, 0);
    }

    /// How many operations the operand has is known behind it.
    fn positions(&mut self, manner: Manner) {
        let at = self.used;
        self.put(Code::Positions, manner, Leaf::ZERO, Leaf::ZERO);
        self.reckoned();
        self.code[at].numbers[0] = (self.used - at - 1) as i16;
    }

    fn comparison(&mut self, manners: [Manner; 2]) {
        use Code::{Compare, CompareLast, CompareWaiting};
        self.by_leaves([Compare, CompareLast, CompareLast, CompareWaiting], manners);
    }

    /// Two operands: leaves, the last value and a leaf, a leaf and the last value,
    /// or the waiting value and the last. A leaf before the last value is put
    /// behind it; the second manner is for that.
    fn by_leaves(&mut self, codes: [Code; 4], [manner, turned]: [Manner; 2]) {
        let [leaves, last_leaf, leaf_last, waiting] = codes;
        match (self.part(), self.part()) {
            (Some(left), Some(right)) => self.put(leaves, manner, left, right),
            (None, Some(right)) => self.put(last_leaf, manner, Leaf::ZERO, right),
            (Some(left), None) => self.put(leaf_last, turned, Leaf::ZERO, left),
            (None, None) => self.put(waiting, manner, Leaf::ZERO, Leaf::ZERO),
        }
    }

    /// A comparison of leaves that comes second is joined at once.
    fn join(&mut self, manner: Manner) {
        self.reckoned();
        let before = self.used;
        self.reckoned();
        match &mut self.code[before..self.used] {
            [op] if op.code == Code::Compare => {
                op.code = Code::Joined;
                op.manner |= manner;
            }
            _ => self.put(Code::Join, manner, Leaf::ZERO, Leaf::ZERO),
        }
    }

    fn put(&mut self, code: Code, manner: Manner, left: Leaf, right: Leaf) {
        self.code[self.used] = Op {
            code,
            manner,
            places: [left.place, right.place],
            numbers: [left.number, right.number],
        };
        self.used += 1;
    }
}
