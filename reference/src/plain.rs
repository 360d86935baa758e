//! A judge as one would write it first: sentence after sentence from the paper,
//! laws as trees, lists for everything, nothing arranged for speed. It reckons by
//! itself, too. The tests hold the judge against it, and the benchmark measures it
//! beside the two.

use crate::domain::{AGENTS, CONCURRENCY, EFFECT, ENTRY, EXECUTABILITY, FLUENT, KNOWS, STATIC};
use crate::judge::{
    Judged, Verdict, DISAGREEMENT, GOAL_MISSED, LEVELS, NOT_EXECUTABLE, NOT_TAKEN_UP, NOT_TOGETHER,
    OUT_OF_NUMBERS, OUT_OF_RANGE, STATE_REFUSED, TOO_FAST, ZERO_DIVISOR,
};
use crate::number;
use crate::refusal;
use crate::sheet::steps_of;
use crate::store::FrameReader;

/// Judges as [`crate::judge::judge`] does.
pub fn judge(store: &[u8], sheet: &[u8], levels: &mut [i16]) -> Result<Judged, u8> {
    if levels.len() < LEVELS {
        return Err(refusal::BUFFER);
    }
    let domain = Domain::of(FrameReader::start(store)?);
    steps_of(sheet, domain.agents)?;
    let steps = sheet.chunks(domain.agents).collect();
    let mut history = History {
        steps,
        states: Vec::new(),
    };
    let verdict = domain.run(&mut history);
    let numbers = history.states.iter().flatten();
    levels
        .iter_mut()
        .zip(numbers)
        .for_each(|(level, &value)| *level = value as i16);
    let states = history.states.len();
    Ok(Judged { verdict, states })
}

/// What two numbers of the range come to, in it or not; nothing where the second
/// is a zero divisor.
type Operation = fn(i64, i64) -> Option<i64>;

/// "The quotient is to be rounded down." A quotient that is whole is found exactly.
/// Any other is at least 1 / |b| away from what is whole, and found with an error of
/// at most |a / b| in 2 to the power of 53, which is far less: no whole number lies
/// between the two.
fn quotient(a: i64, b: i64) -> Option<i64> {
    let nearest = a as f64 / b as f64;
    (b != 0).then(|| nearest.floor() as i64)
}

/// "Dividend equals quotient × divisor + remainder."
fn remainder(a: i64, b: i64) -> Option<i64> {
    quotient(a, b).map(|quotient| a - quotient * b)
}

enum Expression {
    Constant(i64),
    Fluent(usize, usize),
    Two(Operation, Box<Expression>, Box<Expression>),
    One(fn(i64) -> i64, Box<Expression>),
    Reified(Box<Constraint>),
}

enum Constraint {
    Compared(fn(&i64, &i64) -> bool, Expression, Expression),
    And(Box<Constraint>, Box<Constraint>),
    Or(Box<Constraint>, Box<Constraint>),
    Not(Box<Constraint>),
    Occurs(usize, usize),
    True,
    /// Held at every position from 0 to the present one.
    Always(Box<Constraint>),
    /// Held at one or more of them.
    Sometime(Box<Constraint>),
}

/// What a law says besides its constraint.
enum Kind {
    Executability {
        entry: usize,
    },
    Effect {
        entry: usize,
        fluent: usize,
        value: Expression,
    },
    Static,
    Concurrency,
    Goal,
}

struct Law {
    kind: Kind,
    constraint: Constraint,
    /// The fluents that the constraint names.
    named: Vec<usize>,
}

struct Fluent {
    range: std::ops::RangeInclusive<i64>,
    start: i64,
    /// The largest change allowed in one step, if it has such a limit.
    limit: Option<i64>,
    /// The agents that know it.
    knowers: Vec<usize>,
}

struct Entry {
    name: u8,
    crew: Vec<usize>,
}

struct Domain {
    agents: usize,
    fluents: Vec<Fluent>,
    entries: Vec<Entry>,
    laws: Vec<Law>,
}

struct History<'a> {
    /// The names of each step, from step 1 on.
    steps: Vec<&'a [u8]>,
    states: Vec<Vec<i64>>,
}

/// Kind, and number of the agent, entry, fluent or law.
type Fault = (u8, usize);

/// What a part comes to, or the kind of fault that its law is without a value.
type Found<T> = Result<T, u8>;

/// Both operands. The first trouble is the left one's, else the right one's.
fn both<T>(left: Found<T>, right: Found<T>) -> Found<(T, T)> {
    match (left, right) {
        (Ok(left), Ok(right)) => Ok((left, right)),
        (Err(trouble), _) | (Ok(_), Err(trouble)) => Err(trouble),
    }
}

/// Takes a law's bytes apart, from front to back. The store is accepted, so
/// they are as the paper says.
struct Bytes<'a> {
    rest: std::slice::Iter<'a, u8>,
    named: Vec<usize>,
}

impl Bytes<'_> {
    fn byte(&mut self) -> u8 {
        *self.rest.next().expect("a whole law")
    }

    fn index(&mut self) -> usize {
        self.byte().into()
    }

    fn expression(&mut self) -> Expression {
        match self.byte() {
            0x10 => Expression::Constant(number::value(self.byte(), self.byte()).into()),
            0x11 => {
                let fluent = self.index();
                self.named.push(fluent);
                Expression::Fluent(fluent, self.index())
            }
            0x12 => self.two(i64::checked_add),
            0x13 => self.two(i64::checked_sub),
            0x14 => self.two(i64::checked_mul),
            0x15 => self.two(quotient),
            0x16 => self.two(remainder),
            0x17 => Expression::One(|value| -value, Box::new(self.expression())),
            0x18 => Expression::One(|value| value.abs(), Box::new(self.expression())),
            _ => Expression::Reified(Box::new(self.constraint())),
        }
    }

    fn two(&mut self, operation: Operation) -> Expression {
        let (left, right) = (self.expression(), self.expression());
        Expression::Two(operation, Box::new(left), Box::new(right))
    }

    fn constraint(&mut self) -> Constraint {
        let code = self.byte();
        let compared: fn(&i64, &i64) -> bool = match code {
            0x20 => i64::eq,
            0x21 => i64::ne,
            0x22 => i64::lt,
            0x23 => i64::le,
            0x24 => i64::gt,
            0x25 => i64::ge,
            0x26 => return Constraint::And(self.boxed(), self.boxed()),
            0x27 => return Constraint::Or(self.boxed(), self.boxed()),
            0x28 => return Constraint::Not(self.boxed()),
            0x29 => return Constraint::Occurs(self.index(), self.index()),
            0x2A => return Constraint::True,
            0x2B => return Constraint::Always(self.boxed()),
            _ => return Constraint::Sometime(self.boxed()),
        };
        Constraint::Compared(compared, self.expression(), self.expression())
    }

    fn boxed(&mut self) -> Box<Constraint> {
        Box::new(self.constraint())
    }
}

/// The agents of a mask.
fn agents_of(high: u8, low: u8) -> Vec<usize> {
    let mask = number::mask(high, low);
    (0..16).filter(|agent| (mask >> agent) & 1 == 1).collect()
}

impl Domain {
    fn of(frames: FrameReader) -> Self {
        let mut domain = Domain {
            agents: 0,
            fluents: Vec::new(),
            entries: Vec::new(),
            laws: Vec::new(),
        };
        for frame in frames {
            let p = &frame[2..];
            match frame[0] {
                AGENTS => domain.agents = p[0].into(),
                FLUENT => {
                    let value = |i: usize| i64::from(number::value(p[i], p[i + 1]));
                    domain.fluents.push(Fluent {
                        range: value(0)..=value(2),
                        start: value(4),
                        // "frames of 6 bytes stay valid and mean no such limit"
                        limit: (p.len() > 6).then(|| value(6)),
                        knowers: Vec::new(),
                    });
                }
                KNOWS => {
                    let known = &mut domain.fluents[usize::from(p[0])];
                    known.knowers.extend(agents_of(p[1], p[2]));
                }
                ENTRY => domain.entries.push(Entry {
                    name: p[0],
                    crew: agents_of(p[1], p[2]),
                }),
                kind => domain.laws.push(Law::of(kind, p)),
            }
        }
        domain
    }

    /// The laws with their numbers.
    fn laws(&self) -> impl Iterator<Item = (usize, &Law)> {
        self.laws.iter().enumerate()
    }

    /// Whether the constraint of a law, which comes with its number, is true there.
    fn holds(
        &self,
        (number, law): (usize, &Law),
        history: &History,
        position: usize,
    ) -> Result<bool, Fault> {
        let truth = self.truth(&law.constraint, history, position);
        truth.map_err(|trouble| (trouble, number))
    }

    fn run(&self, history: &mut History) -> Verdict {
        let broken = |(kind, number): Fault, step: usize| Verdict::Broken {
            kind,
            step: step as u8,
            number: number as u8,
        };
        history
            .states
            .push(self.fluents.iter().map(|f| f.start).collect());
        if let Err(fault) = self.statics(history, 0) {
            history.states.clear();
            return broken(fault, 0);
        }
        let steps = history.steps.len();
        for step in 1..=steps {
            if let Err(fault) = self.step(history, step) {
                return broken(fault, step);
            }
        }
        let goals = |law: &Law| matches!(law.kind, Kind::Goal);
        match self.all_true(history, goals, steps, GOAL_MISSED) {
            Ok(()) => Verdict::Accepted,
            Err(fault) => broken(fault, steps),
        }
    }

    fn all_true(
        &self,
        history: &History,
        of_kind: impl Fn(&Law) -> bool,
        position: usize,
        kind: u8,
    ) -> Result<(), Fault> {
        for (number, law) in self.laws().filter(|(_, law)| of_kind(law)) {
            if !self.holds((number, law), history, position)? {
                return Err((kind, number));
            }
        }
        Ok(())
    }

    fn statics(&self, history: &History, state: usize) -> Result<(), Fault> {
        let of_kind = |law: &Law| matches!(law.kind, Kind::Static);
        self.all_true(history, of_kind, state, STATE_REFUSED)
    }

    fn step(&self, history: &mut History, step: usize) -> Result<(), Fault> {
        let (names, before) = (history.steps[step - 1], step - 1);
        let occurring: Vec<bool> = self.entries.iter().map(|e| e.occurs(names)).collect();
        for (agent, &name) in names.iter().enumerate() {
            let takes_up = |e: &Entry| e.name == name && e.crew.contains(&agent);
            let mut entries = self.entries.iter().zip(&occurring);
            if name != 0 && !entries.any(|(e, &occurs)| occurs && takes_up(e)) {
                return Err((NOT_TAKEN_UP, agent));
            }
        }
        for (entry, _) in occurring.iter().enumerate().filter(|(_, &occurs)| occurs) {
            self.executable(history, entry, before)?;
        }
        let together = |law: &Law| matches!(law.kind, Kind::Concurrency);
        self.all_true(history, together, before, NOT_TOGETHER)?;
        let state = self.effects(history, &occurring, before)?;
        history.states.push(state);
        self.statics(history, step).inspect_err(|_| {
            history.states.pop();
        })
    }

    fn executable(&self, history: &History, entry: usize, position: usize) -> Result<(), Fault> {
        let crew = &self.entries[entry].crew;
        let known = |&fluent: &usize| {
            let knowers = &self.fluents[fluent].knowers;
            knowers.iter().any(|agent| crew.contains(agent))
        };
        for (number, law) in self.laws() {
            let own = matches!(law.kind, Kind::Executability { entry: of } if of == entry);
            if own && law.named.iter().all(known) && self.holds((number, law), history, position)? {
                return Ok(());
            }
        }
        Err((NOT_EXECUTABLE, entry))
    }

    fn effects(
        &self,
        history: &History,
        occurring: &[bool],
        position: usize,
    ) -> Result<Vec<i64>, Fault> {
        let mut settings: Vec<(usize, i64)> = Vec::new();
        for (number, law) in self.laws() {
            let Kind::Effect {
                entry,
                fluent,
                value,
            } = &law.kind
            else {
                continue;
            };
            if !occurring[*entry] || !self.holds((number, law), history, position)? {
                continue;
            }
            let value = self.value(value, history, position);
            let value = value.map_err(|trouble| (trouble, number))?;
            if settings.iter().any(|&(f, v)| f == *fluent && v != value) {
                return Err((DISAGREEMENT, number));
            }
            settings.push((*fluent, value));
        }
        let before = &history.states[position];
        let mut state = before.clone();
        for (fluent, value) in settings {
            state[fluent] = value;
        }
        for (number, fluent) in self.fluents.iter().enumerate() {
            if !fluent.range.contains(&state[number]) {
                return Err((OUT_OF_RANGE, number));
            }
            // "After the range check of a fluent and before the next fluent, a change
            // larger than the limit in either direction"
            let (fall, rise) = (
                before[number] - state[number],
                state[number] - before[number],
            );
            if fluent
                .limit
                .is_some_and(|limit| fall > limit || rise > limit)
            {
                return Err((TOO_FAST, number));
            }
        }
        Ok(state)
    }

    fn value(&self, expression: &Expression, history: &History, position: usize) -> Found<i64> {
        let value = |part| self.value(part, history, position);
        match expression {
            Expression::Constant(value) => Ok(*value),
            Expression::Fluent(fluent, lag) => {
                Ok(history.states[position.saturating_sub(*lag)][*fluent])
            }
            Expression::Two(operation, left, right) => {
                let (left, right) = both(value(left), value(right))?;
                let result = operation(left, right).ok_or(ZERO_DIVISOR)?;
                match result.abs() > number::BOUND {
                    true => Err(OUT_OF_NUMBERS),
                    false => Ok(result),
                }
            }
            Expression::One(operation, operand) => value(operand).map(operation),
            Expression::Reified(constraint) => {
                self.truth(constraint, history, position).map(i64::from)
            }
        }
    }

    /// Both sides of "and" and "or" are read, and a side without value leaves
    /// the whole without one.
    fn truth(&self, constraint: &Constraint, history: &History, position: usize) -> Found<bool> {
        let value = |part| self.value(part, history, position);
        let truth = |part| self.truth(part, history, position);
        match constraint {
            Constraint::Compared(compared, left, right) => {
                both(value(left), value(right)).map(|(left, right)| compared(&left, &right))
            }
            Constraint::And(left, right) => both(truth(left), truth(right)).map(|(l, r)| l & r),
            Constraint::Or(left, right) => both(truth(left), truth(right)).map(|(l, r)| l | r),
            Constraint::Not(operand) => truth(operand).map(|truth| !truth),
            Constraint::Occurs(entry, lag) => {
                let names = (position + 1).checked_sub(*lag).filter(|&step| step > 0);
                let occurs = |step: usize| self.entries[*entry].occurs(history.steps[step - 1]);
                Ok(names.is_some_and(occurs))
            }
            Constraint::True => Ok(true),
            Constraint::Always(held) => {
                let truths = self.truths(held, history, position)?;
                Ok(!truths.contains(&false))
            }
            Constraint::Sometime(held) => {
                let truths = self.truths(held, history, position)?;
                Ok(truths.contains(&true))
            }
        }
    }

    /// "Every position is read": what a constraint comes to at each from 0 to the
    /// present one. "one without a value leaves the whole without value", and of
    /// several "the earliest position's is given".
    fn truths(&self, held: &Constraint, history: &History, present: usize) -> Found<Vec<bool>> {
        let read: Vec<_> = (0..=present)
            .map(|position| self.truth(held, history, position))
            .collect();
        read.into_iter().collect()
    }
}

impl Entry {
    fn occurs(&self, names: &[u8]) -> bool {
        self.crew.iter().all(|&agent| names[agent] == self.name)
    }
}

impl Law {
    fn of(kind: u8, payload: &[u8]) -> Self {
        let mut bytes = Bytes {
            rest: payload.iter(),
            named: Vec::new(),
        };
        let entry = match kind {
            EXECUTABILITY | EFFECT => bytes.index(),
            _ => 0,
        };
        let constraint = bytes.constraint();
        let named = std::mem::take(&mut bytes.named);
        let kind = match kind {
            EXECUTABILITY => Kind::Executability { entry },
            EFFECT => Kind::Effect {
                entry,
                fluent: bytes.index(),
                value: bytes.expression(),
            },
            STATIC => Kind::Static,
            CONCURRENCY => Kind::Concurrency,
            _ => Kind::Goal,
        };
        Law {
            kind,
            constraint,
            named,
        }
    }
}
