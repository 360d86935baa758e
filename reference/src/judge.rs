//! The judge: a sheet's steps in order until the first fault.

use crate::code::{Compiler, Op};
use crate::domain::{bits, Domain, Fluent, CONCURRENCY, EFFECT, EXECUTABILITY, GOAL, STATIC};
use crate::history::History;
use crate::line::MAX_PAYLOAD;
use crate::number::Trouble;
use crate::refusal;
use crate::sheet::{steps_of, MAX_STEPS};
use crate::supplement::InForce;
use std::cell::RefCell;

/// Numbers that the judge asks of its levels buffer: every state of the
/// longest sheet.
pub const LEVELS: usize = MAX_STATES * Domain::MAX_FLUENTS;

const MAX_STATES: usize = MAX_STEPS + 1;

pub const NOT_TAKEN_UP: u8 = 1;
pub const NOT_EXECUTABLE: u8 = 2;
pub const NOT_TOGETHER: u8 = 3;
pub const DISAGREEMENT: u8 = 4;
pub const OUT_OF_RANGE: u8 = 5;
pub const STATE_REFUSED: u8 = 6;
pub const ZERO_DIVISOR: u8 = 7;
pub const GOAL_MISSED: u8 = 8;
pub const OUT_OF_NUMBERS: u8 = 9;
pub const TOO_FAST: u8 = 10;

#[derive(Clone, Copy, PartialEq, Eq, Debug)]
pub enum Verdict {
    Accepted,
    Broken { kind: u8, step: u8, number: u8 },
}

/// A verdict, and how many states the levels buffer received.
#[derive(Clone, Copy, PartialEq, Eq, Debug)]
pub struct Judged {
    pub verdict: Verdict,
    pub states: usize,
}

/// A fault without its step: kind, and the number of agent, entry, fluent or law.
struct Fault(u8, usize);

/// Judges a sheet, writes the states reached into `levels` and touches none of
/// the numbers after them. Refusals 10, 15, 8 and 9, in this order.
pub fn judge(store: &[u8], sheet: &[u8], levels: &mut [i16]) -> Result<Judged, u8> {
    judge_under(store, &[], sheet, levels)
}

/// Judges as [`judge`] does, the domain's laws being replaced as the supplement
/// says. Refusal 15 is also for a supplement that the domain does not accept.
pub fn judge_under(
    store: &[u8],
    supplement: &[u8],
    sheet: &[u8],
    levels: &mut [i16],
) -> Result<Judged, u8> {
    if levels.len() < LEVELS {
        return Err(refusal::BUFFER);
    }
    let mut domain = Domain::EMPTY;
    let laws = InForce::of(&mut domain, store, supplement).ok_or(refusal::STORE)?;
    steps_of(sheet, laws.domain.agents())?;
    Ok(run(&laws, sheet, levels))
}

/// No operation comes from less than a byte.
const MAX_OPS: usize = Domain::MAX_LAWS * MAX_PAYLOAD;

thread_local! {
    /// Room for compiled laws, so that no judgement has to ask for it or clear
    /// it. Each compiles anew what it reads.
    static ROOM: RefCell<[Op; MAX_OPS]> = const { RefCell::new([Op::NONE; MAX_OPS]) };
}

/// Judges whole steps, at most 64 of them, over a domain.
pub fn run(laws: &InForce, sheet: &[u8], levels: &mut [i16]) -> Judged {
    over(laws, levels, |trial| trial.run(sheet))
}

/// Judges as many sheets as are asked for over a domain, all into the same levels.
/// Who is in what is found out once, and a law is compiled once for all of them.
#[inline]
pub(crate) fn over<T>(laws: &InForce, levels: &mut [i16], ask: impl FnOnce(&mut Trial) -> T) -> T {
    ROOM.with_borrow_mut(|room| {
        let mut trial = Trial {
            laws,
            history: History::start(laws.domain.fluents().len(), levels),
            compiled: [Compiled::NOT; Domain::MAX_LAWS],
            code: room,
            used: 0,
            named: [0; 256],
            member: [0; Domain::MAX_AGENTS],
            first: [0; Domain::MAX_ENTRIES],
            next: [0; Domain::MAX_LAWS + 1],
        };
        trial.arrange();
        ask(&mut trial)
    })
}

impl Fault {
    /// A law has no value, which is rare.
    #[cold]
    fn of(trouble: Trouble, law: usize) -> Self {
        Fault(trouble as u8, law)
    }

    /// A value that its fluent, of this number, may not get: the range goes before
    /// the change.
    #[cold]
    fn of_value(fluent: &Fluent, number: usize, value: i64) -> Self {
        match fluent.has(value) {
            true => Fault(TOO_FAST, number),
            false => Fault(OUT_OF_RANGE, number),
        }
    }

    fn at(self, step: usize, states: usize) -> Judged {
        let verdict = Verdict::Broken {
            kind: self.0,
            step: step as u8,
            number: self.1 as u8,
        };
        Judged { verdict, states }
    }
}

/// Where a law stands in the code, its expression behind its constraint, which
/// is true if it has no operations; all 0 until it is asked for.
#[derive(Clone, Copy)]
struct Compiled {
    start: u16,
    middle: u16,
    end: u16,
    done: bool,
    /// Whether it is an A5 law that names a fluent known to nobody in the crew.
    unread: bool,
}

impl Compiled {
    const NOT: Compiled = Compiled {
        start: 0,
        middle: 0,
        end: 0,
        done: false,
        unread: false,
    };
}

pub(crate) struct Trial<'a> {
    laws: &'a InForce<'a>,
    history: History<'a>,
    compiled: [Compiled; Domain::MAX_LAWS],
    code: &'a mut [Op],
    used: usize,
    /// The entries of each name.
    named: [u64; 256],
    /// The entries that each agent is in.
    member: [u64; Domain::MAX_AGENTS],
    /// For each entry its first A5 law, and for each of these the next, by
    /// numbers from 1; 0 is none.
    first: [u8; Domain::MAX_ENTRIES],
    next: [u8; Domain::MAX_LAWS + 1],
}

impl Trial<'_> {
    /// Finds out who is in what.
    fn arrange(&mut self) {
        let domain = self.laws.domain;
        for (number, entry) in domain.entries().iter().enumerate() {
            self.named[usize::from(entry.name())] |= 1 << number;
            bits(entry.crew().into()).for_each(|agent| self.member[agent] |= 1 << number);
        }
        for number in domain.laws_of(EXECUTABILITY).rev() {
            let entry = usize::from(domain.laws()[number].entry);
            self.next[number + 1] = self.first[entry];
            self.first[entry] = number as u8 + 1;
        }
    }

    /// Judges whole steps, at most 64 of them, from the domain's values on.
    pub fn run(&mut self, sheet: &[u8]) -> Judged {
        self.history.restart();
        for (number, fluent) in self.laws.domain.fluents().iter().enumerate() {
            self.history.set(number, fluent.start);
        }
        if let Err(fault) = self.all_true(STATIC, STATE_REFUSED) {
            return fault.at(0, 0);
        }
        self.history.reach();
        let mut step = 0;
        for names in sheet.chunks_exact(self.laws.domain.agents()) {
            step += 1;
            if let Err(fault) = self.step(names) {
                return fault.at(step, step);
            }
            self.history.reach();
        }
        let states = step + 1;
        match self.all_true(GOAL, GOAL_MISSED) {
            Ok(()) => Judged {
                verdict: Verdict::Accepted,
                states,
            },
            Err(fault) => fault.at(step, states),
        }
    }

    /// The states reached, fluent by fluent, and after them whatever was there.
    pub fn levels(&self) -> &[i16] {
        self.history.levels()
    }

    /// The law compiled, which is done once.
    #[inline]
    fn compiled(&mut self, law: usize) -> Compiled {
        if !self.compiled[law].done {
            self.compiled[law] = self.compile(law);
        }
        self.compiled[law]
    }

    #[cold]
    fn compile(&mut self, number: usize) -> Compiled {
        let domain = self.laws.domain;
        let (kind, law) = (domain.kind_of(number), domain.laws()[number]);
        let start = self.used as u16;
        let mut compiler = Compiler::of(self.laws.bytes(number), self.code, self.used);
        compiler.constraint();
        let (middle, named) = (compiler.used() as u16, compiler.named());
        if kind == Some(EFFECT) {
            compiler.byte();
            compiler.expression();
        }
        self.used = compiler.used();
        let crew = domain.entries()[usize::from(law.entry)].crew();
        let unknown = |fluent: usize| domain.fluents()[fluent].knowers & crew == 0;
        Compiled {
            start,
            middle,
            end: self.used as u16,
            done: true,
            unread: kind == Some(EXECUTABILITY) && bits(named.into()).any(unknown),
        }
    }

    #[inline]
    fn holds(&mut self, law: usize) -> Result<bool, Fault> {
        let Compiled { start, middle, .. } = self.compiled(law);
        Ok(start == middle || self.value(law, start, middle)? != 0)
    }

    /// Evaluates code of the law with this number.
    #[inline]
    fn value(&mut self, law: usize, start: u16, end: u16) -> Result<i64, Fault> {
        let code = &self.code[start.into()..end.into()];
        self.history
            .evaluate(code)
            .map_err(|trouble| Fault::of(trouble, law))
    }

    /// The first law of a kind that is false is a fault.
    #[inline]
    fn all_true(&mut self, kind: u8, fault: u8) -> Result<(), Fault> {
        for law in self.laws.domain.laws_of(kind) {
            if !self.holds(law)? {
                return Err(Fault(fault, law));
            }
        }
        Ok(())
    }

    /// Leads to the next state.
    fn step(&mut self, names: &[u8]) -> Result<(), Fault> {
        let occurring = self.take_up(names)?;
        self.history.occur(occurring);
        for entry in bits(occurring) {
            self.executable(entry)?;
        }
        self.all_true(CONCURRENCY, NOT_TOGETHER)?;
        match occurring {
            0 => self.history.advance(),
            _ => self.effects(occurring)?,
        }
        self.all_true(STATIC, STATE_REFUSED)
    }

    /// The entries that occur: those of which each agent is no member or gives
    /// the name. So it is enough that each agent with a name is in one of them.
    fn take_up(&self, names: &[u8]) -> Result<u64, Fault> {
        let mut occurring = u64::MAX >> (64 - self.laws.domain.entries().len());
        for (&member, &name) in self.member.iter().zip(names) {
            occurring &= !member | self.named[usize::from(name)];
        }
        let mut members = self.member.iter().zip(names);
        match members.position(|(member, &name)| name != 0 && member & occurring == 0) {
            Some(agent) => Err(Fault(NOT_TAKEN_UP, agent)),
            None => Ok(occurring),
        }
    }

    fn executable(&mut self, entry: usize) -> Result<(), Fault> {
        let mut next = usize::from(self.first[entry]);
        while let Some(law) = next.checked_sub(1) {
            if !self.compiled(law).unread && self.holds(law)? {
                return Ok(());
            }
            next = self.next[next].into();
        }
        Err(Fault(NOT_EXECUTABLE, entry))
    }

    /// Goes on to the state after the effects. All laws read the values before
    /// the step; what no law sets stays as it is.
    fn effects(&mut self, occurring: u64) -> Result<(), Fault> {
        let domain = self.laws.domain;
        let mut settings = [0i64; Domain::MAX_FLUENTS];
        let mut set = 0u32;
        for number in domain.laws_of(EFFECT) {
            let law = &domain.laws()[number];
            if (occurring >> law.entry) & 1 == 0 || !self.holds(number)? {
                continue;
            }
            let Compiled { middle, end, .. } = self.compiled[number];
            let value = self.value(number, middle, end)?;
            let fluent = usize::from(law.fluent);
            if (set >> fluent) & 1 != 0 && settings[fluent] != value {
                return Err(Fault(DISAGREEMENT, number));
            }
            settings[fluent] = value;
            set |= 1 << fluent;
        }
        self.history.advance();
        // A fluent that no law set is in its range, and changes by 0.
        for number in bits(set.into()) {
            let fluent = &domain.fluents()[number];
            let (from, to) = (self.history.present(number), settings[number]);
            // Both are asked at once: all is well almost always.
            if !(fluent.has(to) & fluent.may_change(from, to)) {
                return Err(Fault::of_value(fluent, number, to));
            }
            self.history.set(number, to as i16);
        }
        Ok(())
    }
}
