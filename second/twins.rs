//! Two books in a row with the same calls, but that a Month of the one is typed with just what each
//! member owes and the same Month of the other is empty. P2 demands that they end alike.

use std::hash::{DefaultHasher, Hash, Hasher};

use crate::book::{owed, Accounts, Refusal};
use crate::hits::rows_of;
use crate::journal::Call;

/// So many calls of a book are kept for the comparison with the next book. It bounds the memory.
const KEPT: usize = 1_000;

/// The name of a situation, and whether a call of the second book is in it.
type Trap = (&'static str, fn(&Twin) -> bool);

const TRAPS: [Trap; 11] = [
    // The pair itself.
    ("month-pair-done", |t| t.is_pair(0) && t.pair.is_owed()),
    ("month-pair-all-zero", |t| t.is_pair(0) && !t.pair.is_owed()),
    ("month-pair-5-of-31", |t| t.is_pair(5) && t.has_places(31)),
    ("month-pair-5-of-33", |t| t.is_pair(5) && t.has_places(33)),
    ("month-pair-21", |t| t.is_pair(21)),
    // What follows it in both books.
    ("month-pair-done-then-account", |t| {
        t.follows(0) && t.pair.is_latest && t.reads_account()
    }),
    ("month-pair-done-then-21", |t| {
        t.follows(0) && t.pair.is_latest && t.is_month(21)
    }),
    ("month-pair-done-then-done", |t| {
        t.follows(0) && t.is_month(0) && t.is_owed_now
    }),
    ("month-pair-5-then-account", |t| {
        t.follows(5) && t.pair.is_latest && t.reads_account()
    }),
    ("month-pair-5-then-done", |t| {
        t.follows(5) && t.pair.is_latest && t.is_month(0) && t.is_owed_now
    }),
    ("month-pair-21-then-21", |t| {
        t.follows(21) && t.pair.is_latest && t.is_month(21)
    }),
];

/// Whether any member owes something. There was a Close then.
pub fn is_owed(accounts: &Accounts) -> bool {
    accounts.iter().any(|&account| account < 0)
}

/// A call of a book.
#[derive(Clone, Copy, PartialEq)]
struct Step {
    /// A Month typed in full has the hash of an empty one.
    hash: u64,
    /// Whether it is an empty Month.
    empty: bool,
}

impl Step {
    fn of(call: &Call, accounts: &Accounts) -> Self {
        let mut step = *call;
        let mut empty = false;
        if let Call::Month { collected, .. } = &mut step {
            empty = collected.is_empty();
            if *collected == owed(accounts) {
                *collected = &[];
            }
        }
        let mut hasher = DefaultHasher::new();
        step.hash(&mut hasher);
        Step {
            hash: hasher.finish(),
            empty,
        }
    }
}

/// The Month that is typed in one book and empty in the other.
struct Pair {
    answer: Refusal,
    /// The accounts just before it.
    accounts: Accounts,
    /// Whether no Close and no Month was accepted after it.
    is_latest: bool,
}

impl Pair {
    fn is_owed(&self) -> bool {
        is_owed(&self.accounts)
    }
}

/// A call of the second book that is the pair's Month or follows it.
struct Twin<'a> {
    call: &'a Call<'a>,
    answer: Refusal,
    is_owed_now: bool,
    is_the_pair: bool,
    pair: &'a Pair,
}

impl Twin<'_> {
    fn is_pair(&self, answer: Refusal) -> bool {
        self.is_the_pair && self.answer == answer
    }

    /// Whether the call comes after a pair with the answer.
    fn follows(&self, answer: Refusal) -> bool {
        !self.is_the_pair && self.pair.answer == answer
    }

    fn has_places(&self, number: usize) -> bool {
        matches!(self.call, Call::Month { places, .. } if *places == number)
    }

    fn is_month(&self, answer: Refusal) -> bool {
        self.answer == answer && matches!(self.call, Call::Month { .. })
    }

    /// Whether the call reads an account that was not zero just before the pair.
    fn reads_account(&self) -> bool {
        match self.call {
            &Call::Account { member } if self.answer == 0 => {
                self.pair.accounts[member as usize] != 0
            }
            _ => false,
        }
    }
}

/// The calls of two books in a row, and how often each situation was met.
#[derive(Default)]
pub struct Twins {
    first: Vec<Step>,
    second: Vec<Step>,
    /// Whether the second book had the calls of the first so far, but for the pair.
    alike: bool,
    pair: Option<Pair>,
    counts: [u64; TRAPS.len()],
}

impl Twins {
    /// Counts what a call met. The accounts are those just before it.
    pub fn call(&mut self, call: &Call, answer: Refusal, accounts: &Accounts) {
        if matches!(call, Call::Open { .. }) {
            self.first = std::mem::take(&mut self.second);
            self.alike = true;
            self.pair = None;
        }
        let step = Step::of(call, accounts);
        let differs = self.compare(step);
        if differs {
            self.pair = Some(Pair {
                answer,
                accounts: *accounts,
                is_latest: true,
            });
        }
        if self.alike {
            self.count(call, answer, accounts, differs);
        }
        if self.second.len() < KEPT {
            self.second.push(step);
        }
    }

    /// Compares the next call of the second book with that of the first. Returns whether the two
    /// are a pair of Months.
    fn compare(&mut self, step: Step) -> bool {
        let other = self.first.get(self.second.len());
        let other = other.filter(|_| self.alike);
        let differs = other.is_some_and(|other| other.empty != step.empty);
        let same_call = other.is_some_and(|other| other.hash == step.hash);
        self.alike = same_call && !(differs && self.pair.is_some());
        self.alike && differs
    }

    fn count(&mut self, call: &Call, answer: Refusal, accounts: &Accounts, is_the_pair: bool) {
        let Some(pair) = &mut self.pair else {
            return;
        };
        let twin = Twin {
            call,
            answer,
            is_owed_now: is_owed(accounts),
            is_the_pair,
            pair,
        };
        for (count, (_, is_met)) in self.counts.iter_mut().zip(TRAPS) {
            *count += u64::from(is_met(&twin));
        }
        if answer == 0 && !is_the_pair && matches!(call, Call::Close { .. } | Call::Month { .. }) {
            pair.is_latest = false;
        }
    }

    /// The names of the situations with their counts.
    pub fn rows(&self) -> impl Iterator<Item = (&'static str, u64)> + '_ {
        rows_of(&TRAPS, &self.counts)
    }
}
