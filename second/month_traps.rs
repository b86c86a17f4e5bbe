//! The situations in which a Month is easily answered wrongly since P2, and how often a journal met
//! each.

use crate::book::{owed, Accounts, Refusal, MEMBERS};
use crate::hits::rows_of;
use crate::journal::Call;
use crate::twins::{is_owed, Twins};

/// The name of a situation, and whether a Month is in it.
type Trap = (&'static str, fn(&Asked) -> bool);

const TRAPS: [Trap; 28] = [
    // An empty list with a wrong number of places, with something owed or, where 21 would hold too,
    // with no Close.
    ("month-empty-5-of-0", |m| m.is_empty_of(0) && m.is_owed()),
    ("month-empty-5-of-31", |m| m.is_empty_of(31) && m.is_owed()),
    ("month-empty-5-of-33", |m| m.is_empty_of(33) && m.is_owed()),
    ("month-empty-5-of-0-not-21", |m| {
        m.is_empty_of(0) && !m.before.closed
    }),
    ("month-empty-5-of-31-not-21", |m| {
        m.is_empty_of(31) && !m.before.closed
    }),
    ("month-empty-5-of-33-not-21", |m| {
        m.is_empty_of(33) && !m.before.closed
    }),
    // A list of a wrong length with 32 places, in the same two cases.
    ("month-5-list-of-1", |m| m.is_list_of(1) && m.is_owed()),
    ("month-5-list-of-31", |m| m.is_list_of(31) && m.is_owed()),
    ("month-5-list-of-33", |m| m.is_list_of(33) && m.is_owed()),
    ("month-5-list-of-1-not-21", |m| {
        m.is_list_of(1) && !m.before.closed
    }),
    ("month-5-list-of-31-not-21", |m| {
        m.is_list_of(31) && !m.before.closed
    }),
    ("month-5-list-of-33-not-21", |m| {
        m.is_list_of(33) && !m.before.closed
    }),
    // Refused by 21: no Close since Open or the last accepted Month.
    ("month-empty-21-no-close", |m| {
        m.is_empty_with(21) && m.before.paid.is_none()
    }),
    ("month-empty-21-before-open", |m| {
        m.is_empty_with(21) && m.before.opened.is_none()
    }),
    ("month-empty-21-after-refused-open", |m| {
        m.is_empty_with(21) && m.is_after_refused_open()
    }),
    ("month-empty-21-after-month", |m| {
        m.is_empty_with(21) && m.before.ends_with == Some(Kind::Typed)
    }),
    ("month-empty-21-after-empty", |m| {
        m.is_empty_with(21) && m.before.ends_with == Some(Kind::Empty)
    }),
    ("month-21-after-empty", |m| {
        m.is_typed_with(21) && m.before.ends_with == Some(Kind::Empty)
    }),
    // Done.
    ("month-empty-done", |m| m.is_empty_with(0) && m.is_owed()),
    ("month-empty-all-zero", |m| {
        m.is_empty_with(0) && m.accounts == &[0; MEMBERS]
    }),
    ("month-empty-large", |m| m.is_empty_with(0) && m.is_large()),
    ("month-empty-before-open", |m| {
        m.is_empty_with(0) && m.is_owed() && m.before.opened.is_none()
    }),
    ("month-empty-after-refused-open", |m| {
        m.is_empty_with(0) && m.is_owed() && m.is_after_refused_open()
    }),
    ("month-empty-with-offers", |m| {
        m.is_empty_with(0) && m.is_owed() && m.before.offered
    }),
    ("month-zeros-owed", |m| {
        m.is_typed_with(0) && m.is_owed() && m.collected == [0; MEMBERS]
    }),
    // Done after a further Close, the last accepted Month being of the other kind or the same.
    ("month-empty-after-month", |m| {
        m.is_empty_with(0) && m.is_owed() && m.before.paid == Some(Kind::Typed)
    }),
    ("month-empty-after-empty", |m| {
        m.is_empty_with(0) && m.is_owed() && m.before.paid == Some(Kind::Empty)
    }),
    ("month-after-empty", |m| {
        m.is_typed_with(0) && m.is_owed() && m.before.paid == Some(Kind::Empty)
    }),
];

#[derive(Clone, Copy, PartialEq)]
enum Kind {
    Typed,
    Empty,
}

/// What came before in the journal, as far as the answer of a Month might go by it.
#[derive(Default)]
struct History {
    /// The answer of the Open that began the book; the book before the first Open has none.
    opened: Option<Refusal>,
    /// Whether a Close was accepted since that Open or the last accepted Month.
    closed: bool,
    /// Whether an Offer was accepted since the last accepted Close: a Month leaves it alone.
    offered: bool,
    /// The kind of the last accepted Month of the book.
    paid: Option<Kind>,
    /// The same if that Month was the latest call.
    ends_with: Option<Kind>,
}

impl History {
    fn add(&mut self, call: &Call, answer: Refusal) {
        self.ends_with = None;
        match (call, answer) {
            (Call::Open { .. }, _) => {
                *self = History {
                    opened: Some(answer),
                    ..History::default()
                }
            }
            (Call::Offer { .. }, 0) => self.offered = true,
            (Call::Close { .. }, 0) => {
                self.closed = true;
                self.offered = false;
            }
            (Call::Month { collected, .. }, 0) => {
                let kind = if collected.is_empty() {
                    Kind::Empty
                } else {
                    Kind::Typed
                };
                self.closed = false;
                self.paid = Some(kind);
                self.ends_with = Some(kind);
            }
            _ => {}
        }
    }
}

/// A Month, and what came before it.
struct Asked<'a> {
    collected: &'a [u64],
    places: usize,
    answer: Refusal,
    accounts: &'a Accounts,
    before: &'a History,
}

impl Asked<'_> {
    /// An empty list, refused by 5, with so many places.
    fn is_empty_of(&self, places: usize) -> bool {
        self.is_empty_with(5) && self.places == places
    }

    /// A list of so many amounts, refused by 5, with the right number of places.
    fn is_list_of(&self, length: usize) -> bool {
        self.is_typed_with(5) && self.collected.len() == length && self.places == MEMBERS
    }

    fn is_empty_with(&self, answer: Refusal) -> bool {
        self.collected.is_empty() && self.answer == answer
    }

    fn is_typed_with(&self, answer: Refusal) -> bool {
        !self.collected.is_empty() && self.answer == answer
    }

    fn is_owed(&self) -> bool {
        is_owed(self.accounts)
    }

    fn is_after_refused_open(&self) -> bool {
        self.before.opened.is_some_and(|answer| answer != 0)
    }

    /// Whether C x g, everybody having paid, passes 63 bits for the largest claim g.
    fn is_large(&self) -> bool {
        let sum: u64 = owed(self.accounts).iter().sum();
        let claim = self.accounts.iter().copied().max().unwrap_or(0);
        i128::from(sum) * i128::from(claim) > i128::from(i64::MAX)
    }
}

/// How often each situation was met.
#[derive(Default)]
pub struct MonthTraps {
    history: History,
    counts: [u64; TRAPS.len()],
    twins: Twins,
}

impl MonthTraps {
    /// Counts what a call met. The accounts are those just before it.
    pub fn call(&mut self, call: &Call, answer: Refusal, accounts: &Accounts) {
        if let &Call::Month {
            collected, places, ..
        } = call
        {
            let asked = Asked {
                collected,
                places,
                answer,
                accounts,
                before: &self.history,
            };
            for (count, (_, is_met)) in self.counts.iter_mut().zip(TRAPS) {
                *count += u64::from(is_met(&asked));
            }
        }
        self.history.add(call, answer);
        self.twins.call(call, answer, accounts);
    }

    /// The names of the situations with their counts.
    pub fn rows(&self) -> impl Iterator<Item = (&'static str, u64)> + '_ {
        rows_of(&TRAPS, &self.counts).chain(self.twins.rows())
    }
}
