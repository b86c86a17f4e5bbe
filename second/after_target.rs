//! What follows a Target: calls on the book, which it leaves alone, and books that are opened with just
//! the days that it wrote.

use crate::book::{is_weekday, Leg, LegState, Line, Refusal, MAX_SETTLEMENT_DAY};
use crate::hits::{rows_of, Played};
use crate::holidays::{closed_days, years_between};
use crate::journal::{Call, NAMES};
use crate::twins::is_owed;

/// The name of a situation, and whether a call is in it.
type Trap = (&'static str, fn(&Asked) -> bool);

const TRAPS: [Trap; 22] = [
    // The Target stands between two calls on one book.
    ("target-between", |a| a.is_after(0)),
    ("target-5-between", |a| a.is_after(5)),
    ("target-23-between", |a| a.is_after(23)),
    ("target-then-enter", |a| a.is_next("enter")),
    ("target-then-withdraw", |a| a.is_next("withdraw")),
    ("target-then-cancel", |a| a.is_next("cancel")),
    ("target-then-deliver", |a| a.is_next("deliver")),
    ("target-then-offer", |a| a.is_next("offer")),
    ("target-then-close", |a| a.is_next("close")),
    ("target-then-month", |a| a.is_next("month")),
    ("target-then-status", |a| a.is_next("status")),
    ("target-then-account", |a| a.is_next("account")),
    ("target-then-look", |a| a.is_next("look")),
    ("target-then-again", |a| a.is_next("again")),
    // An Open with just the days that the Target before it wrote.
    ("target-open-one-year", |a| a.opens(0) && a.years() == 1),
    ("target-open-eight-years", |a| a.opens(0) && a.years() == 8),
    ("target-open-1", |a| a.opens(1)),
    ("target-open-11-holiday", |a| {
        a.opens(11) && a.begins_on_holiday()
    }),
    // The book of such an Open, once it was accepted.
    ("target-open-enter-11-holiday", |a| a.enters_on_holiday()),
    ("target-open-close-over-holiday", |a| {
        a.is_close() && a.has_holiday(a.played.today, a.played.book.today)
    }),
    ("target-open-notice-over-holiday", |a| {
        a.reports_over_holiday(2)
    }),
    ("target-open-compensated-over-holiday", |a| {
        a.reports_over_holiday(4)
    }),
];

/// The latest call, if it was a Target.
#[derive(Clone, Copy)]
struct Target {
    first: u64,
    last: u64,
    answer: Refusal,
}

impl Target {
    fn of(played: &Played) -> Option<Self> {
        match *played.call {
            Call::Target { first, last, .. } => Some(Target {
                first,
                last,
                answer: played.answer,
            }),
            _ => None,
        }
    }
}

/// A call, and what came before it.
struct Asked<'a> {
    played: &'a Played<'a>,
    before: &'a AfterTarget,
}

impl Asked<'_> {
    /// Whether the call shows that the book is still the one of the accepted call before the Target,
    /// which had the answer given.
    fn is_after(&self, answer: Refusal) -> bool {
        let target = self.before.target.filter(|_| self.before.in_life);
        matches!(target, Some(target) if target.answer == answer) && tells_book(self.played)
    }

    /// The same for a call of the name, whatever the Target's answer was.
    fn is_next(&self, name: &str) -> bool {
        let is_named = NAMES[self.played.place] == name;
        is_named && [0, 5, 23].iter().any(|&answer| self.is_after(answer))
    }

    /// Whether the call is an Open with just the days of the Target before it.
    fn opens(&self, answer: Refusal) -> bool {
        let done = self.before.target.filter(|target| target.answer == 0);
        match (self.played.call, done) {
            (Call::Open { closed, .. }, Some(target)) if self.played.answer == answer => {
                *closed == closed_days(target.first, target.last)
            }
            _ => false,
        }
    }

    /// The number of years of the Target before.
    fn years(&self) -> u128 {
        let target = self.before.target;
        target.map_or(0, |target| years_between(target.first, target.last))
    }

    /// Whether the first day of an Open would be a clearing day, were it not closed.
    fn begins_on_holiday(&self) -> bool {
        match self.played.call {
            Call::Open {
                first_day, closed, ..
            } => is_weekday(*first_day) && closed.contains(first_day),
            _ => false,
        }
    }

    /// Whether an Enter is refused for its day, which is one of the book's holidays.
    fn enters_on_holiday(&self) -> bool {
        let in_time = self.played.today..=MAX_SETTLEMENT_DAY;
        match self.played.call {
            Call::Enter { day, .. } if self.played.answer == 11 => {
                in_time.contains(day) && self.before.holidays.contains(day)
            }
            _ => false,
        }
    }

    /// Whether a holiday of the book, which falls on a weekday, lies between two days.
    fn has_holiday(&self, after: u64, before: u64) -> bool {
        let mut holidays = self.before.holidays.iter();
        holidays.any(|&holiday| after < holiday && holiday < before)
    }

    fn is_close(&self) -> bool {
        self.played.answer == 0 && matches!(self.played.call, Call::Close { .. })
    }

    /// Whether a Close reports a line of the kind for an obligation with a holiday since its day.
    fn reports_over_holiday(&self, kind: u64) -> bool {
        let Played { book, today, .. } = self.played;
        let mut lines = book.lines_to_show().iter();
        let is_met = |line: &Line| {
            let settlement_day = book.obligations[line[1] as usize].day;
            line[0] == kind && self.has_holiday(settlement_day, *today)
        };
        self.is_close() && lines.any(is_met)
    }
}

/// Whether the call was answered as no new book would answer it.
fn tells_book(played: &Played) -> bool {
    let has_lines = || !played.book.lines_to_show().is_empty();
    played.answer == 0
        && match *played.call {
            Call::Enter { .. } => matches!(played.book.legs.last(), Some(leg) if is_matched(leg)),
            Call::Withdraw { .. } | Call::Cancel { .. } | Call::Deliver { .. } => true,
            Call::Offer { .. } | Call::Status { .. } => true,
            Call::Close { .. } | Call::Again { .. } => has_lines(),
            Call::Month { .. } => is_owed(played.accounts),
            Call::Account { member } => played.accounts[member as usize] != 0,
            Call::Look { member } => played.book.look(member) != Ok(0),
            Call::Open { .. } | Call::Target { .. } | Call::Rate { .. } | Call::Rules => false,
        }
}

fn is_matched(leg: &Leg) -> bool {
    matches!(leg.state, LegState::Matched(_))
}

/// What came before in the journal, and how often each situation was met.
#[derive(Default)]
pub struct AfterTarget {
    target: Option<Target>,
    /// Whether the latest call but for Targets was accepted and is one on a book that was there before.
    in_life: bool,
    /// The closed weekdays of the book, if it was opened with just the days of a Target.
    holidays: Vec<u64>,
    counts: [u64; TRAPS.len()],
}

impl AfterTarget {
    /// Counts what a call met.
    pub fn call(&mut self, played: &Played) {
        // Most calls are neither right after a Target nor on a book with its days.
        if self.target.is_some() || !self.holidays.is_empty() {
            let met = TRAPS.map(|(_, is_met)| u64::from(is_met(&self.asked(played))));
            for (count, met) in self.counts.iter_mut().zip(met) {
                *count += met;
            }
        }
        self.add(played);
    }

    fn asked<'a>(&'a self, played: &'a Played) -> Asked<'a> {
        Asked {
            played,
            before: self,
        }
    }

    fn add(&mut self, played: &Played) {
        match played.call {
            Call::Target { .. } => {}
            Call::Open { closed, .. } => {
                let has_days = self.asked(played).opens(0);
                let holidays = closed.iter().copied().filter(|&day| is_weekday(day));
                self.holidays = holidays.filter(|_| has_days).collect();
                self.in_life = false;
            }
            Call::Rules => self.in_life = false,
            _ => self.in_life = played.answer == 0,
        }
        self.target = Target::of(played);
    }

    /// The names of the situations with their counts.
    pub fn rows(&self) -> impl Iterator<Item = (&'static str, u64)> + '_ {
        rows_of(&TRAPS, &self.counts)
    }
}
