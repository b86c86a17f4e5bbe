//! The situations in which an Again is easily answered wrongly, and how often a journal met each.

use crate::book::{Refusal, CLOSE_WORDS, LINE_WORDS};
use crate::hits::rows_of;
use crate::journal::{Call, NAMES};

/// The name of a situation, and whether an Again is in it.
type Trap = (&'static str, fn(&Asked) -> bool);

const TRAPS: [Trap; 30] = [
    // Refused by 22: the book has had no accepted Close.
    ("again-22-no-close", |a| {
        a.is_early() && a.before.refused_closes == NO_REFUSALS
    }),
    ("again-22-before-open", |a| {
        a.is_early() && a.before.opened.is_none()
    }),
    ("again-22-after-close-3", |a| a.is_early() && a.refused(3)),
    ("again-22-after-close-5", |a| a.is_early() && a.refused(5)),
    ("again-22-after-close-20", |a| a.is_early() && a.refused(20)),
    ("again-22-after-open", |a| {
        a.is_early() && a.before.closed_before_open && a.before.opened == Some(0)
    }),
    ("again-22-after-refused-open", |a| {
        a.is_early() && a.before.closed_before_open && a.before.opened != Some(0)
    }),
    ("again-22-of-1152", |a| {
        a.is_early() && a.words == CLOSE_WORDS
    }),
    ("again-22-of-4096", |a| a.is_early() && a.words == 4_096),
    // Refused by 5, with a Close before or, where 22 would hold too, with none.
    ("again-5-of-1151", |a| {
        a.is_short_by_one() && a.before.lines.is_some()
    }),
    ("again-5-of-1151-not-22", |a| {
        a.is_short_by_one() && a.before.lines.is_none()
    }),
    ("again-5-enough", |a| {
        a.answer == 5 && a.lines() > 0 && a.words >= a.lines() * LINE_WORDS
    }),
    ("again-5-of-0-no-lines", |a| {
        a.answer == 5 && a.words == 0 && a.before.lines == Some(0)
    }),
    // Done.
    ("again-before-open", |a| {
        a.answer == 0 && a.before.opened.is_none()
    }),
    ("again-no-lines", |a| a.answer == 0 && a.lines() == 0),
    ("again-no-lines-after-some", |a| {
        a.answer == 0 && a.lines() == 0 && a.before.earlier_lines > 0
    }),
    ("again-fewer-lines", |a| {
        a.shows_lines() && a.lines() < a.before.earlier_lines
    }),
    ("again-192-lines", |a| a.shows_lines() && a.lines() == 192),
    ("again-of-1152", |a| {
        a.shows_lines() && a.words == CLOSE_WORDS
    }),
    ("again-of-4096", |a| a.shows_lines() && a.words == 4_096),
    ("again-after-close-3", |a| a.shows_lines() && a.refused(3)),
    ("again-after-close-5", |a| a.shows_lines() && a.refused(5)),
    // Nothing can be outstanding so late, so that there are no lines to show.
    ("again-after-close-20", |a| a.answer == 0 && a.refused(20)),
    ("again-after-month", |a| a.shows_lines_after("month")),
    ("again-after-enter", |a| a.shows_lines_after("enter")),
    ("again-after-withdraw", |a| a.shows_lines_after("withdraw")),
    ("again-after-cancel", |a| a.shows_lines_after("cancel")),
    ("again-after-deliver", |a| a.shows_lines_after("deliver")),
    ("again-after-offer", |a| a.shows_lines_after("offer")),
    ("again-after-again", |a| {
        a.shows_lines() && a.before.ends_with_again
    }),
];

const NO_REFUSALS: [bool; 32] = [false; 32];

/// What came before in the journal, as far as the answer of an Again might go by it.
#[derive(Default)]
struct History {
    /// The answer of the Open that began the book; the book before the first Open has none.
    opened: Option<Refusal>,
    /// Whether the book before that Open had an accepted Close.
    closed_before_open: bool,
    /// How many lines the latest accepted Close of the book has, and the one before it.
    lines: Option<usize>,
    earlier_lines: usize,
    /// The numbers by which Closes were refused since the latest accepted one.
    refused_closes: [bool; 32],
    /// The calls that were accepted since then, in the order of the names.
    accepted: [bool; NAMES.len()],
    /// Whether the latest call was an Again that was done.
    ends_with_again: bool,
}

impl History {
    /// Takes a call up. `place` is its place among the names, `lines` the number of lines of the
    /// latest accepted Close once the call was played.
    fn add(&mut self, place: usize, call: &Call, answer: Refusal, lines: usize) {
        match (call, answer) {
            (Call::Open { .. }, _) => {
                *self = History {
                    opened: Some(answer),
                    closed_before_open: self.lines.is_some(),
                    ..History::default()
                }
            }
            (Call::Close { .. }, 0) => {
                *self = History {
                    opened: self.opened,
                    closed_before_open: self.closed_before_open,
                    lines: Some(lines),
                    earlier_lines: self.lines.unwrap_or(0),
                    ..History::default()
                }
            }
            (Call::Close { .. }, _) => self.refused_closes[usize::from(answer)] = true,
            (_, 0) => self.accepted[place] = true,
            _ => {}
        }
        self.ends_with_again = answer == 0 && matches!(call, Call::Again { .. });
    }
}

/// An Again, and what came before it.
struct Asked<'a> {
    words: usize,
    answer: Refusal,
    before: &'a History,
}

impl Asked<'_> {
    fn is_early(&self) -> bool {
        self.answer == 22
    }

    fn is_short_by_one(&self) -> bool {
        self.answer == 5 && self.words == CLOSE_WORDS - 1
    }

    /// Whether a Close was refused by the number since the latest accepted one.
    fn refused(&self, number: usize) -> bool {
        self.before.refused_closes[number]
    }

    fn lines(&self) -> usize {
        self.before.lines.unwrap_or(0)
    }

    fn shows_lines(&self) -> bool {
        self.answer == 0 && self.lines() > 0
    }

    /// Whether a call of the name was accepted between the Close and this Again.
    fn shows_lines_after(&self, name: &str) -> bool {
        let mut calls = NAMES.iter().zip(self.before.accepted);
        self.shows_lines() && calls.any(|(&call, accepted)| call == name && accepted)
    }
}

/// How often each situation was met.
#[derive(Default)]
pub struct Traps {
    history: History,
    counts: [u64; TRAPS.len()],
}

impl Traps {
    /// Counts what a call met; see `History::add`.
    pub fn call(&mut self, place: usize, call: &Call, answer: Refusal, lines: usize) {
        if let &Call::Again { words, .. } = call {
            let asked = Asked {
                words,
                answer,
                before: &self.history,
            };
            for (count, (_, is_met)) in self.counts.iter_mut().zip(TRAPS) {
                *count += u64::from(is_met(&asked));
            }
        }
        self.history.add(place, call, answer, lines);
    }

    /// The names of the situations with their counts.
    pub fn rows(&self) -> impl Iterator<Item = (&'static str, u64)> + '_ {
        rows_of(&TRAPS, &self.counts)
    }
}
