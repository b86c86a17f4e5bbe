//! The situations in which a Target is easily answered wrongly, and how often a journal met each.

use std::collections::BTreeSet;

use crate::after_target::AfterTarget;
use crate::book::Refusal;
use crate::hits::{rows_of, Played};
use crate::holidays::{closed_days, words_needed, years_between, FIRST_YEAR, LAST_YEAR, MAX_YEARS};
use crate::journal::Call;

/// The name of a situation, and whether a Target is in it.
type Trap = (&'static str, fn(&Asked) -> bool);

const TRAPS: [Trap; 53] = [
    // Refused by 5, though 23 would hold too.
    ("target-5-early-not-23", |t| {
        t.is_short() && t.last < FIRST_YEAR && t.are_few()
    }),
    ("target-5-late-not-23", |t| {
        t.is_short() && t.first > LAST_YEAR && t.are_few()
    }),
    ("target-5-many-not-23", |t| {
        t.is_short() && t.are_inside() && !t.are_few()
    }),
    ("target-5-nine-of-48-not-23", |t| {
        t.is_inside_of(5, 9) && t.words == 48
    }),
    ("target-5-nine-of-53-not-23", |t| {
        t.is_inside_of(5, 9) && t.words == 53
    }),
    ("target-5-179-years-of-1073-not-23", |t| {
        t.is_inside_of(5, 179) && t.words == 1_073
    }),
    ("target-5-683-years-of-4096-not-23", |t| {
        t.is_short() && t.years() == 683 && t.words == 4_096
    }),
    ("target-5-all-numbers-of-4096-not-23", |t| {
        t.is_short() && t.are_all_numbers() && t.words == 4_096
    }),
    ("target-5-all-numbers-of-0-not-23", |t| {
        t.is_short() && t.are_all_numbers() && t.words == 0
    }),
    // Six times the years just fits 64 bits, or passes them although the years themselves fit.
    ("target-5-sixfold-fits-not-23", |t| {
        t.is_short() && t.needed() <= WORD && t.needed() + 6 > WORD
    }),
    ("target-5-sixfold-passes-not-23", |t| {
        t.is_short() && t.needed() > WORD && !t.are_all_numbers()
    }),
    // In a word of 64 or 32 bits the list would seem to be long enough.
    ("target-5-sixfold-wraps-not-23", |t| {
        t.is_short() && t.seems_enough_in(u64::BITS) && !t.are_all_numbers()
    }),
    ("target-5-sixfold-wraps-32-not-23", |t| {
        t.is_short() && t.seems_enough_in(u32::BITS) && t.needed() <= WORD
    }),
    // Refused by 5; a longer list would do.
    ("target-5-one-of-0", |t| {
        t.is_inside_of(5, 1) && t.words == 0
    }),
    ("target-5-one-of-5", |t| {
        t.is_inside_of(5, 1) && t.words == 5
    }),
    ("target-5-eight-of-47", |t| {
        t.is_inside_of(5, 8) && t.words == 47
    }),
    ("target-5-fill-of-day", |t| {
        t.is_short() && t.are_inside() && t.are_few() && t.words > 0 && t.fill_is_day()
    }),
    ("target-5-after-done", |t| t.is_short() && t.is_after_done()),
    // Refused by 23 for years that are outside or too many.
    ("target-23-year-1999", |t| t.is_from_to(23, 1_999, 1_999)),
    ("target-23-year-2179", |t| t.is_from_to(23, 2_179, 2_179)),
    ("target-23-1999-to-2001", |t| t.is_from_to(23, 1_999, 2_001)),
    ("target-23-1999-to-2006", |t| t.is_from_to(23, 1_999, 2_006)),
    ("target-23-2172-to-2179", |t| t.is_from_to(23, 2_172, 2_179)),
    ("target-23-nine-of-54", |t| {
        t.is_inside_of(23, 9) && t.words == 54
    }),
    ("target-23-179-years-of-1074", |t| {
        t.is_inside_of(23, 179) && t.words == 1_074
    }),
    ("target-23-682-years-of-4096", |t| {
        t.answer == 23 && t.years() == 682 && t.words == 4_096
    }),
    ("target-23-after-done", |t| {
        t.answer == 23 && t.is_after_done()
    }),
    // Refused by 23 for reversed years, which need no words.
    ("target-23-reversed-of-0", |t| {
        t.is_reversed_of_0() && t.first - t.last > 1
    }),
    ("target-23-reversed-by-1-of-0", |t| {
        t.is_reversed_of_0() && t.first - t.last == 1
    }),
    ("target-23-reversed-most-of-0", |t| {
        t.is_reversed_of_0() && t.first - t.last == u64::MAX
    }),
    ("target-23-reversed-inside-of-0", |t| {
        t.is_reversed_of_0() && t.are_inside()
    }),
    ("target-23-reversed-enough", |t| {
        t.is_reversed() && t.are_inside() && t.words as u128 >= words_needed(t.last, t.first)
    }),
    // Done.
    ("target-one-of-6", |t| t.is_inside_of(0, 1) && t.words == 6),
    ("target-one-of-7", |t| t.is_inside_of(0, 1) && t.words == 7),
    ("target-eight-of-48", |t| {
        t.is_inside_of(0, 8) && t.words == 48
    }),
    ("target-eight-of-49", |t| {
        t.is_inside_of(0, 8) && t.words == 49
    }),
    ("target-eight-of-4096", |t| {
        t.is_inside_of(0, 8) && t.words == 4_096
    }),
    ("target-year-2000", |t| t.is_from_to(0, 2_000, 2_000)),
    ("target-year-2178", |t| t.is_from_to(0, 2_178, 2_178)),
    ("target-2000-to-2007", |t| t.is_from_to(0, 2_000, 2_007)),
    ("target-2171-to-2178", |t| t.is_from_to(0, 2_171, 2_178)),
    // The full moon of spring is one of the exceptions of Easter, or a leap day is left out.
    ("target-epact-2000", |t| t.shows(2_000)),
    ("target-epact-2049", |t| t.shows(2_049)),
    ("target-epact-2076", |t| t.shows(2_076)),
    ("target-epact-2106", |t| t.shows(2_106)),
    ("target-epact-2133", |t| t.shows(2_133)),
    ("target-century-2100", |t| t.shows(2_100)),
    ("target-all-years", |t| t.completes_years()),
    // Words that keep a fill like the days before them, or like the day that would come next.
    ("target-fill-of-day", |t| t.keeps_words() && t.fill_is_day()),
    ("target-fill-of-next-day", |t| {
        t.keeps_words() && t.fill_is_next_day()
    }),
    ("target-fewer-days", |t| {
        t.keeps_words() && matches!(t.before.written, Some(days) if t.needed() < days)
    }),
    ("target-before-open", |t| t.answer == 0 && !t.before.opened),
    ("target-refused-before-open", |t| {
        t.answer != 0 && !t.before.opened
    }),
];

/// The largest number of 64 bits.
const WORD: u128 = u64::MAX as u128;

/// What came before in the journal, as far as the answer of a Target might go by it.
#[derive(Default)]
struct History {
    /// Whether there was an Open, accepted or refused.
    opened: bool,
    /// How many days the latest call wrote if it was a Target that was done.
    written: Option<u128>,
    /// The years whose days were shown so far.
    years: BTreeSet<u64>,
}

impl History {
    fn add(&mut self, call: &Call, answer: Refusal) {
        self.opened |= matches!(call, Call::Open { .. });
        self.written = None;
        if let (&Call::Target { first, last, .. }, 0) = (call, answer) {
            self.written = Some(words_needed(first, last));
            self.years.extend(first..=last);
        }
    }
}

/// A Target, and what came before it.
struct Asked<'a> {
    first: u64,
    last: u64,
    words: usize,
    fill: u64,
    answer: Refusal,
    before: &'a History,
}

impl Asked<'_> {
    fn years(&self) -> u128 {
        years_between(self.first, self.last)
    }

    fn needed(&self) -> u128 {
        words_needed(self.first, self.last)
    }

    fn is_short(&self) -> bool {
        self.answer == 5
    }

    /// Whether there are at most eight years.
    fn are_few(&self) -> bool {
        self.years() <= u128::from(MAX_YEARS)
    }

    fn are_inside(&self) -> bool {
        let years = FIRST_YEAR..=LAST_YEAR;
        years.contains(&self.first) && years.contains(&self.last)
    }

    fn are_all_numbers(&self) -> bool {
        self.first == 0 && self.last == u64::MAX
    }

    /// Whether the list would be long enough if the words needed were counted in so many bits.
    fn seems_enough_in(&self, bits: u32) -> bool {
        self.needed() % (1 << bits) <= self.words as u128
    }

    /// So many years, all of them from 2000 to 2178, with the answer.
    fn is_inside_of(&self, answer: Refusal, years: u128) -> bool {
        self.answer == answer && self.are_inside() && self.years() == years
    }

    fn is_from_to(&self, answer: Refusal, first: u64, last: u64) -> bool {
        self.answer == answer && self.first == first && self.last == last
    }

    fn is_reversed(&self) -> bool {
        self.answer == 23 && self.first > self.last
    }

    fn is_reversed_of_0(&self) -> bool {
        self.is_reversed() && self.words == 0
    }

    /// Whether it has words to show, right after a Target that was done.
    fn is_after_done(&self) -> bool {
        self.words > 0 && self.before.written.is_some()
    }

    /// Whether the days of the year are among those written.
    fn shows(&self, year: u64) -> bool {
        self.answer == 0 && (self.first..=self.last).contains(&year)
    }

    /// Whether with this Target the days of all years were shown, and not before.
    fn completes_years(&self) -> bool {
        let is_new = |year: u64| !self.before.years.contains(&year);
        self.answer == 0
            && (self.first..=self.last).any(is_new)
            && (FIRST_YEAR..=LAST_YEAR).all(|year| !is_new(year) || self.shows(year))
    }

    fn keeps_words(&self) -> bool {
        self.answer == 0 && self.words as u128 > self.needed()
    }

    /// Whether the fill is one of the closed days of the years, which are few and inside.
    fn fill_is_day(&self) -> bool {
        closed_days(self.first, self.last).contains(&self.fill)
    }

    /// Whether the fill is the closed day after those of the years, which are few and inside.
    fn fill_is_next_day(&self) -> bool {
        closed_days(self.first, self.last + 1)[self.needed() as usize] == self.fill
    }
}

/// How often each situation was met.
pub struct TargetTraps {
    history: History,
    counts: [u64; TRAPS.len()],
    after: AfterTarget,
}

impl TargetTraps {
    pub fn new() -> Self {
        TargetTraps {
            history: History::default(),
            counts: [0; TRAPS.len()],
            after: AfterTarget::default(),
        }
    }

    /// Counts what a call met.
    pub fn call(&mut self, played: &Played) {
        if let &Call::Target {
            first,
            last,
            words,
            fill,
        } = played.call
        {
            let asked = Asked {
                first,
                last,
                words,
                fill,
                answer: played.answer,
                before: &self.history,
            };
            for (count, (_, is_met)) in self.counts.iter_mut().zip(TRAPS) {
                *count += u64::from(is_met(&asked));
            }
        }
        self.history.add(played.call, played.answer);
        self.after.call(played);
    }

    /// The names of the situations with their counts.
    pub fn rows(&self) -> impl Iterator<Item = (&'static str, u64)> + '_ {
        rows_of(&TRAPS, &self.counts).chain(self.after.rows())
    }
}
