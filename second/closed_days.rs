//! Targets: at the edges of their refusals, amid the life of a book, and before an Open that takes
//! their days.

use std::io::{self, Write};

use crate::book::is_weekday;
use crate::holidays::{closed_days, DAYS_A_YEAR, FIRST_YEAR, LAST_YEAR, MAX_YEARS};
use crate::Generator;

/// The first year, the last year and the words of a Target.
type Edge = (u64, u64, u64);

const MAX: u64 = u64::MAX;

/// One year or eight, with lists that are just long enough, or not, or longer.
const INSIDE: [Edge; 14] = [
    (2_000, 2_000, 0),
    (2_000, 2_000, 5),
    (2_000, 2_000, 6),
    (2_000, 2_000, 7),
    (2_178, 2_178, 5),
    (2_178, 2_178, 6),
    (2_178, 2_178, 7),
    (2_000, 2_007, 42),
    (2_000, 2_007, 47),
    (2_000, 2_007, 48),
    (2_000, 2_007, 49),
    (2_171, 2_178, 47),
    (2_171, 2_178, 48),
    (2_171, 2_178, 49),
];
/// Years before 2000 and after 2178.
const OUTSIDE: [Edge; 20] = [
    (1_999, 1_999, 5),
    (1_999, 1_999, 6),
    (2_179, 2_179, 5),
    (2_179, 2_179, 6),
    (1_999, 2_000, 12),
    (1_999, 2_001, 17),
    (1_999, 2_001, 18),
    (1_999, 2_006, 48),
    (1_992, 1_999, 47),
    (1_992, 1_999, 48),
    (2_172, 2_179, 47),
    (2_172, 2_179, 48),
    (2_178, 2_179, 12),
    (2_179, 2_186, 47),
    (2_179, 2_186, 48),
    (0, 0, 5),
    (0, 7, 48),
    (MAX, MAX, 5),
    (MAX, MAX, 6),
    (MAX - 7, MAX, 47),
];
/// More than eight years.
const MANY: [Edge; 14] = [
    (2_000, 2_008, 48),
    (2_000, 2_008, 53),
    (2_000, 2_008, 54),
    (2_170, 2_178, 48),
    (2_170, 2_178, 53),
    (2_170, 2_178, 54),
    (2_000, 2_178, 48),
    (2_000, 2_178, 1_073),
    (2_000, 2_178, 1_074),
    (1_999, 2_007, 54),
    (0, 2_178, 48),
    (2_000, MAX, 48),
    (0, MAX, 0),
    (0, MAX, 48),
];
/// Years in the wrong order, which need no words.
const REVERSED: [Edge; 14] = [
    (2_001, 2_000, 0),
    (2_178, 2_177, 0),
    (2_001, 2_000, 12),
    (2_007, 2_000, 0),
    (2_007, 2_000, 48),
    (2_178, 2_171, 48),
    (2_178, 2_000, 0),
    (2_000, 1_999, 0),
    (2_179, 2_178, 5),
    (1, 0, 0),
    (MAX, MAX - 1, 0),
    (MAX, 0, 0),
    (MAX, 0, 11),
    (1 << 63, 0, 0),
];
/// Lists as long as a line may lend. 682 years need 4,092 words, 683 need 4,098.
const LONG: [Edge; 6] = [
    (2_000, 2_007, 4_096),
    (2_171, 2_178, 4_096),
    (2_000, 2_681, 4_096),
    (2_000, 2_682, 4_096),
    (2_178, 2_000, 4_096),
    (0, MAX, 4_096),
];
/// So many years that six times their number comes close to 2^32 or 2^64, or passes it and, if the
/// rest is cut off, leaves 0, 2 or 4.
const WIDE: [u64; 12] = [
    (1 << 32) / 6,
    (1 << 32) / 6 + 1,
    (1 << 33) / 6 + 1,
    1 << 31,
    1 << 32,
    MAX / 6,
    MAX / 6 + 1,
    MAX / 3 + 1,
    1 << 62,
    1 << 63,
    MAX / 6 * 5 + 4,
    MAX,
];
/// Years in which the full moon of spring is put a day earlier, and the century year that is no leap
/// year.
const EXCEPTIONS: [u64; 6] = [2_000, 2_049, 2_076, 2_100, 2_106, 2_133];

impl<W: Write> Generator<W> {
    // ------------------------------------------------------------ one Target

    /// The first and the last of at most eight years from 2000 to 2178. One and eight are likely.
    fn few_years(&mut self) -> (u64, u64) {
        let years = match self.random.below(10) {
            0..=2 => 1,
            3..=5 => MAX_YEARS,
            _ => self.random.between(1, MAX_YEARS),
        };
        let latest = LAST_YEAR + 1 - years;
        let first = match self.random.below(10) {
            0 => FIRST_YEAR,
            1 => latest,
            _ => self.random.between(FIRST_YEAR, latest),
        };
        (first, first + years - 1)
    }

    /// Few years with a list that mostly is just long enough.
    fn plain_target(&mut self) -> Edge {
        let (first, last) = self.few_years();
        let needed = (last - first + 1) * DAYS_A_YEAR;
        let words = match self.random.below(10) {
            0 => needed - 1,
            1 => self.random.below(needed),
            2 | 3 => needed + self.random.between(1, 8),
            _ => needed,
        };
        (first, last, words)
    }

    /// So many years that a narrow word can't hold six times their number.
    fn wide_target(&mut self, years: u64) -> Edge {
        let latest = MAX - years + 1;
        let first = match self.random.below(4) {
            0 => 0,
            1 => latest,
            2 => latest.min(FIRST_YEAR),
            _ => latest.min(self.random.any_size()),
        };
        let words = self.random.pick(&[6, 6, 48, 54]);
        (first, first + (years - 1), words)
    }

    fn edge_target(&mut self) -> Edge {
        match self.random.below(6) {
            0 | 1 => self.random.pick(&INSIDE),
            2 => self.random.pick(&OUTSIDE),
            3 => self.random.pick(&MANY),
            4 => self.random.pick(&REVERSED),
            _ => {
                let years = self.random.pick(&WIDE);
                self.wide_target(years)
            }
        }
    }

    /// A fill that likes to look like a day of the years, if they are few. A long list mostly has a
    /// short one, so that its answer stays short.
    fn target_fill(&mut self, (first, last, words): Edge) -> u64 {
        if words > 100 && !self.random.percent(3) {
            return self.random.below(10);
        }
        let inside = FIRST_YEAR <= first && first <= last && last <= LAST_YEAR;
        let few = inside && last - first < MAX_YEARS;
        match self.random.below(8) {
            0..=2 if few => self.random.pick(&closed_days(first, last + 1)),
            3 => self.fill(),
            4 => 0,
            _ => self.random.between(1, 999),
        }
    }

    fn target_words(&mut self, edge: Edge) -> Vec<u64> {
        let fill = self.target_fill(edge);
        vec![edge.0, edge.1, edge.2, fill]
    }

    pub fn target_arguments(&mut self) -> Vec<u64> {
        let edge = if self.random.percent(35) {
            self.edge_target()
        } else {
            self.plain_target()
        };
        self.target_words(edge)
    }

    fn target(&mut self, edge: Edge) -> io::Result<()> {
        let arguments = self.target_words(edge);
        self.call("target", &arguments).map(|_| ())
    }

    // ------------------------------------------------------------ Targets in turn

    /// Targets of several kinds, on the book as it is. The long lists are seldom, as their answers take
    /// time.
    pub fn targets(&mut self) -> io::Result<()> {
        for _ in 0..self.random.between(2, 4) {
            match self.random.below(20) {
                0 => self.all_of(&LONG)?,
                1 | 2 => self.all_of(&INSIDE)?,
                3 | 4 => self.all_of(&OUTSIDE)?,
                5 | 6 => self.all_of(&MANY)?,
                7 | 8 => self.all_of(&REVERSED)?,
                9 | 10 => self.all_wide()?,
                11 | 12 => self.all_exceptions()?,
                13..=15 => self.all_years()?,
                16 | 17 => self.fills_like_days()?,
                _ => self.lists_in_turn()?,
            }
        }
        Ok(())
    }

    /// The long lists alone: few seeds would meet them all if they stood in `targets` only.
    pub fn long_targets(&mut self) -> io::Result<()> {
        self.all_of(&LONG)
    }

    /// All Targets of a list, in any order.
    fn all_of(&mut self, edges: &[Edge]) -> io::Result<()> {
        let mut left = edges.to_vec();
        while !left.is_empty() {
            let place = self.random.place(left.len());
            self.target(left.swap_remove(place))?;
        }
        Ok(())
    }

    fn all_wide(&mut self) -> io::Result<()> {
        for years in WIDE {
            let edge = self.wide_target(years);
            self.target(edge)?;
        }
        Ok(())
    }

    /// Few years, each time with one of the exceptions among them.
    fn all_exceptions(&mut self) -> io::Result<()> {
        for year in EXCEPTIONS {
            let first = (year - self.random.below(MAX_YEARS)).max(FIRST_YEAR);
            let last = self.random.between(year, first + MAX_YEARS - 1);
            self.target((first, last, (last - first + 1) * DAYS_A_YEAR))?;
        }
        Ok(())
    }

    /// The days of all years there are, a few years at a time.
    fn all_years(&mut self) -> io::Result<()> {
        let mut first = FIRST_YEAR;
        while first <= LAST_YEAR {
            let last = LAST_YEAR.min(first + self.random.between(4, MAX_YEARS - 1));
            self.target((first, last, (last - first + 1) * DAYS_A_YEAR))?;
            first = last + 1;
        }
        Ok(())
    }

    /// Lists whose fill is a closed day of the years or the one after them: a few words too long, then
    /// one word too short.
    fn fills_like_days(&mut self) -> io::Result<()> {
        let (first, last) = self.few_years();
        let days = closed_days(first, last + 1);
        let needed = (last - first + 1) * DAYS_A_YEAR;
        let written = self.random.pick(&days[..needed as usize]);
        for fill in [written, days[needed as usize], days[0]] {
            let words = needed + self.random.between(1, 6);
            self.call("target", &[first, last, words, fill])?;
        }
        self.call("target", &[first, last, needed - 1, written])
            .map(|_| ())
    }

    /// Lists that must not show what was in the one before: the days of eight years, then of fewer,
    /// then refused ones, each right after one that is done.
    fn lists_in_turn(&mut self) -> io::Result<()> {
        let first = self.random.between(FIRST_YEAR, LAST_YEAR - MAX_YEARS);
        let (fewer, eight) = (self.random.between(0, 6), MAX_YEARS - 1);
        for (last, words) in [
            (first + eight, 48),
            (first + fewer, 48),
            (first + eight, 47),
            (first + fewer, 42),
            (first + eight + 1, 54),
        ] {
            let fill = self.target_fill((first, last, words));
            self.bare_call("target", &[first, last, words, fill])?;
        }
        Ok(())
    }

    // ------------------------------------------------------------ Targets and books

    /// A life as any other, but that a Target follows many calls.
    pub fn targets_amid_life(&mut self) -> io::Result<()> {
        self.targets = 40;
        match self.random.below(6) {
            0 | 1 => self.mixed_life(),
            2 => self.auctions(),
            3 => self.months(),
            4 => self.jams(),
            _ => self.everybody_paid(),
        }
    }

    /// Calls of each kind on one book, each of them right after a Target.
    pub fn each_call_after_a_target(&mut self) -> io::Result<()> {
        self.change_cast();
        let ((seller, buyer), quantity) = (self.pair(), self.random.between(10, 99));
        let (day, fill) = (self.random.between(0, 8_000) * 7 + 2, self.fill());
        let (delivers, receives) = (
            [seller, buyer, 0, quantity, 1_000, day],
            [buyer, seller, 1, quantity, 1_000, day],
        );
        let close = [100_000, 1_152, fill];
        self.bare_call("open", &[day, 1, 0])?;
        self.bare_call("rate", &[day, 100])?;
        self.after_target("enter", &delivers)?;
        self.after_target("enter", &receives)?;
        self.after_target("enter", &receives)?;
        self.after_target("withdraw", &[2, buyer])?;
        self.after_target("deliver", &[0, 1])?;
        self.after_target("cancel", &[0, seller])?;
        self.after_target("status", &[0])?;
        self.after_target("close", &close)?;
        self.after_target("again", &[1_152, fill])?;
        self.after_target("account", &[seller])?;
        self.after_target("look", &[seller])?;
        self.after_target("month", &[0, 32, fill])?;
        // The buy-in begins after eleven Closes.
        for _ in 0..10 {
            self.bare_call("close", &close)?;
        }
        self.after_target("offer", &[0, 7, 1, 100_000])?;
        self.after_target("close", &close)
    }

    fn after_target(&mut self, name: &str, arguments: &[u64]) -> io::Result<()> {
        let target = self.target_arguments();
        self.bare_call("target", &target)?;
        self.bare_call(name, arguments).map(|_| ())
    }

    /// Books whose closed days are just those that a Target wrote.
    pub fn opened_by_targets(&mut self) -> io::Result<()> {
        for _ in 0..self.random.between(1, 3) {
            let (first, last) = self.few_years();
            let days = closed_days(first, last);
            let mut holidays = days.clone();
            holidays.retain(|&day| is_weekday(day));
            let holiday = self.random.pick(&holidays);
            // An Open on the holiday itself, and one with terms that there are not.
            if self.random.percent(35) {
                self.open_by_target((first, last), holiday, 1)?;
            }
            if self.random.percent(35) {
                self.open_by_target((first, last), holiday, 2)?;
            }
            let first_day = self.clearing_day_before(holiday, &days);
            let terms = u64::from(self.random.percent(70));
            if self.open_by_target((first, last), first_day, terms)? {
                self.life_over_holiday(holiday)?;
            }
        }
        Ok(())
    }

    /// A clearing day that is about two weeks before a holiday, or less. There always is one, as the
    /// first holiday on a weekday is day 111.
    fn clearing_day_before(&mut self, holiday: u64, closed: &[u64]) -> u64 {
        let latest = holiday - self.random.between(1, 14);
        let is_clearing = |day: &u64| is_weekday(*day) && !closed.contains(day);
        (0..=latest).rev().find(is_clearing).unwrap_or(2)
    }

    /// A Target, and right after it an Open with the days that it wrote. Returns whether the Open was
    /// accepted.
    fn open_by_target(
        &mut self,
        (first, last): (u64, u64),
        first_day: u64,
        terms: u64,
    ) -> io::Result<bool> {
        self.change_cast();
        let days = closed_days(first, last);
        let words = days.len() as u64 + self.random.pick(&[0, 0, 0, 1, 5]);
        let arguments = self.target_words((first, last, words));
        self.bare_call("target", &arguments)?;
        let mut arguments = vec![first_day, terms, days.len() as u64];
        arguments.extend(days);
        Ok(self.call("open", &arguments)? == Some(0))
    }

    /// Enters that would settle on the holiday, which is soon, then days that pass it.
    fn life_over_holiday(&mut self, holiday: u64) -> io::Result<()> {
        for _ in 0..self.random.between(1, 2) {
            let mut leg = self.new_leg();
            leg[5] = holiday;
            self.call("enter", &leg)?;
        }
        self.life_of_stages()
    }
}

#[cfg(test)]
mod tests {
    use super::*;
    use crate::holidays::words_needed;
    use crate::journal::{parse, Call, CallSet};

    fn generator(seed: u64) -> Generator<Vec<u8>> {
        Generator::new(seed, 10_000, CallSet::all(), Vec::new())
    }

    #[test]
    fn wide_targets_need_too_many_words() {
        let mut generator = generator(1);
        for years in WIDE {
            for _ in 0..50 {
                let (first, last, words) = generator.wide_target(years);
                assert_eq!(words_needed(first, last), u128::from(years) * 6);
                assert!(words_needed(first, last) > u128::from(words));
            }
        }
    }

    #[test]
    fn some_wide_targets_seem_to_need_few_words() {
        for (bits, count) in [(32, 4), (64, 4)] {
            let few = |years: &&u64| u128::from(**years) * 6 % (1 << bits) <= 6;
            let passes = |years: &&u64| u128::from(**years) * 6 >= 1 << bits;
            assert!(WIDE.iter().filter(passes).filter(few).count() >= count);
        }
    }

    #[test]
    fn an_open_takes_the_days_of_the_target_before_it() {
        for seed in 0..40 {
            let mut generator = generator(seed);
            (generator.readings, generator.noise) = (0, 0);
            generator.opened_by_targets().unwrap();
            let text = String::from_utf8(generator.out).unwrap();
            let lines: Vec<&str> = text.lines().collect();
            assert!(lines.iter().any(|line| line.starts_with("open ")));
            for pair in lines.windows(2).filter(|pair| pair[1].starts_with("open ")) {
                assert_eq!(days_of_target(pair[0]), days_of_open(pair[1]), "{seed}");
            }
        }
    }

    fn days_of_target(line: &str) -> Vec<u64> {
        match parse(line.as_bytes(), &CallSet::all(), &mut Vec::new()) {
            Some(Call::Target { first, last, .. }) => closed_days(first, last),
            _ => panic!("no Target: {line}"),
        }
    }

    fn days_of_open(line: &str) -> Vec<u64> {
        match parse(line.as_bytes(), &CallSet::all(), &mut Vec::new()) {
            Some(Call::Open { closed, .. }) => closed.to_vec(),
            _ => panic!("no Open: {line}"),
        }
    }
}
