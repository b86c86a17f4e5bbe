//! Books in which everybody paid: empty Months, Months typed in full, and pairs of the two.

use std::io::{self, Write};

use crate::aim::month_words;
use crate::book::MEMBERS;
use crate::Generator;

/// As many places as a Month is to have.
const PLACES: u64 = MEMBERS as u64;

impl<W: Write> Generator<W> {
    fn month(&mut self, collected: &[u64], places: u64) -> io::Result<()> {
        let arguments = month_words(collected, places, self.fill());
        self.call("month", &arguments).map(|_| ())
    }

    /// A Month in which every debtor pays all, but for a cent at times. Every second one is empty.
    pub fn month_in_full(&mut self) -> io::Result<()> {
        if self.random.percent(50) {
            return self.month(&[], PLACES);
        }
        let unpaid = self.random.below(2);
        let paid = self.owed().map(|owed| owed.saturating_sub(unpaid));
        self.month(&paid, PLACES)
    }

    /// Empty Months in one new book after another.
    pub fn everybody_paid(&mut self) -> io::Result<()> {
        (self.readings, self.noise) = (self.random.pick(&[2, 20]), self.random.pick(&[0, 2]));
        for _ in 0..self.random.between(2, 4) {
            self.open_rightly_or_not()?;
            self.life_of_empty_months()?;
        }
        Ok(())
    }

    pub fn open_rightly_or_not(&mut self) -> io::Result<()> {
        if self.random.percent(70) {
            self.open_any()
        } else {
            self.open_wrongly()
        }
    }

    /// Up to so many obligations that are due today. With none of them all accounts stay zero.
    pub fn enter_pairs(&mut self, most: u64) -> io::Result<()> {
        for _ in 0..self.random.between(0, most) {
            let today = self.day_after(0);
            self.enter_pair(today)?;
        }
        Ok(())
    }

    /// Empty Months before the first Close, then Closes with Months after them, most of them empty.
    pub fn life_of_empty_months(&mut self) -> io::Result<()> {
        self.months_of_wrong_size()?;
        self.month(&[], PLACES)?;
        self.enter_pairs(4)?;
        for _ in 0..self.random.between(1, 4) {
            let days = self.random.between(1, 2);
            self.close_days(days)?;
            self.months_of_wrong_size()?;
            for _ in 0..self.random.between(1, 3) {
                self.month_of_right_size()?;
            }
        }
        Ok(())
    }

    /// Months that are refused by 5, for their places or for their list.
    fn months_of_wrong_size(&mut self) -> io::Result<()> {
        for _ in 0..self.random.below(4) {
            let (mut collected, mut places) = (Vec::new(), PLACES);
            if self.random.percent(50) {
                places = self.random.pick(&[0, 31, 33]);
            } else {
                collected = self.owed().to_vec();
                collected.resize(self.random.pick(&[1, 31, 33]), 0);
            }
            self.month(&collected, places)?;
        }
        Ok(())
    }

    /// A Month that is done after a Close, and refused by 21 after a Month.
    fn month_of_right_size(&mut self) -> io::Result<()> {
        let owed = self.owed();
        match self.random.below(6) {
            0 => self.month(&[0; MEMBERS], PLACES),
            1 | 2 => self.month(&owed, PLACES),
            _ => self.month(&[], PLACES),
        }
    }

    /// Twice the same calls from an Open on, but that a Month of the one book is typed with just
    /// what each member owes and the same Month of the other is empty.
    pub fn twins(&mut self) -> io::Result<()> {
        // Noise might open another book.
        (self.readings, self.noise) = (self.random.pick(&[0, 10]), 0);
        self.recorded = Some(Vec::new());
        self.open_rightly_or_not()?;
        let places = self.life_up_to_a_pair()?;
        let before = self.recorded.take().unwrap_or_default();

        let fill = self.fill();
        let mut pair = [
            month_words(&self.owed(), places, fill),
            month_words(&[], places, fill),
        ];
        if self.random.percent(50) {
            pair.reverse();
        }
        self.bare_call("month", &pair[0])?;

        self.recorded = Some(Vec::new());
        self.life_after_a_pair()?;
        let after = self.recorded.take().unwrap_or_default();

        self.repeat(&before)?;
        self.bare_call("month", &pair[1])?;
        self.repeat(&after)
    }

    /// Writes recorded lines once more.
    fn repeat(&mut self, lines: &[Vec<u8>]) -> io::Result<()> {
        for line in lines {
            if !self.is_done() {
                self.line(line)?;
            }
        }
        Ok(())
    }

    /// What comes before the Months of a pair, and the places for them. They are refused by 21 in two
    /// of ten cases, by 5 in three, and else done.
    fn life_up_to_a_pair(&mut self) -> io::Result<u64> {
        self.enter_pairs(5)?;
        let manner = self.random.below(10);
        if manner == 0 {
            return Ok(PLACES);
        }
        self.some_days()?;
        if manner == 1 || self.random.percent(25) {
            self.month_of_right_size()?;
        }
        if manner == 1 {
            return Ok(PLACES);
        }
        self.close_day()?;
        Ok(match manner {
            2..=4 => self.random.pick(&[0, 31, 31, 33, 33]),
            _ => PLACES,
        })
    }

    /// A few Closes with calls between them that leave the accounts alone.
    fn some_days(&mut self) -> io::Result<()> {
        for _ in 0..self.random.between(1, 4) {
            self.close_day()?;
            for _ in 0..self.random.below(3) {
                let name = self
                    .random
                    .pick(&["enter", "withdraw", "cancel", "deliver", "offer"]);
                self.plausible(name)?;
            }
        }
        Ok(())
    }

    /// The accounts after the Months of a pair, a second Month, and at times a third after a Close.
    fn life_after_a_pair(&mut self) -> io::Result<()> {
        self.read_accounts()?;
        self.month_of_right_size()?;
        if self.random.percent(60) {
            self.close_day()?;
            self.month_of_right_size()?;
            self.read_accounts()?;
        }
        Ok(())
    }

    /// Reads all accounts, or those of the cast.
    fn read_accounts(&mut self) -> io::Result<()> {
        let members = if self.random.percent(25) {
            (0..PLACES).collect()
        } else {
            self.cast.members.clone()
        };
        for member in members {
            self.bare_call("account", &[member])?;
        }
        Ok(())
    }
}

#[cfg(test)]
mod tests {
    use super::*;
    use crate::book::Refusal;
    use crate::journal::{parse, Call, CallSet};
    use crate::play::Player;

    /// The lines of two books that are twins.
    fn twins(seed: u64) -> (Vec<String>, Vec<String>) {
        let mut generator = Generator::new(seed, 10_000, CallSet::all(), Vec::new());
        generator.twins().unwrap();
        let text = String::from_utf8(generator.out).unwrap();
        let mut first: Vec<String> = text.lines().map(str::to_string).collect();
        let second = first.split_off(first.len() / 2);
        (first, second)
    }

    /// Plays a line; returns the answer number and the whole answer.
    fn play(player: &mut Player, line: &str) -> (Refusal, Vec<u8>) {
        let (mut numbers, mut out) = (Vec::new(), Vec::new());
        let call = parse(line.as_bytes(), &CallSet::all(), &mut numbers).expect("a call");
        (player.play(call, &mut out), out)
    }

    /// How many amounts a Month has collected.
    fn amounts(line: &str) -> usize {
        match parse(line.as_bytes(), &CallSet::all(), &mut Vec::new()) {
            Some(Call::Month { collected, .. }) => collected.len(),
            _ => panic!("no Month: {line}"),
        }
    }

    /// Plays twins side by side; returns the answer of the pair of Months.
    fn answer_of_pair(seed: u64) -> Refusal {
        let (first, second) = twins(seed);
        assert!(first[0].starts_with("open ") && first.len() == second.len());
        let mut players = [Player::new(), Player::new()];
        let mut pairs = Vec::new();
        for (one, other) in first.iter().zip(&second) {
            let answers = [play(&mut players[0], one), play(&mut players[1], other)];
            assert_eq!(answers[0], answers[1], "{seed}: {one} / {other}");
            assert_eq!(players[0].book, players[1].book, "{seed}: {one} / {other}");
            if one != other {
                assert_eq!(amounts(one) + amounts(other), MEMBERS);
                pairs.push(answers[0].0);
            }
        }
        assert_eq!(pairs.len(), 1, "{seed}");
        pairs[0]
    }

    #[test]
    fn twins_end_alike() {
        let answers: Vec<Refusal> = (0..60).map(answer_of_pair).collect();
        for answer in [0, 5, 21] {
            assert!(answers.contains(&answer), "{answer}");
        }
    }
}
