//! `generate SEED CALLS [--calls LIST]`: writes a random journal of about CALLS calls.
//!
//! The generator plays its own journal on the book, so that it can aim: it knows the waiting legs,
//! the open obligations, their ages and the accounts. `aim` makes plausible calls and spoils them,
//! `scenario`, `paid`, `closed_days`, `equal_prices` and `rates` string them together, `malformed` makes
//! lines that are no calls, `ending` makes the last line.

mod aim;
mod book;
mod closed_days;
mod ending;
mod equal_prices;
mod holidays;
mod journal;
mod malformed;
mod paid;
mod play;
mod random;
mod rates;
mod scenario;

use std::env;
use std::io::{self, BufWriter, Write};
use std::process::ExitCode;

use book::Refusal;
use ending::Ending;
use journal::{is_comment, parse, CallSet, NAMES};
use play::Player;
use random::Random;

const USAGE: &str = "usage: generate SEED CALLS [--calls LIST]";
/// So many scenarios in a row that write nothing end the journal.
const IDLE_SCENARIOS: u32 = 1_000;

/// What a whole life of a book draws on, so that its legs meet.
struct Cast {
    members: Vec<u64>,
    quantities: Vec<u64>,
    /// Offsets of settlement days from today, in clearing days.
    delays: Vec<u64>,
}

pub struct Generator<W: Write> {
    random: Random,
    player: Player,
    calls: CallSet,
    out: W,
    /// How many of the lines written so far have an answer.
    written: u64,
    limit: u64,
    cast: Cast,
    /// In so many of a hundred cases a call is followed by a Target, by a reading, and by noise.
    targets: u64,
    readings: u64,
    noise: u64,
    /// The lines that are to be written once more, while they are recorded.
    recorded: Option<Vec<Vec<u8>>>,
    numbers: Vec<u64>,
    answer: Vec<u8>,
}

impl<W: Write> Generator<W> {
    fn new(seed: u64, limit: u64, calls: CallSet, out: W) -> Self {
        Generator {
            random: Random::new(seed),
            player: Player::new(),
            calls,
            out,
            written: 0,
            limit,
            cast: Cast {
                members: vec![0, 1],
                quantities: vec![1],
                delays: vec![0],
            },
            targets: 10,
            readings: 30,
            noise: 5,
            recorded: None,
            numbers: Vec::new(),
            answer: Vec::new(),
        }
    }

    fn is_done(&self) -> bool {
        self.written >= self.limit
    }

    /// Writes a line and plays it.
    fn line(&mut self, line: &[u8]) -> io::Result<Option<Refusal>> {
        self.out.write_all(line)?;
        self.out.write_all(b"\n")?;
        if let Some(lines) = &mut self.recorded {
            lines.push(line.to_vec());
        }
        if is_comment(line) {
            return Ok(None);
        }
        self.written += 1;
        self.answer.clear();
        let call = parse(line, &self.calls, &mut self.numbers);
        Ok(call.map(|call| self.player.play(call, &mut self.answer)))
    }

    /// Whether the name is that of a call that exists.
    fn knows(&self, name: &str) -> bool {
        let known = NAMES.iter().position(|&known| known == name);
        known.is_some_and(|call| self.calls.has(call))
    }

    /// Whether a call of the name may be written now.
    fn may_call(&self, name: &str) -> bool {
        !self.is_done() && self.knows(name)
    }

    /// Writes a call alone.
    fn bare_call(&mut self, name: &str, arguments: &[u64]) -> io::Result<Option<Refusal>> {
        if !self.may_call(name) {
            return Ok(None);
        }
        let mut line = name.to_string();
        for argument in arguments {
            let zeros = if self.random.below(400) == 0 {
                self.random.place(40)
            } else {
                0
            };
            line.push(' ');
            line.push_str(&"0".repeat(zeros));
            line.push_str(&argument.to_string());
        }
        self.line(line.as_bytes())
    }

    /// Writes a call and, now and then, a Target, readings and noise after it.
    fn call(&mut self, name: &str, arguments: &[u64]) -> io::Result<Option<Refusal>> {
        let answer = self.bare_call(name, arguments)?;
        if answer.is_some() {
            if self.random.percent(self.targets) {
                let arguments = self.target_arguments();
                self.bare_call("target", &arguments)?;
            }
            while self.random.percent(self.readings) && !self.is_done() {
                self.reading()?;
            }
            if self.random.percent(self.noise) && !self.is_done() {
                self.make_noise()?;
            }
        }
        Ok(answer)
    }

    /// Writes the journal. A journal of no calls is an empty text.
    fn write_all(&mut self, ending: Ending) -> io::Result<()> {
        // A Target needs no book.
        if self.random.percent(50) {
            self.targets()?;
        }
        // The book before the first Open is a book too: it can have Closes, and show them again, and
        // it can have Months.
        if self.random.percent(50) {
            self.life_with_jams()?;
        }
        if self.random.percent(50) {
            self.life_of_empty_months()?;
        }
        let mut idle = 0;
        while !self.is_done() && idle < IDLE_SCENARIOS {
            let before = self.written;
            self.any_scenario()?;
            idle = if self.written > before { 0 } else { idle + 1 };
        }
        if self.limit > 0 {
            self.end(ending)?;
        }
        self.out.flush()
    }
}

fn options() -> Option<(u64, u64, CallSet)> {
    let arguments: Vec<String> = env::args().skip(1).collect();
    let words: Vec<&str> = arguments.iter().map(String::as_str).collect();
    match words[..] {
        [seed, calls] => Some((seed.parse().ok()?, calls.parse().ok()?, CallSet::all())),
        [seed, calls, "--calls", list] => Some((
            seed.parse().ok()?,
            calls.parse().ok()?,
            CallSet::listed(list).ok()?,
        )),
        _ => None,
    }
}

fn main() -> ExitCode {
    let Some((seed, limit, calls)) = options() else {
        eprintln!("{USAGE}");
        return ExitCode::from(2);
    };
    let out = BufWriter::with_capacity(1 << 16, io::stdout().lock());
    match Generator::new(seed, limit, calls, out).write_all(Ending::of_seed(seed)) {
        Ok(()) => ExitCode::SUCCESS,
        Err(error) => {
            eprintln!("{error}");
            ExitCode::from(2)
        }
    }
}
