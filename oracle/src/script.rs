//! Scripts for a program that opens runs and runs their slots: the commands as text, and the line
//! that each must be answered with.

use crate::run::Run;
use crate::sheet::Refusal;
use crate::tally::Tally;
use std::fmt;

/// How many numbers the program holds of each slice: the run, the outcomes, the packets sent.
pub const SLICES: [usize; 3] = [RUN_NUMBERS + 8, 3 * 16 + 8, 3 * 64 + 8];

/// A run lives in so many numbers.
pub const RUN_NUMBERS: usize = 12_288;

/// A program's text has a limit of 65,536 bytes; what is handed to it stays below it.
pub const LONGEST_TEXT: usize = 60_000;

/// What stands in the result slices before a slot.
const FILLER: u32 = u32::MAX;

#[derive(Clone, Debug, PartialEq, Eq)]
pub enum Command {
    Sheet(Vec<u8>),
    Slot(Vec<u8>),
    /// So many slots with the same offers, of which the last is answered.
    Repeat(u64, Vec<u8>),
    /// How many numbers of each slice are lent from here on.
    Lengths([usize; 3]),
    Tally(Tally),
    /// A number into the run's slice, past the numbers that the run lives in.
    PutPast(usize, u32),
    /// No run in the slice any more.
    Zeros,
}

impl fmt::Display for Command {
    fn fmt(&self, to: &mut fmt::Formatter) -> fmt::Result {
        match self {
            Command::Sheet(bytes) => write!(to, "sheet {}", as_text(bytes)),
            Command::Slot(offers) => write!(to, "slot {}", as_text(offers)),
            Command::Repeat(times, offers) => write!(to, "repeat {times} {}", as_text(offers)),
            Command::Lengths([run, outcomes, sent]) => {
                write!(to, "lengths {run} {outcomes} {sent}")
            }
            Command::Tally(tally) => write!(to, "tally{}", numbers(&tally.totals())),
            Command::PutPast(place, value) => write!(to, "put {} {value}", RUN_NUMBERS + place),
            Command::Zeros => write!(to, "zeros"),
        }
    }
}

/// Bytes as words of hex digits.
pub fn as_text(bytes: &[u8]) -> String {
    if bytes.is_empty() {
        return "-".to_string();
    }
    bytes.iter().map(|byte| format!("{byte:02X}")).collect()
}

/// Commands that mean the same whatever came before them.
#[derive(Clone, Debug)]
pub struct Script(Vec<Command>);

impl Script {
    /// The program's first state is brought about before the commands; those past the longest
    /// text are left out.
    pub fn new(commands: Vec<Command>) -> Script {
        let start = [
            Command::Zeros,
            Command::Lengths(SLICES),
            Command::Tally(Tally::default()),
        ];
        let mut length = 0;
        let fits = |one: &Command| {
            length += one.to_string().len() + 1;
            length < LONGEST_TEXT
        };
        Script(start.into_iter().chain(commands).take_while(fits).collect())
    }

    pub fn len(&self) -> usize {
        self.0.len()
    }

    pub fn is_empty(&self) -> bool {
        self.0.is_empty()
    }

    pub fn commands(&self) -> &[Command] {
        &self.0
    }

    /// The script without some of its commands.
    pub fn without(&self, from: usize, count: usize) -> Script {
        let end = (from + count).min(self.0.len());
        Script([&self.0[..from], &self.0[end..]].concat())
    }

    pub fn text(&self) -> String {
        self.0
            .iter()
            .map(|command| format!("{command}\n"))
            .collect()
    }

    /// The lines that the program must write.
    pub fn answers(&self) -> Vec<String> {
        let mut model = Model::default();
        self.0.iter().filter_map(|one| model.answer(one)).collect()
    }
}

/// What the program holds, with the run as a value of its own.
struct Model {
    run: Option<Run>,
    lengths: [usize; 3],
    tally: Tally,
}

impl Default for Model {
    fn default() -> Model {
        Model {
            run: None,
            lengths: SLICES,
            tally: Tally::default(),
        }
    }
}

impl Model {
    /// The line for a command; some commands have none.
    fn answer(&mut self, command: &Command) -> Option<String> {
        match command {
            Command::Sheet(bytes) => return Some(self.open(bytes)),
            Command::Slot(offers) => return Some(self.slot(offers)),
            Command::Repeat(times, offers) => {
                for _ in 1..*times {
                    self.call(offers, &mut [0; SLICES[1]], &mut [0; SLICES[2]])
                        .ok();
                }
                return Some(self.slot(offers));
            }
            Command::Lengths(lengths) => self.lengths = *lengths,
            Command::Tally(tally) => self.tally = *tally,
            Command::PutPast(..) => {}
            Command::Zeros => self.run = None,
        }
        None
    }

    fn open(&mut self, bytes: &[u8]) -> String {
        if self.lengths[0] < RUN_NUMBERS {
            return format!("{}; kept", refused(13));
        }
        match Run::open(bytes) {
            Err(refusal) => format!("{refusal}; kept"),
            Ok(run) => {
                self.run = Some(run);
                "opened; kept".to_string()
            }
        }
    }

    fn slot(&mut self, offers: &[u8]) -> String {
        let (mut outcomes, mut sent) = ([FILLER; SLICES[1]], [FILLER; SLICES[2]]);
        let answer = match self.call(offers, &mut outcomes, &mut sent) {
            Ok(count) => format!("sent {count}"),
            Err(refusal) => refusal.to_string(),
        };
        format!(
            "{answer}; outcomes{}; packets{}; tally{}; kept",
            numbers(written(&outcomes)),
            numbers(written(&sent)),
            numbers(&self.tally.totals())
        )
    }

    fn call(
        &mut self,
        offers: &[u8],
        outcomes: &mut [u32],
        sent: &mut [u32],
    ) -> Result<usize, Refusal> {
        let [run, outcomes_lent, sent_lent] = self.lengths;
        if run < RUN_NUMBERS {
            return Err(refused(13));
        }
        let outcomes = &mut outcomes[..outcomes_lent.min(SLICES[1])];
        let sent = &mut sent[..sent_lent.min(SLICES[2])];
        match &mut self.run {
            None => Err(refused(14)),
            Some(run) => run.slot(offers, outcomes, sent, &mut self.tally),
        }
    }
}

fn refused(number: u32) -> Refusal {
    Refusal { number, place: 0 }
}

/// The numbers up to the last that is not the filler.
fn written(numbers: &[u32]) -> &[u32] {
    let end = numbers.iter().rposition(|&number| number != FILLER);
    &numbers[..end.map_or(0, |last| last + 1)]
}

/// Each number with a space before it.
fn numbers(numbers: &[u32]) -> String {
    numbers.iter().map(|number| format!(" {number}")).collect()
}
