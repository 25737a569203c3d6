//! `bench matrix`: every board to every board's number.

use bench::{Bench, Looks};

use crate::question::{Door, Question};
use crate::walk::{walk, Ending};

pub const HELP: &str = "\
bench matrix [--csv] FILE [CHANNEL [NETWORK]]: makes the calls of FILE, then sends an END from every
board to every board's number

Each END is sent and followed as `bench route` does it, on a copy of its own: from the lowest
channel-end of its board that has no circuit open, to CHANNEL (`control` for the control unit), 0 if
not given, on NETWORK, 0 if not given. A row is a board that sends, a column a board to whose number
it sends:

  arrived      a board of that number got it
  Elsewhere    a board of another number got it
  Split        a switch of the other width read its header
  NoRoute      a switch has no enabled link of that direction and network
  Waiting      a whole round of steps changed nothing; `bench route` says what it waits for
  Steps        it is still on its way after 65536 steps
  no N         Aim or Output was refused, by this number

With --csv each pair is a line for a spreadsheet: who sends, to whose number, what came of it, and
the board where it ended. Where two boards have one number this tells which of them got it.

Exit status: 0 all arrived; 1 some did not; 2 the script was not run to its end, or nothing was
asked.
";

/// What came of one pair.
struct Pair {
    from: usize,
    to: usize,
    outcome: String,
    /// The board where it ended: that got it, refused it or keeps it waiting.
    at: Option<usize>,
}

const ARRIVED: &str = "arrived";

/// What came of all pairs, by sender and then by who is meant.
pub struct Matrix<'a> {
    looks: Looks<'a>,
    pairs: Vec<Pair>,
}

impl Matrix<'_> {
    /// Asks for every pair, each on a copy.
    pub fn of(bench: &Bench, door: Door, network: u32) -> Matrix<'_> {
        let looks = bench.looks();
        let boards = 0..looks.nodes();
        let pairs = boards
            .clone()
            .flat_map(|from| boards.clone().map(move |to| (from, to)));
        let asked = pairs.map(|(from, to)| {
            let question = Question {
                slot: from,
                number: looks.node(to).number,
                door,
                network,
            };
            pair(looks, from, to, walk(bench.clone(), question).end)
        });
        let pairs = asked.collect();
        Matrix { looks, pairs }
    }

    pub fn all_arrived(&self) -> bool {
        self.arrived() == self.pairs.len()
    }

    fn arrived(&self) -> usize {
        let arrived = self.pairs.iter().filter(|pair| pair.outcome == ARRIVED);
        arrived.count()
    }

    /// What came of what a board sent, by who is meant.
    pub(crate) fn outcomes(&self, from: usize) -> impl Iterator<Item = &str> {
        let sent = self.pairs.iter().filter(move |pair| pair.from == from);
        sent.map(|pair| pair.outcome.as_str())
    }

    /// How many arrived.
    pub(crate) fn summary(&self) -> String {
        format!("{} of {} arrived", self.arrived(), self.pairs.len())
    }

    fn number(&self, slot: usize) -> String {
        self.looks.node(slot).number.to_string()
    }

    /// A line a pair, under a line of names.
    pub fn csv(&self) -> String {
        let mut text = "from_board,from_number,to_board,to_number,outcome,at_board\n".to_owned();
        for pair in &self.pairs {
            let (from, to) = (self.number(pair.from), self.number(pair.to));
            let at = pair.at.map_or(String::new(), |at| at.to_string());
            let (sender, meant, outcome) = (pair.from, pair.to, &pair.outcome);
            text += &format!("{sender},{from},{meant},{to},{outcome},{at}\n");
        }
        text
    }

    /// A row a sender, under two lines that name who is meant.
    pub fn table(&self) -> String {
        let boards = 0..self.looks.nodes();
        let heads = boards.clone().map(|slot| slot.to_string());
        let numbers = boards.map(|slot| self.number(slot));
        let mut rows = vec![row("to board", heads), row("to number", numbers)];
        for sent in self.pairs.chunk_by(|one, next| one.from == next.from) {
            let from = sent[0].from;
            let name = format!("from board {from}, number {}", self.number(from));
            rows.push(row(&name, sent.iter().map(|pair| pair.outcome.clone())));
        }
        format!("{}{}\n", aligned(&rows), self.summary())
    }
}

fn pair(looks: Looks, from: usize, to: usize, end: Ending) -> Pair {
    let number = |slot: usize| looks.node(slot).number;
    let (outcome, at) = match end {
        Ending::Unsent { refusal, .. } => (format!("no {}", refusal.number()), None),
        Ending::Got { slot, .. } if number(slot) == number(to) => (ARRIVED.to_owned(), Some(slot)),
        Ending::Got { slot, .. } => ("Elsewhere".to_owned(), Some(slot)),
        Ending::Refused { place, cause } => (cause.to_string(), Some(place.slot)),
        Ending::Waiting { place, .. } => ("Waiting".to_owned(), Some(place.slot)),
        Ending::Steps => ("Steps".to_owned(), None),
    };
    Pair {
        from,
        to,
        outcome,
        at,
    }
}

fn row(name: &str, cells: impl Iterator<Item = String>) -> Vec<String> {
    std::iter::once(name.to_owned()).chain(cells).collect()
}

/// Rows with their columns below each other, two spaces apart.
fn aligned(rows: &[Vec<String>]) -> String {
    let columns = 0..rows[0].len();
    let width = |column: usize| rows.iter().map(|row| row[column].len()).max();
    let widths: Vec<usize> = columns.map(|column| width(column).unwrap_or(0)).collect();
    let line = |row: &Vec<String>| {
        let cells = row.iter().zip(&widths);
        let padded = cells.map(|(cell, width)| format!("{cell:width$}"));
        padded.collect::<Vec<_>>().join("  ").trim_end().to_owned() + "\n"
    };
    rows.iter().map(line).collect()
}
