//! `bench diff`: two networks side by side, which is the question before an update is signed.

mod pairs;
mod settings;
mod under_way;

use bench::{Bench, Looks};

use crate::names::counted;
use crate::question::Door;
use pairs::Pairs;

pub const HELP: &str = "\
bench diff BEFORE AFTER [CHANNEL [NETWORK]]: makes the calls of two scripts and prints what differs
between the networks that they leave

The first lines name the two, with their boards' numbers by slot. Then come, each a group that is left
out where it has no line:

  settings that differ             a board's number, width and direction entries; of its links
                                   whether they are enabled, direction, network, and HELLO said
  cables that differ               new ones, and those that are gone
  arrived before and do not now    from which board to which numbers, and how it ends now
  arrive now and did not before    .. and how it ended before
  end otherwise                    did not arrive before, and do not now for another reason
  go another way                   board by board, with the link that is taken there

The last ones are of ENDs, sent and followed as `bench route` does it, each on a copy of its own: from
every board that both have to every number that a board of either has, to CHANNEL (`control` for the
control unit), 0 if not given, on NETWORK, 0 if not given. Boards, links and numbers of which the same
is said share a line.

What is under way, credit, tokens, also on lines, circuits and what channel-ends are aimed at, is not
compared; but an END may have to wait for it, and the last line says on which boards it differs.

Exit status: 0 the same settings, cables and ways; 1 something differs; 2 a script was not run to its
end, or nothing was asked.
";

/// A network, and what its script is called.
pub struct Side<'a> {
    pub name: &'a str,
    pub bench: &'a Bench,
}

impl Side<'_> {
    /// The boards' numbers, by slot, are what is sent to below.
    fn head(&self) -> String {
        let looks = self.bench.looks();
        let boards = counted(looks.nodes(), "board");
        let numbers = (0..looks.nodes()).map(|slot| looks.node(slot).number.to_string());
        let numbers: Vec<String> = numbers.collect();
        let name = if numbers.len() == 1 {
            "number"
        } else {
            "numbers"
        };
        format!("{}, {boards}, {name} {}", self.name, numbers.join(" "))
    }
}

/// What the two networks are now, through the looks.
#[derive(Clone, Copy)]
struct Both<'a> {
    before: Looks<'a>,
    after: Looks<'a>,
}

impl Both<'_> {
    /// How many boards both have: those of the lowest slots.
    fn boards(self) -> usize {
        self.before.nodes().min(self.after.nodes())
    }
}

/// What differs, and whether nothing does.
pub fn diff(before: &Side, after: &Side, door: Door, network: u32) -> (String, bool) {
    let both = Both {
        before: before.bench.looks(),
        after: after.bench.looks(),
    };
    let pairs = Pairs::of(before.bench, after.bench, door, network);
    let mut groups = vec![
        ("settings that differ".to_owned(), settings::settings(both)),
        ("cables that differ".to_owned(), settings::cables(both)),
    ];
    groups.extend(pairs.groups());
    let same = groups.iter().all(|(_, lines)| lines.is_empty());
    let mut parts = vec![format!(
        "before: {}\nafter:  {}\n",
        before.head(),
        after.head()
    )];
    parts.extend(groups.into_iter().filter_map(group));
    parts.push(closing(both, &pairs, same));
    (parts.join("\n"), same)
}

/// Its name and its lines, or nothing where it has none.
fn group((name, lines): (String, Vec<String>)) -> Option<String> {
    let lines: Vec<String> = lines.iter().map(|line| format!("  {line}\n")).collect();
    (!lines.is_empty()).then(|| format!("{name}:\n{}", lines.concat()))
}

fn closing(both: Both, pairs: &Pairs, same: bool) -> String {
    let says_so = match same {
        true => "the same network: settings, cables and ways\n",
        false => "",
    };
    let other = under_way::differs(both);
    let other = other.map(|boards| format!("{OTHER_TRAFFIC} {boards}\n"));
    let counts = pairs.counts();
    format!("{says_so}{counts}\n{}", other.unwrap_or_default())
}

const OTHER_TRAFFIC: &str = "not compared: what is under way, which differs on";
