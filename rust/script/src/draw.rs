//! `bench draw`: the network as a picture, in Graphviz DOT.
//!
//! A board is a table with a row for each link and for whatever is under way; a cable joins the rows
//! of its two links, so that what is said of a link stands at its own end.

use bench::sizes::{CHANNEL_ENDS, LINKS, PORTS};
use bench::{Bench, LinkEnd, Looks};

use crate::facts;
use crate::names::{letter, port};

pub const HELP: &str = "\
bench draw FILE: makes the calls of FILE and prints the network that they leave as Graphviz DOT

  bench draw FILE | dot -Tsvg > network.svg

A board shows its number and width, its links with direction, network, credit and what is on their
lines, and what is under way: circuits, tokens held, and in red what waits. Left out are links with no
cable that nobody has set, while no circuit is open by them. A cable has an arrow where a circuit is open
over it, and is dotted where an end is disabled. Where both widths are in use, the boards at one byte are
orange and the cables that join the two widths are red.

Exit status: 0 printed; 2 the script was not run to its end.
";

const PLAIN: &str = "#f2f2f2";
const ONE_BYTE: &str = "#ffcc80";
const WAITS: &str = "#c00000";
const SPLITS: &str = "#e00000";
const CABLE: &str = "#606060";

const LEGEND: &str = "orange: one-byte headers where others have three; red cable: joins the two \
                      widths; arrow: a circuit is open that way; dotted: an end is disabled; red \
                      words: waits";

/// The network in DOT.
pub fn draw(bench: &Bench) -> String {
    let looks = bench.looks();
    let slots = 0..looks.nodes();
    let boards: String = slots.clone().map(|slot| board(bench, slot)).collect();
    let ends = slots.flat_map(|slot| (0..LINKS).map(move |link| LinkEnd { slot, link }));
    let cables: String = ends.filter_map(|end| cable(looks, end)).collect();
    format!(
        "digraph bench {{\n\
         graph [rankdir=LR, ranksep=1, nodesep=0.4, fontname=Helvetica, fontsize=10]\n\
         graph [labelloc=b, label=\"{LEGEND}\"]\n\
         node [shape=plain, fontname=Helvetica, fontsize=11]\n\
         edge [penwidth=2]\n\
         {boards}{cables}}}\n"
    )
}

/// A board as a table, a row a line.
fn board(bench: &Bench, slot: usize) -> String {
    let looks = bench.looks();
    let name = format!("<b>board {slot}</b><br/>{}", facts::board(looks, slot));
    let mut rows = vec![format!("<tr><td>{name}</td></tr>\n")];
    rows.extend((0..LINKS).filter_map(|index| link_row(looks, slot, index)));
    rows.extend((0..PORTS).flat_map(|index| port_rows(bench, slot, index)));
    rows.extend((0..CHANNEL_ENDS).flat_map(|end| end_rows(looks, slot, end)));
    rows.extend(facts::unit(looks, slot).map(|fact| under_way("control unit", &fact)));
    let colour = colour(looks, slot);
    let table = format!("border=\"0\" cellborder=\"1\" cellspacing=\"0\" bgcolor=\"{colour}\"");
    format!(
        "board{slot} [label=<<table {table}>\n{}</table>>]\n",
        rows.concat()
    )
}

fn colour(looks: Looks, slot: usize) -> &'static str {
    let width = |slot| looks.node(slot).width;
    let disagree = (0..looks.nodes()).any(|other| width(other) != width(slot));
    match (disagree, width(slot)) {
        (true, 1) => ONE_BYTE,
        _ => PLAIN,
    }
}

/// A link's row, where its cable ends. Fresh leaves every board four links that have none.
fn link_row(looks: Looks, slot: usize, index: usize) -> Option<String> {
    let seen = looks.link(slot, index);
    let name = letter(index);
    let on_line = facts::on_line(looks, slot, index);
    let state = std::iter::once(facts::link_state(&seen)).chain(on_line);
    let state = state.collect::<Vec<_>>().join(", ");
    let row = format!("<tr><td align=\"left\" port=\"{name}\">link {name}: {state}</td></tr>\n");
    let is_used = seen.user.peer().is_some();
    (seen.wired == 1 || is_used || facts::is_set(&seen)).then_some(row)
}

fn port_rows(bench: &Bench, slot: usize, index: usize) -> Vec<String> {
    let held = facts::port_facts(bench.looks(), slot, index).into_iter();
    let waits = facts::waits(bench, slot, index);
    let waits = waits.map(|fact| format!("<font color=\"{WAITS}\">{fact}</font>"));
    let facts = held.chain(waits);
    facts.map(|fact| under_way(&port(index), &fact)).collect()
}

fn end_rows(looks: Looks, slot: usize, end: usize) -> Vec<String> {
    let facts = facts::end_facts(looks, slot, end).into_iter();
    let place = format!("channel-end {end}");
    facts.map(|fact| under_way(&place, &fact)).collect()
}

fn under_way(place: &str, fact: &str) -> String {
    format!("<tr><td align=\"left\" bgcolor=\"white\">{place}: {fact}</td></tr>\n")
}

/// A cable, drawn once: from the lower of its two ends.
fn cable(looks: Looks, near: LinkEnd) -> Option<String> {
    let (slot, link) = looks.link(near.slot, near.link).far()?;
    let (slot, link) = (slot as usize, link as usize);
    let far = LinkEnd { slot, link };
    let is_lower = (near.slot, near.link) < (far.slot, far.link);
    let line = format!(
        "board{}:{} -> board{}:{} [{}]\n",
        near.slot,
        letter(near.link),
        far.slot,
        letter(far.link),
        cable_looks(looks, near, far)
    );
    is_lower.then_some(line)
}

fn cable_looks(looks: Looks, near: LinkEnd, far: LinkEnd) -> String {
    let seen = |end: LinkEnd| looks.link(end.slot, end.link);
    let is_used = |end: LinkEnd| seen(end).user.peer().is_some();
    let arrows = match (is_used(near), is_used(far)) {
        (false, false) => "none",
        (true, false) => "forward",
        (false, true) => "back",
        (true, true) => "both",
    };
    let width = |end: LinkEnd| looks.node(end.slot).width;
    let colour = match width(near) == width(far) {
        true => CABLE,
        false => SPLITS,
    };
    let style = match seen(near).enabled == 1 && seen(far).enabled == 1 {
        true => "solid",
        false => "dotted",
    };
    format!("dir={arrows}, color=\"{colour}\", style={style}")
}
