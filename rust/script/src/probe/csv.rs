//! A recording as CSV: a line an instant, a column a wire.

use super::recording::{Instant, Levels, Recording, Unclear};
use super::unmet;

/// Reads the columns of these names.
pub fn read<'a>(file: &'a str, names: &[&str]) -> Result<Recording<'a>, Unclear> {
    let lines = (1..).zip(file.lines());
    let mut rows = lines.filter(|(_, line)| !is_comment(line));
    // There are two wires or more: a line without a comma is none of their columns.
    let Some((_, head)) = rows.find(|(_, line)| line.contains(',')) else {
        let expected = unmet("the names of columns", "");
        return Err(Unclear::Line { line: 1, expected });
    };
    let columns: Vec<&str> = cells(head).collect();
    let wanted = names.iter().map(|name| place_of(&columns, name));
    let wanted: Vec<usize> = wanted.collect::<Result<_, _>>()?;
    let time = columns.iter().position(|name| is_time(name));
    let mut levels = Levels::starting(names, vec![None; names.len()]);
    for (line, row) in rows {
        let cells: Vec<&str> = cells(row).collect();
        let next = wanted.iter().map(|place| level(&cells, *place, line));
        let next: Vec<_> = next.collect::<Result<_, _>>()?;
        let time = time.and_then(|place| cells.get(place).copied());
        levels.become_at(&next, Instant::Line { line, time })?;
    }
    Ok(levels.recording())
}

/// Comments begin as sigrok and others write them.
fn is_comment(line: &str) -> bool {
    let line = line.trim_start();
    line.is_empty() || line.starts_with([';', '#'])
}

fn cells(row: &str) -> impl Iterator<Item = &str> {
    row.split(',').map(|cell| cell.trim().trim_matches('"'))
}

fn is_time(name: &str) -> bool {
    name.to_ascii_lowercase().starts_with("time")
}

fn place_of(columns: &[&str], name: &str) -> Result<usize, Unclear> {
    let is_it = |place: &usize| columns[*place] == name;
    let places: Vec<usize> = (0..columns.len()).filter(is_it).collect();
    match places[..] {
        [place] => Ok(place),
        _ => Err(Unclear::Wire {
            name: name.to_owned(),
            count: places.len(),
        }),
    }
}

fn level(cells: &[&str], place: usize, line: usize) -> Result<Option<bool>, Unclear> {
    match cells.get(place).copied() {
        Some("0") => Ok(Some(false)),
        Some("1") => Ok(Some(true)),
        found => {
            let expected = unmet("a level 0 or 1", found.unwrap_or_default());
            Err(Unclear::Line { line, expected })
        }
    }
}
