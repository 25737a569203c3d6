//! The manual page, made of the help.

use super::{help, Verb, TITLE, VERBS};

pub const HELP: &str = "\
bench manual: prints all of the help as a manual page

  ./bench manual | man -l -
  ./bench manual > bench.1

Exit status: 0 printed.
";

/// The page in roff: the name, how each verb is typed, the help, and the help of each verb.
pub fn manual() -> String {
    let (name, about) = TITLE.split_once(": ").unwrap_or((TITLE, ""));
    let about = escaped(about);
    let usages = VERBS.iter().map(|verb| format!("{}\n.br\n", bold(verb)));
    let usages: String = usages.collect();
    let help = help();
    let rest = help.strip_prefix(TITLE).unwrap_or(&help);
    let verbs: String = VERBS.iter().map(section).collect();
    format!(
        ".TH BENCH 1\n.SH NAME\n{name} \\- {about}\n.SH SYNOPSIS\n{usages}.SH DESCRIPTION\n{}.SH VERBS\n{verbs}",
        paragraphs(rest)
    )
}

/// How a verb is typed, what is typed as it stands in bold.
fn bold(verb: &Verb) -> String {
    let arguments = escaped(verb.arguments);
    format!("\\fBbench {}\\fR {arguments}", verb.name)
        .trim_end()
        .to_owned()
}

fn section(verb: &Verb) -> String {
    format!(".SS {}\n{}", verb.name, paragraphs(verb.help))
}

/// Paragraphs are filled; those that have a line set in stay as they are.
fn paragraphs(text: &str) -> String {
    let paragraph = |lines: &str| {
        let is_set = lines.lines().any(|line| line.starts_with("  "));
        let lines: String = lines.lines().map(|line| escaped(line) + "\n").collect();
        match is_set {
            true => format!(".PP\n.nf\n{lines}.fi\n"),
            false => format!(".PP\n{lines}"),
        }
    };
    let parts = text.trim_matches('\n').split("\n\n");
    parts.map(paragraph).collect()
}

/// A line as roff takes it for text.
fn escaped(line: &str) -> String {
    let line = line.replace('\\', "\\e").replace('-', "\\-");
    match line.starts_with(['.', '\'']) {
        true => format!("\\&{line}"),
        false => line,
    }
}
