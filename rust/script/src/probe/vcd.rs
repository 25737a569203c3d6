//! A recording as VCD, the value change dump of IEEE 1364: names first, then times and values.

use std::collections::BTreeMap;
use std::str::SplitWhitespace;

use super::recording::{Instant, Levels, Recording, Scale, Unclear};
use super::unmet;

/// The keyword that ends the declarations of every VCD.
pub const END_OF_NAMES: &str = "$enddefinitions";

/// The words of a file, each with its line.
struct Tokens<'a> {
    lines: std::iter::Enumerate<std::str::Lines<'a>>,
    line: usize,
    words: SplitWhitespace<'a>,
}

impl<'a> Tokens<'a> {
    /// Those from the first keyword on: sigrok may have written a line of its own before it.
    fn of(file: &'a str) -> Tokens<'a> {
        let mut lines = file.lines().enumerate();
        let first = lines.find(|(_, line)| line.trim_start().starts_with('$'));
        let (place, first) = first.unwrap_or_default();
        Tokens {
            lines,
            line: place + 1,
            words: first.split_whitespace(),
        }
    }

    fn unexpected(&self, what: &str, found: Option<&str>) -> Unclear {
        let (line, expected) = (self.line, unmet(what, found.unwrap_or_default()));
        Unclear::Line { line, expected }
    }

    /// The next word, which must be there.
    fn word(&mut self, what: &str) -> Result<&'a str, Unclear> {
        self.next().ok_or_else(|| self.unexpected(what, None))
    }

    /// The words up to `$end`, which must be there.
    fn up_to_end(&mut self) -> Result<Vec<&'a str>, Unclear> {
        let mut words = Vec::new();
        loop {
            match self.word("$end")? {
                "$end" => return Ok(words),
                word => words.push(word),
            }
        }
    }
}

impl<'a> Iterator for Tokens<'a> {
    type Item = &'a str;

    fn next(&mut self) -> Option<&'a str> {
        loop {
            if let Some(word) = self.words.next() {
                return Some(word);
            }
            let (place, line) = self.lines.next()?;
            (self.line, self.words) = (place + 1, line.split_whitespace());
        }
    }
}

/// A variable of one bit.
struct Variable<'a> {
    path: String,
    code: &'a str,
}

/// What a file declares.
struct Declared<'a> {
    scale: Scale,
    variables: Vec<Variable<'a>>,
}

/// Reads the variables of these names.
pub fn read<'a>(file: &'a str, names: &[&str]) -> Result<Recording<'a>, Unclear> {
    let mut tokens = Tokens::of(file);
    let declared = declared(&mut tokens)?;
    let codes = names.iter().map(|name| code_of(&declared.variables, name));
    let codes: Vec<&str> = codes.collect::<Result<_, _>>()?;
    let mut wires: BTreeMap<&str, Vec<usize>> = BTreeMap::new();
    for (wire, code) in codes.into_iter().enumerate() {
        wires.entry(code).or_default().push(wire);
    }
    let mut dump = Dump {
        scale: declared.scale,
        wires,
        next: vec![Some(false); names.len()],
        time: 0,
        levels: None,
    };
    dump.read(&mut tokens, names)
}

fn declared<'a>(tokens: &mut Tokens<'a>) -> Result<Declared<'a>, Unclear> {
    let mut scope: Vec<&str> = Vec::new();
    let (mut scale, mut variables) = (Scale::UNSAID, Vec::new());
    loop {
        let what = "a keyword, up to $enddefinitions";
        let keyword = tokens.word(what)?;
        if !keyword.starts_with('$') {
            return Err(tokens.unexpected(what, Some(keyword)));
        }
        let words = tokens.up_to_end()?;
        match keyword {
            END_OF_NAMES => return Ok(Declared { scale, variables }),
            "$scope" => scope.push(words.last().copied().unwrap_or_default()),
            "$upscope" => {
                scope.pop();
            }
            "$timescale" => scale = scale_of(&words.concat()),
            "$var" => variables.extend(variable(tokens, &scope, &words)?),
            _ => (),
        }
    }
}

/// `1 ns`, `10us`, `100 ps`.
fn scale_of(text: &str) -> Scale {
    const UNITS: [&str; 6] = ["fs", "ps", "ns", "us", "ms", "s"];
    let known = UNITS.into_iter().find_map(|unit| {
        let factor = text.strip_suffix(unit)?.parse().ok()?;
        Some(Scale { factor, unit })
    });
    known.unwrap_or(Scale::UNSAID)
}

/// `TYPE SIZE CODE NAME`, and behind it perhaps the bit that it is of a word. One of another size is no
/// wire.
fn variable<'a>(
    tokens: &Tokens,
    scope: &[&str],
    words: &[&'a str],
) -> Result<Option<Variable<'a>>, Unclear> {
    let [_, size, code, name @ ..] = words else {
        let found = words.join(" ");
        let found = (!words.is_empty()).then_some(found.as_str());
        return Err(tokens.unexpected("$var TYPE SIZE CODE NAME $end", found));
    };
    let path = [scope, &[name.concat().as_str()]].concat().join(".");
    Ok((*size == "1").then_some(Variable { path, code }))
}

/// The code of the variable that is called so, by its name or by scopes and name. The same variable
/// may be declared in more than one scope.
fn code_of<'a>(variables: &[Variable<'a>], name: &str) -> Result<&'a str, Unclear> {
    let ending = format!(".{name}");
    let is_it = |one: &&Variable| one.path == name || one.path.ends_with(&ending);
    let mut codes: Vec<&str> = variables.iter().filter(is_it).map(|one| one.code).collect();
    codes.sort_unstable();
    codes.dedup();
    match codes[..] {
        [code] => Ok(code),
        _ => Err(Unclear::Wire {
            name: name.to_owned(),
            count: codes.len(),
        }),
    }
}

/// The times and values behind the declarations.
struct Dump<'a, 'n> {
    scale: Scale,
    /// Which wires have the values of a code: one, but where the command line names a wire twice.
    wires: BTreeMap<&'a str, Vec<usize>>,
    /// The levels at this time, as far as they are read.
    next: Vec<Option<bool>>,
    time: u64,
    /// The levels before this time; none at time 0, which is where the wires start.
    levels: Option<Levels<'a, 'n>>,
}

impl<'a, 'n> Dump<'a, 'n> {
    fn read(
        &mut self,
        tokens: &mut Tokens<'a>,
        names: &'n [&'n str],
    ) -> Result<Recording<'a>, Unclear> {
        while let Some(token) = tokens.next() {
            match token.as_bytes()[0] {
                b'#' => self.pass_to(tokens, &token[1..], names)?,
                b'0' | b'1' | b'x' | b'X' | b'z' | b'Z' => {
                    self.take(&token[..1], &token[1..]);
                }
                b'b' | b'B' => {
                    let code = tokens.word("the code of a variable")?;
                    self.take(&token[1..], code);
                }
                b'r' | b'R' | b's' | b'S' => {
                    tokens.word("the code of a variable")?;
                }
                b'$' => pass_over(tokens, token)?,
                _ => return Err(tokens.unexpected("a time or a value", Some(token))),
            }
        }
        self.settle(names)?;
        let levels = self.levels.take();
        Ok(levels.map(Levels::recording).unwrap_or_default())
    }

    /// A value of a wire; values of other variables are no matter.
    fn take(&mut self, value: &str, code: &str) {
        let level = match value.trim_start_matches('0') {
            "" => Some(false),
            "1" => Some(true),
            _ => None,
        };
        for wire in self.wires.get(code).into_iter().flatten() {
            self.next[*wire] = level;
        }
    }

    /// The next time, behind all values of the one before.
    fn pass_to(
        &mut self,
        tokens: &Tokens,
        digits: &str,
        names: &'n [&'n str],
    ) -> Result<(), Unclear> {
        let time: Option<u64> = digits.parse().ok();
        let Some(time) = time.filter(|time| *time >= self.time) else {
            let what = format!("a time of {} or later behind #", self.time);
            return Err(tokens.unexpected(&what, Some(digits)));
        };
        if time > self.time {
            self.settle(names)?;
        }
        self.time = time;
        Ok(())
    }

    /// All values of a time are read.
    fn settle(&mut self, names: &'n [&'n str]) -> Result<(), Unclear> {
        let (count, scale) = (self.time, self.scale);
        match &mut self.levels {
            Some(levels) => levels.become_at(&self.next, Instant::Steps { count, scale }),
            None => {
                self.levels = Some(Levels::starting(names, self.next.clone()));
                Ok(())
            }
        }
    }
}

/// A keyword among the values: what `$dumpvars` and its like have up to `$end` are values too.
fn pass_over(tokens: &mut Tokens, keyword: &str) -> Result<(), Unclear> {
    match keyword {
        "$comment" => tokens.up_to_end().map(drop),
        "$dumpvars" | "$dumpall" | "$dumpon" | "$dumpoff" | "$end" => Ok(()),
        _ => Err(tokens.unexpected("a time or a value", Some(keyword))),
    }
}
