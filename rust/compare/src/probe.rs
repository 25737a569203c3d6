//! Transitions for the logic probe (document 02, Ask 8): anything that writes and reads them, the proved
//! library first of all, held against the model, which was written from the papers. What is lent is
//! looked at too: a refusal fills nothing, and an answer fills no more than it says.

use std::fmt::{self, Debug};

use bench::probe::{self, Form, Refused};
use model::probe as papers;
use model::random::Random;
use model::tokens::{Kind, Token};

/// Writes token words as transitions into a buffer, and reads transitions as token words into one; each
/// answers how many.
pub trait Prober {
    fn write(&self, form: Form, words: &[u16], out: &mut [u8]) -> Result<usize, Refused>;
    fn read(&self, form: Form, transitions: &[u8], out: &mut [u16]) -> Result<usize, Refused>;
}

/// The proved library.
pub struct Library;

impl Prober for Library {
    fn write(&self, form: Form, words: &[u16], out: &mut [u8]) -> Result<usize, Refused> {
        probe::write_into(form, words, out)
    }

    fn read(&self, form: Form, transitions: &[u8], out: &mut [u16]) -> Result<usize, Refused> {
        probe::read_into(form, transitions, out)
    }
}

/// Something in which a prober and the model differ.
#[derive(Clone, Debug, PartialEq, Eq)]
pub struct Difference(String);

impl fmt::Display for Difference {
    fn fmt(&self, f: &mut fmt::Formatter<'_>) -> fmt::Result {
        f.write_str(&self.0)
    }
}

/// What both say of one question.
type Both<T> = Result<Result<Vec<T>, Refused>, Difference>;

/// Nothing differs.
pub type Checked = Result<(), Difference>;

/// What stands in buffers before.
const UNTOUCHED: u8 = 0xA5;
const UNTOUCHED_WORD: u16 = 0xA5A5;

pub fn in_model(form: Form) -> papers::Form {
    match form {
        Form::Serial => papers::Form::Serial,
        Form::Fast => papers::Form::Fast,
    }
}

fn in_library(refused: papers::Refused) -> Refused {
    match refused {
        papers::Refused::Bad(place) => Refused::Bad { place },
        papers::Refused::Cut => Refused::Cut,
        papers::Refused::NoSuch => Refused::NoSuch,
    }
}

/// The token of a word, its marks left out; none above the marks.
pub fn token(word: u16) -> Option<Token> {
    let kind = match word >> 8 & 1 {
        0 => Kind::Data,
        _ => Kind::Control,
    };
    (word < 0x800).then(|| Token::plain(kind, word as u8))
}

fn word(token: &Token) -> u16 {
    u16::from(token.kind == Kind::Control) << 8 | u16::from(token.value)
}

/// What the model writes. A word that is no token is bad at its place, if nothing before it is.
pub fn model_writes(form: Form, words: &[u16], room: usize) -> Result<Vec<u8>, Refused> {
    let tokens: Vec<Token> = words.iter().map_while(|word| token(*word)).collect();
    let is_whole = tokens.len() == words.len();
    let room = if is_whole { room } else { usize::MAX };
    match papers::write(in_model(form), &tokens, room) {
        Ok(_) if !is_whole => Err(Refused::Bad {
            place: tokens.len(),
        }),
        said => said.map_err(in_library),
    }
}

/// What the model reads.
pub fn model_reads(form: Form, transitions: &[u8], room: usize) -> Result<Vec<u16>, Refused> {
    let tokens = papers::read(in_model(form), transitions, room).map_err(in_library)?;
    Ok(tokens.iter().map(word).collect())
}

/// Holds an answer and its buffer to what the model says.
fn same<T: Copy + PartialEq + Debug>(
    said: Result<usize, Refused>,
    buffer: &[T],
    untouched: T,
    expected: Result<Vec<T>, Refused>,
    question: &dyn Debug,
) -> Both<T> {
    let differs = |how: String| Err(Difference(format!("{question:?}: {how}")));
    let Some((filled, rest)) = buffer.split_at_checked(said.unwrap_or(0)) else {
        return differs(format!("{said:?} of room for {}", buffer.len()));
    };
    if rest.iter().any(|one| *one != untouched) {
        return differs(format!("{said:?}, and more is filled"));
    }
    match said.map(|_| filled.to_vec()) {
        said if said == expected => Ok(said),
        said => differs(format!("{said:?}, the model {expected:?}")),
    }
}

/// Writes on both sides into a buffer of that length.
fn write(prober: &dyn Prober, form: Form, words: &[u16], room: usize) -> Both<u8> {
    let mut buffer = vec![UNTOUCHED; room];
    let said = prober.write(form, words, &mut buffer);
    let expected = model_writes(form, words, room);
    same(said, &buffer, UNTOUCHED, expected, &(form, words, room))
}

/// Reads on both sides into a buffer of that length.
fn read(prober: &dyn Prober, form: Form, transitions: &[u8], room: usize) -> Both<u16> {
    let mut buffer = vec![UNTOUCHED_WORD; room];
    let said = prober.read(form, transitions, &mut buffer);
    let expected = model_reads(form, transitions, room);
    let question = (form, transitions, room);
    same(said, &buffer, UNTOUCHED_WORD, expected, &question)
}

/// A write into room enough, and what was written read back.
fn there_and_back(prober: &dyn Prober, form: Form, words: &[u16]) -> Checked {
    let room = 10 * words.len() + 1;
    if let Ok(transitions) = write(prober, form, words, room)? {
        let back = read(prober, form, &transitions, words.len())?;
        let bare: Vec<u16> = words.iter().map(|word| word % 0x200).collect();
        if back != Ok(bare) {
            return Err(Difference(format!(
                "{form:?} {words:?} comes back {back:?}"
            )));
        }
    }
    Ok(())
}

/// A word that leaves the wires so, for each state that there is.
fn states() -> Vec<u16> {
    let (mut known, mut words) = (Vec::new(), Vec::new());
    for word in 0..0x200 {
        let one = token(word).and_then(|token| papers::Form::Fast.one(papers::Wires::LOW, token));
        let wires = one.map(|one| papers::Wires::LOW.after(&one));
        if wires.is_some() && !known.contains(&wires) {
            known.push(wires);
            words.push(word);
        }
    }
    words
}

/// Every word that has a mark or none, and some that are no token, behind every state of the wires, and
/// END behind it.
pub fn every_word_behind_every_state(prober: &dyn Prober) -> Checked {
    for form in Form::ALL {
        for state in states() {
            for word in (0..0x1000).chain([0x1FFF, 0x8000, 0xFFFF]) {
                there_and_back(prober, form, &[state, word])?;
                there_and_back(prober, form, &[state, word, 0x101])?;
            }
        }
    }
    Ok(())
}

pub fn every_pair_of_tokens(prober: &dyn Prober) -> Checked {
    for form in Form::ALL {
        for pair in 0..0x200 * 0x200_u32 {
            let (first, second) = ((pair >> 9) as u16, (pair & 0x1FF) as u16);
            there_and_back(prober, form, &[first, second])?;
        }
    }
    Ok(())
}

/// Every sequence of symbols, of which the highest is no wire.
fn sequences(form: Form) -> Vec<Vec<u8>> {
    let highest = form.wires() as u8;
    let mut all = vec![Vec::new()];
    for _ in 0..form.sequence() {
        let longer = |before: &Vec<u8>| {
            let before = before.clone();
            (0..=highest).map(move |symbol| [&before[..], &[symbol]].concat())
        };
        all = all.iter().flat_map(longer).collect();
    }
    all
}

/// Every sequence alone, behind one that has a meaning, and before one that has none and a piece.
pub fn every_sequence(prober: &dyn Prober) -> Checked {
    let serial_bad: &[u8] = &[0, 0, 0, 0, 1, 0, 0, 1, 1, 0, 1];
    for (form, good, bad) in [
        (
            Form::Serial,
            &[0, 0, 0, 0, 1, 0, 0, 1, 1, 1][..],
            serial_bad,
        ),
        (Form::Fast, &[0, 2, 1, 4], &[4, 4, 4, 4, 0]),
    ] {
        for sequence in sequences(form) {
            for room in 0..=2 {
                let _ = read(prober, form, &sequence, room)?;
            }
            let _ = read(prober, form, &[good, &sequence].concat(), 2)?;
            let _ = read(prober, form, &[&sequence, bad].concat(), 2)?;
        }
    }
    Ok(())
}

/// Any byte at any place: those that are no wire of any form too.
pub fn every_byte_at_every_place(prober: &dyn Prober) -> Checked {
    for form in Form::ALL {
        let transitions = model_writes(form, &[0x2A, 0x109, 0x101], 100).unwrap_or_default();
        for place in 0..transitions.len() {
            for byte in 0..=u8::MAX {
                let mut other = transitions.clone();
                other[place] = byte;
                let _ = read(prober, form, &other, 3)?;
            }
        }
    }
    Ok(())
}

/// A list of words: mostly what a port or a line holds, with END and PAUSE often; at times something
/// else.
fn words(random: &mut Random, most: usize) -> Vec<u16> {
    let count = random.below(most + 1);
    let one = |random: &mut Random| match random.below(200) {
        0..=39 => 0x101,
        40..=54 => 0x102,
        55..=69 => 0x100 + [0xE0, 0xE1, 0xE4, 0xE6][random.below(4)],
        70..=129 => random.below(0x100) as u16,
        130..=197 => 0x100 + random.below(0xFC) as u16,
        198 => random.below(0x800) as u16,
        _ => random.below(0x1_0000) as u16,
    };
    (0..count).map(|_| one(random)).collect()
}

/// Lists as long as a line holds. Answers how many of them have been written.
pub fn long_lists(prober: &dyn Prober) -> Result<usize, Difference> {
    let mut random = Random::new(20261116);
    let mut written = 0;
    for round in 0..3_000 {
        let form = Form::ALL[round % 2];
        let words = words(&mut random, 66);
        there_and_back(prober, form, &words)?;
        written += usize::from(model_writes(form, &words, usize::MAX).is_ok());
    }
    Ok(written)
}

/// Every room up to more than enough, for what is written and for what is read back.
pub fn every_room(prober: &dyn Prober) -> Checked {
    let mut random = Random::new(24);
    for round in 0..300 {
        let form = Form::ALL[round % 2];
        let words = words(&mut random, 8);
        for room in 0..=10 * words.len() + 2 {
            let _ = write(prober, form, &words, room)?;
        }
        let transitions = model_writes(form, &words, usize::MAX).unwrap_or_default();
        for room in 0..=words.len() + 2 {
            let _ = read(prober, form, &transitions, room)?;
        }
    }
    Ok(())
}

/// Every beginning of a capture, and the capture with one transition changed, more or less at every
/// place. Answers how many were bad, and how many cut.
pub fn damaged_captures(prober: &dyn Prober) -> Result<[usize; 2], Difference> {
    let mut random = Random::new(8);
    let mut refused = [0; 2];
    for round in 0..200 {
        let form = Form::ALL[round % 2];
        let whole = model_writes(form, &words(&mut random, 6), usize::MAX).unwrap_or_default();
        for place in 0..whole.len() {
            let any = [random.below(form.wires() + 1) as u8];
            let (front, back) = whole.split_at(place);
            let others = [
                front.to_vec(),
                [front, &any, &back[1..]].concat(),
                [front, &any, back].concat(),
                [front, &back[1..]].concat(),
            ];
            for other in others {
                let said = read(prober, form, &other, random.below(8))?;
                refused[0] += usize::from(matches!(said, Err(Refused::Bad { .. })));
                refused[1] += usize::from(said == Err(Refused::Cut));
            }
        }
    }
    Ok(refused)
}

/// Transitions that nobody has written.
pub fn any_transitions(prober: &dyn Prober) -> Checked {
    let mut random = Random::new(4);
    for round in 0..20_000 {
        let form = Form::ALL[round % 2];
        // Seldom a symbol that is no wire: else hardly anything has a meaning.
        let symbols = form.wires() + usize::from(random.below(8) == 0);
        let count = random.below(4 * form.sequence());
        let transitions = (0..count).map(|_| random.below(symbols) as u8);
        let transitions: Vec<u8> = transitions.collect();
        let _ = read(prober, form, &transitions, random.below(6))?;
    }
    Ok(())
}
