//! Probers that are wrong on purpose are found: those too that read back well what they write.

use bench::probe::{Form, Refused};
use compare::probe as checks;
use compare::probe::{model_reads, model_writes, Checked, Difference, Prober};

/// What a prober makes of whole answers, before they are put into a buffer.
type Writes = fn(Form, &[u16]) -> Result<Vec<u8>, Refused>;
type Reads = fn(Form, &[u8]) -> Result<Vec<u16>, Refused>;

/// The model, with one of the two changed, or both.
struct Wrong {
    writes: Writes,
    reads: Reads,
}

fn rightly_written(form: Form, words: &[u16]) -> Result<Vec<u8>, Refused> {
    model_writes(form, words, usize::MAX)
}

fn rightly_read(form: Form, transitions: &[u8]) -> Result<Vec<u16>, Refused> {
    model_reads(form, transitions, usize::MAX)
}

fn put<T: Copy>(all: Result<Vec<T>, Refused>, out: &mut [T]) -> Result<usize, Refused> {
    let all = all?;
    let room = out.get_mut(..all.len()).ok_or(Refused::NoSuch)?;
    room.copy_from_slice(&all);
    Ok(all.len())
}

impl Prober for Wrong {
    fn write(&self, form: Form, words: &[u16], out: &mut [u8]) -> Result<usize, Refused> {
        put((self.writes)(form, words), out)
    }

    fn read(&self, form: Form, transitions: &[u8], out: &mut [u16]) -> Result<usize, Refused> {
        put((self.reads)(form, transitions), out)
    }
}

/// A check, and what it is called.
type Check = (&'static str, fn(&dyn Prober) -> Checked);

/// The quick ones first.
const CHECKS: [Check; 8] = [
    ("room", checks::every_room),
    ("byte", checks::every_byte_at_every_place),
    ("damaged", |prober| {
        checks::damaged_captures(prober).map(|_| ())
    }),
    ("any", checks::any_transitions),
    ("list", |prober| checks::long_lists(prober).map(|_| ())),
    ("sequence", checks::every_sequence),
    ("word", checks::every_word_behind_every_state),
    ("pair", checks::every_pair_of_tokens),
];

/// The first difference that the checks find, and which of them did.
fn found(prober: &dyn Prober) -> Option<(&'static str, Difference)> {
    let checked = |(name, check): Check| check(prober).err().map(|found| (name, found));
    CHECKS.into_iter().find_map(checked)
}

#[test]
fn one_that_is_right() {
    let right = Wrong {
        writes: rightly_written,
        reads: rightly_read,
    };
    assert_eq!(found(&right), None);
}

/// Each sequence of a form changed by something that changes it back, too.
fn each(form: Form, of: Form, transitions: &[u8], change: fn(&mut [u8])) -> Vec<u8> {
    let mut changed = transitions.to_vec();
    if form == of {
        let sequences = changed.chunks_exact_mut(form.sequence());
        sequences.for_each(change);
    }
    changed
}

/// Whether a sequence has one escape.
fn is_single(sequence: &[u8]) -> bool {
    sequence.iter().filter(|symbol| **symbol == 4).count() == 1
}

/// The escape first where it was last, and so on; the values stay in order.
fn escape_reversed(sequence: &mut [u8]) {
    if is_single(sequence) {
        let place = sequence.iter().position(|symbol| *symbol == 4);
        let mut values: Vec<u8> = sequence.to_vec();
        values.retain(|symbol| *symbol != 4);
        values.insert(3 - place.unwrap_or(0), 4);
        sequence.copy_from_slice(&values);
    }
}

/// The values of data in the other order.
fn least_first(sequence: &mut [u8]) {
    if !sequence.contains(&4) {
        sequence.reverse();
    }
}

/// CREDIT16 for CREDIT64, and the other way round.
fn credits_exchanged(sequence: &mut [u8]) {
    match sequence {
        [4, 1, 4, 1] => sequence.copy_from_slice(&[4, 3, 4, 3]),
        [4, 3, 4, 3] => sequence.copy_from_slice(&[4, 1, 4, 1]),
        _ => (),
    }
}

fn odd_parity(sequence: &mut [u8]) {
    if let Some(last) = sequence.last_mut().filter(|last| **last <= 1) {
        *last = 1 - *last;
    }
}

/// Writes with each sequence changed, and reads with each changed back: all that is written comes back.
macro_rules! in_both {
    ($form:expr, $change:expr) => {
        Wrong {
            writes: |form, words| {
                rightly_written(form, words).map(|right| each(form, $form, &right, $change))
            },
            reads: |form, transitions| rightly_read(form, &each(form, $form, transitions, $change)),
        }
    };
}

#[test]
fn wrong_in_writing_and_reading_alike() {
    let wrong = [
        ("the escape's place", in_both!(Form::Fast, escape_reversed)),
        ("least significant first", in_both!(Form::Fast, least_first)),
        ("credits exchanged", in_both!(Form::Fast, credits_exchanged)),
        ("odd parity", in_both!(Form::Serial, odd_parity)),
    ];
    for (name, prober) in wrong {
        assert!(found(&prober).is_some(), "{name}");
    }
}

/// What the model writes, with something else for END.
fn with_end(words: &[u16], end: &[u8]) -> Result<Vec<u8>, Refused> {
    let whole = rightly_written(Form::Fast, words)?;
    let mut all = Vec::new();
    for (place, word) in words.iter().enumerate() {
        let before = rightly_written(Form::Fast, &words[..place])?.len();
        let behind = rightly_written(Form::Fast, &words[..=place])?.len();
        all.extend_from_slice(match *word {
            0x101 => end,
            _ => &whole[before..behind],
        });
    }
    Ok(all)
}

/// Each is read back well, and leaves wires high, or is not the smallest.
#[test]
fn other_forms_of_end() {
    let writes: [(&str, Writes); 4] = [
        ("always with NOPD", |form, words| match form {
            Form::Serial => rightly_written(form, words),
            Form::Fast => with_end(words, &[4, 4, 0, 0, 4, 0, 0, 4]),
        }),
        ("always 4400", |form, words| match form {
            Form::Serial => rightly_written(form, words),
            Form::Fast => with_end(words, &[4, 4, 0, 0]),
        }),
        ("without its return", |form, words| {
            let whole = rightly_written(form, words)?;
            let sequences = whole.chunks_exact(form.sequence());
            let kept = sequences.filter(|one| rightly_read(form, one) != Ok(vec![]));
            Ok(kept.flatten().copied().collect())
        }),
        ("the larger of two", |form, words| {
            let whole = rightly_written(form, words)?;
            Ok(each(form, Form::Fast, &whole, |one| {
                if let [4, 4, first, second] = one {
                    std::mem::swap(first, second);
                }
            }))
        }),
    ];
    for (name, writes) in writes {
        let reads = rightly_read;
        assert!(found(&Wrong { writes, reads }).is_some(), "{name}");
    }
}

/// Readers that are wrong about one thing.
#[test]
fn other_readers() {
    let reads: [(&str, Reads); 6] = [
        (
            "what it has before a bad place",
            |form, transitions| match rightly_read(form, transitions) {
                Err(Refused::Bad { place }) => rightly_read(form, &transitions[..place]),
                said => said,
            },
        ),
        ("what it has before the cut", |form, transitions| {
            let whole = transitions.len() / form.sequence() * form.sequence();
            rightly_read(form, &transitions[..whole])
        }),
        ("cut before bad", |form, transitions| {
            match transitions.len() % form.sequence() {
                0 => rightly_read(form, transitions),
                _ => Err(Refused::Cut),
            }
        }),
        ("the place of the sequence's end", |form, transitions| {
            let later = |place| place + form.sequence() - 1;
            rightly_read(form, transitions).map_err(|refused| match refused {
                Refused::Bad { place } => Refused::Bad {
                    place: later(place),
                },
                other => other,
            })
        }),
        ("END by a single escape", |form, transitions| {
            let ended = each(form, Form::Fast, transitions, |one| {
                if one == [0, 0, 1, 4] {
                    one.copy_from_slice(&[4, 4, 0, 0]);
                }
            });
            rightly_read(form, &ended)
        }),
        ("returns as tokens", |form, transitions| {
            let tokens = rightly_read(form, transitions)?;
            let returned = form == Form::Fast && transitions.starts_with(&[4, 3, 3]);
            let first = returned.then_some(0x1FC);
            Ok(first.into_iter().chain(tokens).collect())
        }),
    ];
    for (name, reads) in reads {
        let writes = rightly_written;
        assert!(found(&Wrong { writes, reads }).is_some(), "{name}");
    }
}

/// Fills a buffer that it then says is too short, or fills behind what it says.
struct Filling {
    behind: bool,
}

impl Prober for Filling {
    fn write(&self, form: Form, words: &[u16], out: &mut [u8]) -> Result<usize, Refused> {
        let said = put(rightly_written(form, words), out);
        match said {
            Err(Refused::NoSuch) if !self.behind => out.fill(0),
            Ok(count) if self.behind => out[count..].fill(0),
            _ => (),
        }
        said
    }

    fn read(&self, form: Form, transitions: &[u8], out: &mut [u16]) -> Result<usize, Refused> {
        put(rightly_read(form, transitions), out)
    }
}

/// NoSuch before anything else is looked at.
struct RoomFirst;

impl Prober for RoomFirst {
    fn write(&self, form: Form, words: &[u16], out: &mut [u8]) -> Result<usize, Refused> {
        put(rightly_written(form, words), out)
    }

    fn read(&self, form: Form, transitions: &[u8], out: &mut [u16]) -> Result<usize, Refused> {
        match out.is_empty() && transitions.len() >= form.sequence() {
            true => Err(Refused::NoSuch),
            false => put(rightly_read(form, transitions), out),
        }
    }
}

#[test]
fn what_is_done_with_a_buffer() {
    for behind in [false, true] {
        assert!(found(&Filling { behind }).is_some(), "{behind}");
    }
    assert!(found(&RoomFirst).is_some());
}

/// A header's mark looked at, a word beyond all marks taken, or the place counted from 1.
#[test]
fn other_writers() {
    let writes: [(&str, Writes); 3] = [
        ("marks refused", |form, words| {
            let marked = words.iter().position(|word| *word > 0x1FF);
            match marked {
                Some(place) => Err(Refused::Bad { place }),
                None => rightly_written(form, words),
            }
        }),
        ("words cut short", |form, words| {
            let short: Vec<u16> = words.iter().map(|word| word % 0x800).collect();
            rightly_written(form, &short)
        }),
        ("places from 1", |form, words| {
            rightly_written(form, words).map_err(|refused| match refused {
                Refused::Bad { place } => Refused::Bad { place: place + 1 },
                other => other,
            })
        }),
    ];
    for (name, writes) in writes {
        let reads = rightly_read;
        assert!(found(&Wrong { writes, reads }).is_some(), "{name}");
    }
}
