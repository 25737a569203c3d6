//! A watcher beside the proved library: streams arrive whole and at the right door, over random
//! runs of every kind; and a watcher that keeps its books wrongly complains.

use compare::books::{self, words, Books, Circuit, Fate, Happening, Note, Port, Sender, Touched};
use compare::calls::Lent;
use compare::soak::{watched, watched_lists, Found};
use compare::watch::{Broken, Figures, Met, Seen, Sentence, Watcher};
use compare::{asking, changing, filling, runs};
use model::calls::Call;
use model::network::Start;
use model::words::parse_call;
use model::Answer;

const SEEDS: u64 = 42;
const CALLS: usize = 2000;

/// What has to be met, and how often at least.
const LEAST: [(Met, usize); 27] = [
    (Met::Refusals, 80_000),
    (Met::BegunAnew, 300),
    (Met::Blank, 150),
    (Met::StartRefused, 1_000),
    (Met::Circuits, 10_000),
    (Met::Local, 3_000),
    (Met::Landed, 2_700),
    (Met::Renumbered, 350),
    (Met::Split, 700),
    (Met::NoRoute, 1_700),
    (Met::TurnedBack, 280),
    (Met::Circles, 1_400),
    (Met::Joined, 100),
    (Met::JoinedLanded, 30),
    (Met::Carried, 45_000),
    (Met::Arrived, 45_000),
    (Met::Credited, 5_000),
    (Met::Greeted, 1_000),
    (Met::Handed, 35_000),
    (Met::Dropped, 17_000),
    (Met::EndedByPause, 2_000),
    (Met::PausesAtDoors, 1_300),
    (Met::Heard, 1_100),
    (Met::Answered, 750),
    (Met::RepliesLanded, 650),
    (Met::NarrowReplies, 50),
    (Met::RepliesSplit, 30),
];

#[test]
fn streams_arrive_whole_and_at_the_right_door() {
    let mut met = Figures::default();
    for seed in 0..SEEDS {
        match watched(seed, CALLS) {
            Ok(figures) => met += figures.watched,
            Err(Found::Watched(broken)) => panic!("seed {seed}: {}", broken.how),
            Err(other) => panic!("seed {seed}: {other:?}"),
        }
    }
    println!("{met}");
    for (what, least) in LEAST {
        assert!(met.of(what) >= least, "{what:?}: {met}");
    }
}

/// What has to be met where lists are made, and how often at least.
const LEAST_IN_LISTS: [(Met, usize); 13] = [
    (Met::Lists, 2_500),
    (Met::Circuits, 700),
    (Met::Landed, 300),
    (Met::Renumbered, 25),
    (Met::Split, 40),
    (Met::NoRoute, 100),
    (Met::Carried, 4_500),
    (Met::Arrived, 4_000),
    (Met::Handed, 2_500),
    (Met::Dropped, 1_000),
    (Met::Heard, 130),
    (Met::Answered, 90),
    (Met::RepliesLanded, 80),
];

/// A list is seen as its Steps, and so demand 3 is held behind each record.
#[test]
fn streams_arrive_whole_where_lists_are_made() {
    let mut met = Figures::default();
    for seed in 0..18 {
        match watched_lists(seed, 600) {
            Ok(figures) => met += figures.watched,
            Err(Found::Watched(broken)) => panic!("seed {seed}: {}", broken.how),
            Err(other) => panic!("seed {seed}: {other:?}"),
        }
    }
    println!("{met}");
    for (what, least) in LEAST_IN_LISTS {
        assert!(met.of(what) >= least, "{what:?}: {met}");
    }
}

/// The calls of a script. What a line states of the answer, and remarks, are left out.
fn calls_of(script: &str) -> Vec<Call> {
    let lines = script
        .lines()
        .map(|line| line.split("->").next().unwrap_or(line).trim());
    let calls = lines.filter(|line| !line.is_empty() && !line.starts_with("//"));
    calls.map(|line| parse_call(line).expect(line)).collect()
}

/// Makes the calls of a script on the library, with a watcher beside it.
fn watch(script: &str) -> (Watcher, Vec<Answer>) {
    watch_calls(&calls_of(script))
}

fn watch_calls(calls: &[Call]) -> (Watcher, Vec<Answer>) {
    let mut watcher = Watcher::default();
    let mut bench = Lent::default();
    let answers = calls
        .iter()
        .map(|call| watcher.watch(&mut bench, call).expect("nothing is broken"));
    let answers = answers.collect();
    (watcher, answers)
}

const TWO_BOARDS: &str = "
    fresh 2 1664 lines 1056
    set 1 number 0 1
    wire 0 0 1 0
    set 0 enable 0 1
    set 1 enable 0 1
    set 0 hello 0 0
    line 0 0
    line 1 0
    set 1 hello 0 0
    line 1 0
    line 0 0
    set 0 direction 2 1
    set 0 linkdirection 0 1
    aim 0 2 channel 5 7 0
    output 0 2 data 11
    output 0 2 data 12
    output 0 2 control 2
    step 0 8
    step 0 8
    step 0 8
    step 0 8
    line 0 0
    line 0 0
    line 0 0
";

/// The header was made for a number that the far board takes before it reads it, and gives up
/// before the tokens come: what counts is the number at the landing.
#[test]
fn a_board_renumbered_before_and_after_a_landing() {
    let rest = "
        set 1 number 0 5
        step 1 0
        set 1 number 0 6
        step 0 8
        line 0 0
        step 1 0
        step 0 8
        step 0 8
        line 0 0
        line 0 0
        step 1 0
        step 1 0
        input 1 7 data
    ";
    let (watcher, answers) = watch(&[TWO_BOARDS, rest].concat());
    assert_eq!(answers.last(), Some(&Answer::Token(11)));
    let [circuit] = watcher.books.circuits.as_slice() else {
        panic!("one circuit: {:?}", watcher.books);
    };
    let door = books::Door::Channel {
        slot: 1,
        channel: 7,
    };
    let landed = Fate::Landed {
        at: Port { slot: 1, port: 0 },
        door: Some(door),
        number: 5,
    };
    let data = |value| words::plain(bench::Kind::Data, value);
    assert_eq!(circuit.fate, landed);
    assert_eq!(circuit.numbers, [0, 1]);
    assert_eq!(circuit.stream.len(), 6);
    assert_eq!(circuit.handed, [data(11), data(12)]);
    assert_eq!(watcher.books.log(door), [(data(11), 0), (data(12), 0)]);
    assert_eq!(watcher.figures.of(Met::Renumbered), 1);
    assert_eq!(watcher.figures.of(Met::PausesAtDoors), 1);
}

/// The same Steps as lists: the books are the same, circuit by circuit.
#[test]
fn a_list_is_written_down_as_its_steps() {
    let rest = "
        set 1 number 0 5
        step 1 0
        step 0 8
        step 0 9
        line 0 0
        step 1 0
        step 0 8
        step 1 0
    ";
    let (single, _) = watch(&[TWO_BOARDS, rest].concat());
    let two = TWO_BOARDS.split("step 0 8").next().unwrap_or_default();
    let lists = "
        steps 4 0 8 0 8 0 8 0 8
        steps 0
        steps 3 0 8
        line 0 0
        line 0 0
        line 0 0
        set 1 number 0 5
        steps 3 1 0 0 8 0 9
        line 0 0
        steps 3 1 0 0 8 1 0
    ";
    let (listed, answers) = watch(&[two, lists].concat());
    let last = answers.last().map(Answer::to_string);
    let moved = "results moved; moved; idle";
    assert_eq!(last.as_deref(), Some(moved));
    let books = |watcher: &Watcher| format!("{:?}", watcher.books);
    assert_eq!(books(&listed), books(&single));
    assert_eq!(listed.figures.of(Met::Lists), 4);
    assert_eq!(listed.figures.of(Met::Refusals), 1);
    assert_eq!(
        listed.figures.of(Met::Handed),
        single.figures.of(Met::Handed)
    );
}

/// The update that stopped halfway: the far board is at one byte and reads a header of three.
#[test]
fn a_header_read_by_a_board_of_the_other_width() {
    let rest = "
        set 1 number 0 5
        set 1 width 0 1
        step 1 0
        step 1 0
    ";
    let (watcher, answers) = watch(&[TWO_BOARDS, rest].concat());
    let split = model::answers::Cause::Split;
    assert!(answers.ends_with(&[Answer::Refused(split), Answer::Dropped(split)]));
    let circuit = &watcher.books.circuits[0];
    assert_eq!(circuit.fate, Fate::Refused(bench::Cause::Split));
    assert!(circuit.misread && circuit.handed.is_empty());
}

/// They are of the time when tokens crossed at once.
#[test]
fn the_examples_are_watched() {
    let folder = concat!(env!("CARGO_MANIFEST_DIR"), "/../../examples/traces");
    let files = std::fs::read_dir(folder).expect("the examples");
    let paths = files.map(|file| file.expect("an example").path());
    let scripts = paths.filter(|path| path.extension().is_some_and(|kind| kind == "txt"));
    let mut met = Figures::default();
    for path in scripts {
        let text = std::fs::read_to_string(&path).expect("a script");
        met += watch_calls(&runs::emptied(calls_of(&text))).0.figures;
    }
    println!("{met}");
    assert!(met.of(Met::Handed) >= 40 && met.of(Met::Split) > 0, "{met}");
}

/// The first sentence that a watcher finds broken on the right library.
fn complaint(note: Note, held: &[Sentence]) -> Option<Broken> {
    let makers = [runs::calls, filling::calls, asking::calls, changing::calls];
    let runs = (0..20).flat_map(|seed| makers.map(|calls| calls(seed, 1500)));
    let mut complaints = runs.filter_map(|calls| {
        let mut watcher = Watcher::with(note, held);
        watcher.run(&mut Lent::default(), &calls).err()
    });
    complaints.next()
}

/// The books as they should be, and then something else.
fn then(
    books: &mut Books,
    seen: &Seen,
    wrong: impl FnOnce(&mut Books, &Touched),
) -> Result<Touched, Broken> {
    let touched = books::note(books, seen)?;
    wrong(books, &touched);
    Ok(touched)
}

/// Counts PAUSE as handed.
fn counts_pause(books: &mut Books, seen: &Seen) -> Result<Touched, Broken> {
    then(books, seen, |books, touched| {
        for happening in &touched.happened {
            if let Happening::Paused { circuit } = happening {
                let pause = books.circuits[*circuit].stream.last().copied();
                books.circuits[*circuit].handed.extend(pause);
            }
        }
    })
}

/// Takes the number that the node had when the circuit was opened.
fn takes_the_number_at_sending(books: &mut Books, seen: &Seen) -> Result<Touched, Broken> {
    then(books, seen, |books, touched| {
        for happening in &touched.happened {
            let Happening::Landed { circuit } = happening else {
                continue;
            };
            let Circuit { fate, numbers, .. } = &mut books.circuits[*circuit];
            if let Fate::Landed { at, number, .. } = fate {
                *number = numbers[at.slot];
            }
        }
    })
}

/// Takes the next opening of a channel-end for more of its last circuit.
fn gives_two_circuits_one_name(books: &mut Books, seen: &Seen) -> Result<Touched, Broken> {
    let mut touched = books::note(books, seen)?;
    let Some(Happening::Opened { circuit }) = touched.happened.first().copied() else {
        return Ok(touched);
    };
    let (opened, Sender::End(end)) = (
        books.circuits[circuit].clone(),
        books.circuits[circuit].sender,
    ) else {
        return Ok(touched);
    };
    let last = books.circuits[..circuit]
        .iter()
        .rposition(|it| it.sender == opened.sender);
    let (Some(last), true) = (last, opened.header > 0) else {
        return Ok(touched);
    };
    let behind = books.circuits[last].stream.len();
    books.circuits[last].stream.extend(opened.stream);
    books.circuits.pop();
    for cell in books
        .cells
        .values_mut()
        .flatten()
        .filter(|cell| cell.circuit == circuit)
    {
        cell.circuit = last;
        cell.position += behind;
    }
    if let Some(open) = books.ends.get_mut(&end).and_then(|book| book.open.as_mut()) {
        open.0 = last;
    }
    touched.circuits.fill(last);
    touched.happened.clear();
    Ok(touched)
}

/// Goes on with the books of another network, where it is begun in one of the two ways.
fn forgets(start: Start, books: &mut Books, seen: &Seen) -> Result<Touched, Broken> {
    if seen.call.start() == Some(start) {
        return Ok(Touched::default());
    }
    books::note(books, seen)
}

fn forgets_fresh(books: &mut Books, seen: &Seen) -> Result<Touched, Broken> {
    forgets(Start::Fresh, books, seen)
}

fn forgets_blank(books: &mut Books, seen: &Seen) -> Result<Touched, Broken> {
    forgets(Start::Blank, books, seen)
}

/// Opens new books at a start of one of the two ways that is refused.
fn heeds_refused(start: Start, books: &mut Books, seen: &Seen) -> Result<Touched, Broken> {
    then(books, seen, |books, _| {
        if seen.call.start() == Some(start) {
            *books = Books::default();
        }
    })
}

fn heeds_a_refused_fresh(books: &mut Books, seen: &Seen) -> Result<Touched, Broken> {
    heeds_refused(Start::Fresh, books, seen)
}

fn heeds_a_refused_blank(books: &mut Books, seen: &Seen) -> Result<Touched, Broken> {
    heeds_refused(Start::Blank, books, seen)
}

/// Does not have a circuit ended by PAUSE.
fn goes_on_behind_pause(books: &mut Books, seen: &Seen) -> Result<Touched, Broken> {
    let before = books.ends.clone();
    then(books, seen, |books, touched| {
        let Some(circuit) = touched.circuits.last() else {
            return;
        };
        let (Call::Output { .. }, true) = (&seen.call, books.is_paused(*circuit)) else {
            return;
        };
        for end in &touched.ends {
            let open = before.get(end).and_then(|book| book.open);
            if let (Some(book), Some(_)) = (books.ends.get_mut(end), open) {
                book.open = open;
            }
        }
    })
}

/// Takes a refused Output for a done one.
fn counts_refused_outputs(books: &mut Books, seen: &Seen) -> Result<Touched, Broken> {
    then(books, seen, |books, touched| {
        let (&Call::Output { value, .. }, Answer::No(_)) = (&seen.call, &seen.answer) else {
            return;
        };
        for end in &touched.ends {
            if let Some(book) = books.ends.get_mut(end) {
                book.put_out.push(words::plain(bench::Kind::Data, value));
            }
        }
    })
}

/// Writes what was handed at another door than the port's circuit leads to.
fn logs_at_another_door(books: &mut Books, seen: &Seen) -> Result<Touched, Broken> {
    then(books, seen, |books, touched| {
        for happening in &touched.happened {
            let Happening::Handed { door, .. } = *happening else {
                continue;
            };
            let entry = books.logs.get_mut(&door).and_then(Vec::pop);
            let unit = books::Door::Unit { slot: door.slot() };
            books.logs.entry(unit).or_default().extend(entry);
        }
    })
}

/// Lets tokens arrive in front of those that the far port holds.
fn puts_in_front(books: &mut Books, seen: &Seen) -> Result<Touched, Broken> {
    then(books, seen, |books, touched| {
        let arrived = |it: &Happening| matches!(it, Happening::Arrived { .. });
        let far = touched
            .ports
            .last()
            .filter(|_| touched.happened.iter().any(arrived));
        if let Some(cells) = far.and_then(|far| books.cells.get_mut(far)) {
            cells.rotate_right(1);
        }
    })
}

/// Puts tokens on to lines in front of those that are there.
fn puts_in_front_on_lines(books: &mut Books, seen: &Seen) -> Result<Touched, Broken> {
    then(books, seen, |books, touched| {
        let carried = |it: &Happening| matches!(it, Happening::Carried { .. });
        let line = touched
            .lines
            .last()
            .filter(|_| touched.happened.iter().any(carried));
        if let Some(cells) = line.and_then(|line| books.lines.get_mut(line)) {
            cells.rotate_right(1);
        }
    })
}

#[test]
fn wrong_watchers_complain() {
    let wrong = [
        (counts_pause as Note, Sentence::Order, Sentence::Pause),
        (takes_the_number_at_sending, Sentence::Door, Sentence::Door),
        (
            gives_two_circuits_one_name,
            Sentence::Outputs,
            Sentence::Outputs,
        ),
        (forgets_fresh, Sentence::Aims, Sentence::Cells),
        (forgets_blank, Sentence::Hearing, Sentence::Cells),
        (heeds_a_refused_fresh, Sentence::Aims, Sentence::Inputs),
        (heeds_a_refused_blank, Sentence::Aims, Sentence::Inputs),
        (goes_on_behind_pause, Sentence::Outputs, Sentence::Outputs),
        (counts_refused_outputs, Sentence::Outputs, Sentence::Outputs),
        (logs_at_another_door, Sentence::Places, Sentence::Inputs),
        (puts_in_front, Sentence::Cells, Sentence::Marks),
        (puts_in_front_on_lines, Sentence::Cells, Sentence::Marks),
    ];
    for (place, (note, first, alone)) in wrong.into_iter().enumerate() {
        let found = complaint(note, &Sentence::ALL).map(|broken| broken.sentence);
        assert_eq!(found, Some(first), "wrong watcher {place}");
        let found = complaint(note, &[alone]).map(|broken| broken.sentence);
        assert_eq!(found, Some(alone), "wrong watcher {place}");
    }
}
