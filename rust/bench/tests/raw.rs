//! The raw form: slices of any length, buffers of any size, places that are not there.

use bench::raw;

/// A look at a record, at some place of a state.
type Look = fn(&[u32], usize, usize, &mut [u32]) -> bool;

/// Each look with how many words its record has, and how many records of it a node has.
const LOOKS: [(Look, usize, usize); 7] = [
    (|state, slot, _, out| raw::node(state, slot, out), 4, 1),
    (raw::link, 10, 8),
    (raw::port, 8, 13),
    (raw::tile_link, 2, 4),
    (raw::channel_end, 17, 32),
    (
        |state, slot, _, out| raw::control_unit(state, slot, out),
        14,
        1,
    ),
    (raw::line, 3, 8),
];

/// A state whose every word is its own place, from 1 on.
fn counted(nodes: u32) -> Vec<u32> {
    (1..=nodes * raw::state_words() as u32).collect()
}

#[test]
fn a_record_fills_a_buffer_of_its_size_and_no_other() {
    let state = counted(2);
    for (look, words, _) in LOOKS {
        for room in 0..20 {
            let mut out = vec![0; room];
            let fits = look(&state, 1, 0, &mut out);
            assert_eq!(fits, room == words);
            assert_eq!(
                out.contains(&0),
                !fits && room > 0,
                "{words} words, room for {room}"
            );
        }
    }
}

#[test]
fn the_records_of_a_node_are_all_its_words_once() {
    let state = counted(3);
    let mut shown = Vec::new();
    for (look, words, many) in LOOKS {
        for place in 0..many {
            let mut out = vec![0; words];
            assert!(look(&state, 1, place, &mut out));
            shown.extend(out);
        }
    }
    let node = raw::state_words();
    assert_eq!(shown, state[node..2 * node]);
}

#[test]
fn a_place_that_is_not_there_is_all_zeros() {
    let state = counted(2);
    for (look, words, many) in LOOKS {
        for (slot, place) in [(2, 0), (usize::MAX, 0), (0, many), (1, usize::MAX)] {
            if many == 1 && slot < 2 {
                continue;
            }
            let mut out = vec![7; words];
            assert!(look(&state, slot, place, &mut out));
            assert_eq!(out, vec![0; words], "slot {slot}, place {place}");
        }
    }
}

#[test]
fn every_beginning_of_a_state_has_its_answers() {
    let state = counted(1);
    let memory = vec![0xFFFF; raw::memory_words()];
    let lines = vec![0xFFFF; raw::line_words()];
    for begins in 0..40 {
        for ends in (begins..state.len()).step_by(97) {
            let (state, memory) = (&state[begins..ends], &memory[begins..]);
            let lines = &lines[begins..];
            assert_eq!(raw::node_count(state), 0);
            assert_eq!(raw::unsound_clause(state, memory, lines), 1);
            assert!(!raw::is_sound(state, memory, lines));
            assert_eq!(raw::port_token(state, memory, 0, 0, 0), None);
            assert_eq!(raw::line_token(state, lines, 0, 0, 0), None);
            assert_eq!(raw::end_token(state, 0, 0, 0), None);
            assert_eq!(raw::direction(state, 0, 3), 0);
        }
    }
}

#[test]
fn tokens_are_shown_as_far_as_they_are_held() {
    let mut state = vec![0; raw::state_words()];
    let memory: Vec<u16> = (0..raw::memory_words() as u16).collect();
    // Port 2's ring begins at its place 62 and holds three.
    let port = 4 + 8 * 10 + 2 * 8;
    state[port] = 62;
    state[port + 1] = 3;
    let shown = |place| raw::port_token(&state, &memory, 0, 2, place);
    assert_eq!(
        [shown(0), shown(1), shown(2)],
        [Some(190), Some(191), Some(128)]
    );
    assert_eq!([shown(3), shown(64), shown(u32::MAX)], [None; 3]);
    assert_eq!(raw::port_token(&state, &memory[..831], 0, 2, 0), None);
}

#[test]
fn what_is_on_a_line_is_shown_as_far_as_it_is_held() {
    let mut state = vec![0; raw::state_words()];
    let lines: Vec<u16> = (0..raw::line_words() as u16).collect();
    // The ring of the line that starts at link C begins at its place 65 and holds two.
    let line = 4 + 8 * 10 + 13 * 8 + 4 * 2 + 32 * 17 + 14 + 2 * 3;
    state[line] = 65;
    state[line + 1] = 2;
    let shown = |place| raw::line_token(&state, &lines, 0, 2, place);
    assert_eq!([shown(0), shown(1)], [Some(197), Some(132)]);
    assert_eq!([shown(2), shown(66), shown(u32::MAX)], [None; 3]);
    assert_eq!(raw::line_token(&state, &lines[..527], 0, 2, 0), None);
}

#[test]
fn a_word_of_a_channel_end_is_shown_whole() {
    let mut state = vec![0; raw::state_words()];
    let end = 4 + 8 * 10 + 13 * 8 + 4 * 2 + 31 * 17;
    state[end + 4] = u32::MAX;
    state[end + 5 + 7] = u32::MAX;
    let shown = |place| raw::end_token(&state, 0, 31, place);
    assert_eq!(
        [shown(7), shown(8), shown(usize::MAX)],
        [Some(u32::MAX), None, None]
    );
}
