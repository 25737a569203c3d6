//! Transitions for the logic probe (document 02, Ask 8): the proved library beside the model.
//! `wrong_probes.rs` has the same checks on probers that are wrong on purpose.

use bench::probe::{self, Form, Refused};
use compare::probe as checks;
use compare::probe::{Difference, Library};

/// What a check answers, where nothing differs.
fn same<T>(checked: Result<T, Difference>) -> T {
    checked.unwrap_or_else(|difference| panic!("{difference}"))
}

#[test]
fn every_word_behind_every_state_of_the_wires() {
    same(checks::every_word_behind_every_state(&Library));
}

#[test]
fn every_pair_of_tokens() {
    same(checks::every_pair_of_tokens(&Library));
}

#[test]
fn every_sequence() {
    same(checks::every_sequence(&Library));
}

#[test]
fn every_byte_at_every_place() {
    same(checks::every_byte_at_every_place(&Library));
}

#[test]
fn lists_as_long_as_a_line() {
    let written = same(checks::long_lists(&Library));
    assert!((500..2_900).contains(&written), "{written} of 3000");
}

#[test]
fn buffers_of_every_length() {
    same(checks::every_room(&Library));
}

#[test]
fn damaged_and_cut_captures() {
    let refused = same(checks::damaged_captures(&Library));
    assert!(refused.iter().all(|count| *count > 1_000), "{refused:?}");
}

#[test]
fn any_transitions() {
    same(checks::any_transitions(&Library));
}

/// How many wires a form has, and how many transitions a sequence, is what the library goes by.
#[test]
fn the_sizes_of_a_form() {
    for form in Form::ALL {
        let one = probe::write(form, &[0x109]).expect("control 9");
        assert_eq!(one.len(), form.sequence());
        let wires = one.iter().map(|wire| usize::from(*wire));
        assert_eq!(wires.max(), Some(form.wires() - 1), "control 9 uses it");
        for short in 1..one.len() {
            assert_eq!(probe::read(form, &one[..short]), Err(Refused::Cut));
        }
        let beyond = vec![form.wires() as u8; form.sequence()];
        let bad = Refused::Bad { place: 0 };
        assert_eq!(probe::read(form, &beyond), Err(bad));
    }
}

/// Nothing in, nothing out, with no buffer at all.
#[test]
fn nothing() {
    for form in Form::ALL {
        assert_eq!(probe::write_into(form, &[], &mut []), Ok(0));
        assert_eq!(probe::read_into(form, &[], &mut []), Ok(0));
    }
}
