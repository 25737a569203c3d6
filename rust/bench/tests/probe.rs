//! The calls of the probe as they cross: the worked examples of 002, every answer, and buffers that
//! are left as they were. An independent writer and reader stand elsewhere.

use bench::{raw, Probed};

type Write = fn(&[u16], &mut [u8]) -> Probed;
type Read = fn(&[u8], &mut [u16]) -> Probed;

const SERIAL: (Write, Read) = (raw::write_serial, raw::read_serial);
const FAST: (Write, Read) = (raw::write_fast, raw::read_fast);

/// The transitions of tokens, as digits.
fn written(write: Write, tokens: &[u16]) -> String {
    let mut out = vec![9; 10 * tokens.len()];
    let Probed::Filled(count) = write(tokens, &mut out) else {
        panic!("{tokens:x?} have no form");
    };
    assert!(out[count..].iter().all(|wire| *wire == 9));
    out[..count].iter().map(u8::to_string).collect()
}

fn capture(digits: &str) -> Vec<u8> {
    digits.bytes().map(|digit| digit - b'0').collect()
}

#[test]
fn the_papers_examples() {
    assert_eq!(written(SERIAL.0, &[0x109]), "0000100111");
    assert_eq!(written(SERIAL.0, &[0x1E6]), "1110011010");
    assert_eq!(written(FAST.0, &[0x109]), "0214");
    assert_eq!(written(FAST.0, &[0x109, 0x101]), "021444014332");
    assert_eq!(
        written(FAST.0, &[0x601, 0x625, 0x7C3, 0x1C0, 0x101]),
        "000102114003400044014234"
    );
}

/// Each refusal leaves the buffer as it was, whatever its length.
#[test]
fn refusals_fill_nothing() {
    let refused = [
        (FAST.1, "0014", 4, Probed::Bad(0)),
        (FAST.1, "33334200", 4, Probed::Bad(4)),
        (FAST.1, "0005", 4, Probed::Bad(0)),
        (FAST.1, "444", 4, Probed::Cut),
        (FAST.1, "0214440", 0, Probed::Cut),
        (FAST.1, "02144401", 1, Probed::NoSuch),
        (SERIAL.1, "0000100110", 1, Probed::Bad(0)),
        (SERIAL.1, "00001001110000000100", 2, Probed::Bad(10)),
        (SERIAL.1, "00002", 1, Probed::Cut),
        (SERIAL.1, "0000100111", 0, Probed::NoSuch),
    ];
    for (read, digits, room, answer) in refused {
        let mut out = vec![7; room];
        assert_eq!(read(&capture(digits), &mut out), answer, "{digits}");
        assert!(out.iter().all(|word| *word == 7), "{digits}");
    }
    for (write, words, room, answer) in [
        (FAST.0, [0x109, 0x1FC], 8, Probed::Bad(1)),
        (FAST.0, [0x109, 0x101], 11, Probed::NoSuch),
        (SERIAL.0, [2048, 0x1FC], 20, Probed::Bad(0)),
        (SERIAL.0, [0x109, 0x1FC], 19, Probed::NoSuch),
    ] {
        let mut out = vec![7; room];
        assert_eq!(write(&words, &mut out), answer, "{words:x?}");
        assert!(out.iter().all(|wire| *wire == 7), "{words:x?}");
    }
}

/// Every token that a form can write, behind every other, comes back without its header marks.
#[test]
fn tokens_come_back() {
    for ((write, read), tokens) in [(SERIAL, 512), (FAST, 508)] {
        for first in 0..tokens {
            let list: Vec<u16> = (0..tokens).flat_map(|t| [first, t | 0x600]).collect();
            let digits = written(write, &list);
            let mut back = vec![0; list.len()];
            let answer = read(&capture(&digits), &mut back);
            assert_eq!(answer, Probed::Filled(list.len()));
            assert!(list.iter().zip(&back).all(|(sent, got)| sent % 512 == *got));
        }
    }
}

#[test]
fn nothing_is_nothing() {
    for (write, read) in [SERIAL, FAST] {
        assert_eq!(write(&[], &mut []), Probed::Filled(0));
        assert_eq!(read(&[], &mut [1]), Probed::Filled(0));
    }
}
