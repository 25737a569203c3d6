//! The word that was probably meant.

/// Longer words are compared with none: a file that is no script may have words as long as itself.
const MOST_LETTERS: usize = 40;

/// The word that is nearest to what was written, if one is near enough to have been meant: at most
/// every second letter is another.
pub fn nearest<'a>(written: &str, words: impl IntoIterator<Item = &'a str>) -> Option<&'a str> {
    if written.len() > 4 * MOST_LETTERS {
        return None;
    }
    let letters = lower(written);
    let far = |word: &&str| distance(&letters, &lower(word));
    let most = letters.len().div_ceil(2);
    let found = words.into_iter().min_by_key(far)?;
    (letters.len() <= MOST_LETTERS && far(&found) <= most).then_some(found)
}

fn lower(word: &str) -> Vec<char> {
    word.to_lowercase().chars().collect()
}

/// How many letters are another, too many, missing, or changed with their neighbour.
fn distance(one: &[char], other: &[char]) -> usize {
    let mut rows = vec![(0..=other.len()).collect::<Vec<usize>>()];
    for (at, letter) in one.iter().enumerate() {
        let mut row = vec![at + 1];
        for (place, wanted) in other.iter().enumerate() {
            let above = &rows[at];
            let exchanged = above[place] + usize::from(letter != wanted);
            let cost = exchanged.min(above[place + 1] + 1).min(row[place] + 1);
            let is_swap =
                at > 0 && place > 0 && one[at - 1] == *wanted && other[place - 1] == *letter;
            row.push(match is_swap {
                true => cost.min(rows[at - 1][place - 1] + 1),
                false => cost,
            });
        }
        rows.push(row);
    }
    rows[one.len()][other.len()]
}

#[cfg(test)]
mod tests {
    use super::nearest;

    const WORDS: [&str; 6] = ["board", "cable", "settle", "receive", "send", "END"];

    #[test]
    fn a_slip_is_seen() {
        for (written, meant) in [
            ("setle", "settle"),
            ("recieve", "receive"),
            ("Cabel", "cable"),
            ("boards", "board"),
            ("end", "END"),
        ] {
            assert_eq!(nearest(written, WORDS), Some(meant), "{written}");
        }
    }

    #[test]
    fn another_word_is_not_taken_for_one() {
        for written in ["", "7", "quantum", &"x".repeat(100_000)] {
            assert_eq!(nearest(written, WORDS), None, "{written}");
        }
        assert_eq!(nearest("board", []), None);
    }
}
