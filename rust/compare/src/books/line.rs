//! What is written of a line step.

use bench::Token;
use model::Answer;

use super::words::{is_credit, is_hello};
use super::{Books, Happening, Line, Port, Touched};
use crate::watch::{Broken, Glimpse, Seen};

/// A line step, by its answer and by what was first on the line before it. Credits and HELLO are of
/// no circuit; a token goes into the port at the far end of the cable, behind what that holds.
pub(super) fn step(books: &mut Books, seen: &Seen, on: Line) -> Result<Touched, Broken> {
    let mut touched = Touched {
        lines: vec![on],
        ..Touched::default()
    };
    let Glimpse::Line { first, far } = seen.before else {
        return Err(seen.odd("nobody looked before it"));
    };
    match (&seen.answer, first.and_then(Token::from_word)) {
        (Answer::No(_), _) | (Answer::Idle, None) => {}
        (Answer::Arrived(0), Some(token)) if is_credit(token) => {
            touched.happened.push(Happening::Credited);
        }
        (Answer::Arrived(0 | 8 | 16 | 64), Some(token)) if is_hello(token) => {
            touched.happened.push(Happening::Greeted);
        }
        (Answer::Arrived(0 | 8 | 16 | 64), Some(token)) if !is_credit(token) => {
            arrive(books, seen, on, far, &mut touched)?;
        }
        _ => return Err(seen.odd("no line step answers so to what is on the line")),
    }
    Ok(touched)
}

fn arrive(
    books: &mut Books,
    seen: &Seen,
    on: Line,
    far: Option<Port>,
    touched: &mut Touched,
) -> Result<(), Broken> {
    let Some(far) = far else {
        return Err(seen.odd("a token has come off a line that leads nowhere"));
    };
    let first = books.lines.get_mut(&on).and_then(|line| line.pop_front());
    let Some(cell) = first else {
        return Err(seen.odd("the books have no token on this line"));
    };
    books.put(far, cell);
    touched.ports.push(far);
    let circuit = cell.circuit;
    touched.circuit(circuit, Happening::Arrived { circuit });
    Ok(())
}
