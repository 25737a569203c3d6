//! What a host does with what goes wrong: each is an error of the standard library's kind.

use std::error::Error;

use bench::probe::Form;
use bench::{Bench, Looks, Setting};
use script::probe::{self, recorded};
use script::question::Question;
use script::{check, source, Expected, Fault};

/// What a host's own function would answer, with `?` for each step.
fn all_of_it(script: &str) -> Result<usize, Box<dyn Error>> {
    let compared = check(script, |_| Ok(()))?;
    Question::read(&["0", "1", "7"])?;
    let mut bench = Bench::fresh(2)?;
    bench.set(1, Setting::Number(1))?;
    let (state, memory, lines) = bench.into_parts();
    if let Some(clause) = Looks::over(&state, &memory, &lines).failing_clause() {
        Err(clause)?;
    }
    Ok(compared)
}

#[test]
fn each_goes_by_a_question_mark() {
    assert_eq!(all_of_it("fresh 1 832 lines 528\n").ok(), Some(0));
    let error = all_of_it("fresh 1 x\n").expect_err("a bad line");
    assert!(error
        .to_string()
        .starts_with("line 1, column 9: expected a number of memory words"));
    let fault = error.downcast_ref::<Fault>().expect("a fault");
    let bad = fault.source().expect("the line");
    assert_eq!(bad.to_string(), error.to_string());
}

#[test]
fn each_says_what_it_is() {
    let unread = source::read("no-such-file".as_ref()).expect_err("no file");
    let unasked = Question::read(&["x"]).expect_err("no slot");
    let refused = Bench::fresh(17).expect_err("17 boards");
    let fails = Looks::over(&[], &[], &[]).failing_clause();
    let fails = fails.expect("no memory");
    let errors: [&dyn Error; 4] = [&unread, &unasked, &refused, &fails];
    let said = errors.map(|error| error.to_string());
    assert!(said[0].starts_with("No such file"), "{said:?}");
    assert_eq!(said[1], "expected a slot, found x");
    assert_eq!(said[2], "no 2, NoSuch");
    assert!(said[3].starts_with("clause 1: "), "{said:?}");
    let unclear = recorded("a,b\n0,0\n1,1\n", Form::Serial, &["a", "b"]).expect_err("together");
    assert_eq!(unclear.to_string(), "line 3: a and b change at one instant");
    let differs = probe::check::check("fast\nread 0214 = cut\n").expect_err("a token");
    assert!(differs.to_string().starts_with("line 2: "), "{differs}");
    fn is_error<E: Error + Send + Sync + 'static>(_: &E) {}
    is_error(&unclear);
    is_error(&differs);
    is_error::<Expected>(&unasked);
}
