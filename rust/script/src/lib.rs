//! The script and trace format: runs of calls as plain text, made on the proved bench; words for
//! people above it; and the command `bench`.
//!
//! A plain script has one call a line, `CALL`, or with what came of it, `CALL -> ANSWER # DIGEST`. Empty
//! lines and lines that begin with `//` are passed over. Numbers are decimal, or hexadecimal with `0x`.
//! [`FORMS`] lists the calls, [`people::FORMS`] the words for people, which stand for calls ([`expand`]).
//! The command `bench` runs and checks scripts of either kind, tells a run in words ([`tell`]) and makes a
//! page of it ([`page`]), and says what the network is like that a script leaves: in words ([`show`]), by
//! an END that is sent on a copy ([`route`], [`matrix`]), as a picture ([`draw`]) and beside another one
//! ([`diff`]); and what a logic probe would see on its links ([`probe`], [`capture`]). This is what it is
//! made of.
//!
//! ```
//! let mut lines = Vec::new();
//! let script = "// two boards, one cable\nfresh 2 1664 lines 1056\nwire 0 0 1 0\nwire 0 0 1 0\n";
//! script::run(script, |made| Ok(lines.push(made.to_string()))).unwrap();
//! assert_eq!(lines[1], "wire 0 0 1 0 -> done # 16fe018f3b7581bc");
//! assert!(lines[2].starts_with("wire 0 0 1 0 -> no 4 # "));
//! assert_eq!(script::check(&lines.join("\n"), |_| Ok(())).unwrap(), 3);
//!
//! let script = "fresh 2\nboard hub 0\nboard lane 1 number 1\ncable hub.E lane.E\n\
//!               send hub.0 to lane.7: 12 END\nsettle\nreceive lane.7: 12 END\n";
//! assert_eq!(script::check(script, |_| Ok(())).unwrap(), 2);
//! ```

mod answer;
mod boards;
mod call;
pub mod capture;
pub mod diff;
pub mod draw;
pub mod expand;
mod facts;
pub mod help;
mod host;
pub mod matrix;
mod names;
mod nearest;
pub mod page;
mod parse;
pub mod people;
mod play;
pub mod probe;
pub mod question;
mod reader;
mod rounds;
pub mod route;
mod settle;
pub mod show;
pub mod source;
pub mod tell;
mod waits;
mod walk;
mod ways;
mod words;

pub use answer::{Answer, Opening};
pub use boards::Boards;
pub use call::{Call, FORMS};
pub use host::{Host, Made, Outcome};
pub use parse::{parse, BadLine, Line};
pub use play::{check, play, run, Fault, Watch, HEAD};
pub use reader::{read, Entry, Said, Script};
pub use settle::Settled;
pub use words::Expected;
