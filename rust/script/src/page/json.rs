//! Text for a page: as JSON inside it, and as HTML.

use std::fmt::Write as _;

/// A string of JSON that may stand in a page's script element: what would end it there, or begin
/// something else, is written by number.
pub fn string(text: &str) -> String {
    let mut out = String::from("\"");
    for letter in text.chars() {
        match letter {
            '"' => out += "\\\"",
            '\\' => out += "\\\\",
            '<' | '>' | '&' | '\u{2028}' | '\u{2029}' | '\u{7f}' => {
                let _ = write!(out, "\\u{:04x}", letter as u32);
            }
            control if control < ' ' => {
                let _ = write!(out, "\\u{:04x}", control as u32);
            }
            other => out.push(other),
        }
    }
    out.push('"');
    out
}

/// An array of values that are JSON already.
pub fn array(values: impl IntoIterator<Item = String>) -> String {
    let values: Vec<String> = values.into_iter().collect();
    format!("[{}]", values.join(","))
}

/// The same with a line for each value.
pub fn lines(values: Vec<String>) -> String {
    format!("[\n{}\n]", values.join(",\n"))
}

/// An array of strings.
pub fn strings<'a>(texts: impl IntoIterator<Item = &'a str>) -> String {
    array(texts.into_iter().map(string))
}

/// A text as HTML has it.
pub fn escaped(text: &str) -> String {
    let mut out = String::new();
    for letter in text.chars() {
        match letter {
            '<' => out += "&lt;",
            '>' => out += "&gt;",
            '&' => out += "&amp;",
            '"' => out += "&quot;",
            control if control.is_control() => out += "\u{fffd}",
            other => out.push(other),
        }
    }
    out
}

#[cfg(test)]
mod tests {
    use super::{escaped, string};

    #[test]
    fn nothing_ends_the_element() {
        assert_eq!(
            string("</script>\n\"\\"),
            "\"\\u003c/script\\u003e\\u000a\\\"\\\\\""
        );
        assert_eq!(escaped("<b>&\"\u{1b}"), "&lt;b&gt;&amp;&quot;\u{fffd}");
    }
}
