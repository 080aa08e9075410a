//! Two files of answers held against each other, call by call.

use crate::fields::lines;

const SHOWN: usize = 5;
const WIDEST: usize = 600;

/// A line as it is shown: bytes that are no text are escaped, the rest of a long one is cut.
fn shown(line: Option<&[u8]>) -> String {
    match line {
        None => "(no line)".to_string(),
        Some(line) => {
            let text: String = line.iter().take(WIDEST).map(|&b| b.escape_ascii().to_string()).collect();
            let cut = if line.len() > WIDEST { " .." } else { "" };
            text + cut
        }
    }
}

/// What to print, and how many answers differ.
pub fn differ(calls: &[u8], want: &[u8], got: &[u8]) -> (String, usize, usize) {
    let (mut same, mut differing) = (0, 0);
    let mut text = String::new();
    let (mut want, mut got) = (lines(want), lines(got));
    for call in lines(calls) {
        let (w, g) = (want.next(), got.next());
        if w == g && w.is_some() {
            same += 1;
            continue;
        }
        differing += 1;
        if differing <= SHOWN {
            text += &format!("call {}\nwant {}\ngot  {}\n", shown(Some(call)), shown(w), shown(g));
        }
    }
    let extra = got.count();
    if extra > 0 {
        text += &format!("{extra} answers more than calls\n");
    }
    (text, same, differing + extra)
}
