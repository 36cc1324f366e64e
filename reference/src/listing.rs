// The listing program's whole output for the bytes of a graph sheet.
// It rests on construction.rs, the section with the worked example of document 01, and requests K2, for the heading, and K6 of document 02.

use crate::bounded::{copies_at, filled_words};
use crate::construction::build;
use crate::header;

/// Enough for any accepted sheet: 128 blocks and budget 500; 4 budgets with their entries, 4,096 copies and 8,192 edges.
pub const LARGEST_AREA: usize = 128 * 501;
pub const LARGEST_OUTPUT: usize = 4 + 2 * 4 + 3 * 4096 + 2 * 8192;

/// The listing, or `refused` and the number. Every line ends with a newline.
pub fn listing(bytes: &[u8]) -> String {
    if bytes.len() % 2 == 1 {
        return String::from("refused 1\n");
    }
    // Two bytes for each word, lower byte first.
    let words: Vec<u16> =
        bytes.chunks(2).map(|pair| u16::from(pair[0]) + 256 * u16::from(pair[1])).collect();
    // The listing takes the handler's cost as 0.
    let built = build(&words, 0, &vec![0; LARGEST_AREA], &vec![0; LARGEST_OUTPUT]);
    if built.answer != 0 {
        return format!("refused {}\n", built.answer);
    }

    // The heading gives all budgets.
    let sheet = &built.output[..filled_words(&built.output)];
    let (copies, edges) = header::sizes(sheet);
    let mut text = format!("copies {copies} edges {edges} budget");
    for budget in header::budgets(sheet).unwrap_or_default() {
        text += &format!(" {budget}");
    }
    text += "\n";

    let records = copies_at(sheet);
    for copy in 1..=copies {
        let record = records + 3 * (copy - 1);
        text += &format!("{} {} {}", copy, sheet[record], sheet[record + 1]);
        let mut edge = usize::from(sheet[record + 2]);
        while edge != 0 {
            let record = records + 3 * copies + 2 * (edge - 1);
            text += &format!(" {}", sheet[record]);
            edge = usize::from(sheet[record + 1]);
        }
        text += "\n";
    }
    text
}
