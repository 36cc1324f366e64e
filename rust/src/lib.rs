// The public calls of libgilstavo.a for Rust: safe functions on slices, each with its refusal as a number.
// It rests on raw.rs, the same calls with their answers as numbers. What each call promises is in docs/PROMISES.md.
//
// Calls that weigh are given the cost of the exception handler in cycles, `handler`, by which every budget of the graph sheet is lowered; one
// cost is given to the build, the guarded starts and the guarded moves of a routine. B is a lowered budget.

pub mod raw;
mod walk;

pub use walk::{End, Walk};

/// The most budgets that a sheet of the second version has.
pub const MOST_BUDGETS: usize = 4;

/// The most bytes that a work area has to have: N * (B + 1) for N = 128 and a largest budget B = 500.
pub const MOST_AREA: usize = 128 * 501;

/// The most words that a build fills: 4 + 2k + 3C + 2F for k = 4 budgets, C = 4,096 and F = 8,192.
pub const MOST_OUTPUT: usize = 4 + 2 * MOST_BUDGETS + 3 * 4096 + 2 * 8192;

/// The most words that a conversion fills: 4 + k + 2N + 2E for k = 4 budgets, N = 128 and E = 512.
pub const MOST_GRAPH: usize = 4 + MOST_BUDGETS + 2 * 128 + 2 * 512;

/// The number of a refusal, as documents 01 and 02 list it.
#[derive(Clone, Copy, PartialEq, Eq, Debug)]
pub struct Refusal(pub u16);

impl Refusal {
    /// 0 is an accepted call, every other number a refusal.
    pub(crate) fn from_answer(answer: u16) -> Result<(), Refusal> {
        match answer {
            0 => Ok(()),
            number => Err(Refusal(number)),
        }
    }
}

impl std::fmt::Display for Refusal {
    fn fmt(&self, out: &mut std::fmt::Formatter<'_>) -> std::fmt::Result {
        let condition = match self.0 {
            1 => "fewer than 3 words",
            2 => "N or E outside its limit",
            3 => "not exactly 3 + 2N + 2E words, or 4 + k + 2N + 2E with k budgets, and 1 + 2R more with R operation records",
            4 => "a budget above 500",
            5 => "block 1 or 2 with a cost, or another block with cost 0",
            6 => "a target that is 0, 1 or above N",
            7 => "the chains leave the sheet, meet an edge twice or miss an edge",
            8 => "the exit has a chain",
            9 => "no path from start to exit within the budget less the handler's cost",
            10 => "more than 4,096 copies or 8,192 edges",
            11 => "a bounded sheet that breaks a rule",
            21 => "work area shorter than N * (B + 1) bytes",
            22 => "output row shorter than the sheet that would be written",
            31 => "choice 0 or beyond the place's successors",
            32 => "the walk has ended",
            33 => "walk, block, copy or budget number outside the sheet, or walk out of shape",
            41 => "not 1 to 4 budgets, or budgets that do not rise strictly",
            42 => "not at most 4,096 operations from 0 to 15, each in one chain, some for every block but 1 and 2",
            43 => "a handler that costs more than the smallest budget",
            _ => "unknown",
        };
        write!(out, "refused {}: {condition}", self.0)
    }
}

impl std::error::Error for Refusal {}

/// The conditions 1 to 8 with 41 on a graph sheet.
pub fn check_graph(sheet: &[u16]) -> Result<(), Refusal> {
    Refusal::from_answer(raw::check_graph(sheet))
}

/// The number of successors of a block: 1 to 8 with 41, 33.
pub fn count_successors(sheet: &[u16], block: u16) -> Result<u16, Refusal> {
    let mut count = 0;
    Refusal::from_answer(raw::count_successors(sheet, block, &mut count)).map(|()| count)
}

/// Converts an operation sheet into the output row, to the graph sheet of the same version that it stands for: 1, 2, 3, 4, 41, 6, 7, 8, 42,
/// 22. Hands back the words that it filled.
pub fn convert_operations<'a>(sheet: &[u16], output: &'a mut [u16]) -> Result<&'a [u16], Refusal> {
    Refusal::from_answer(raw::convert_operations(sheet, output))?;
    Ok(&output[..graph_words(output)])
}

/// How many words a conversion has filled that was accepted: the header, two words for each block and two for each edge.
fn graph_words(output: &[u16]) -> usize {
    let (header, sizes) = match output[0] {
        0 => (4 + usize::from(output[3]), &output[1..3]),
        _ => (3, &output[..2]),
    };
    header + 2 * usize::from(sizes[0]) + 2 * usize::from(sizes[1])
}

/// Weighs a graph sheet into the work area: 1 to 8 with 41 and 43, 21, 9. From 9 on the area holds the completion table up to B.
pub fn weigh(sheet: &[u16], handler: u16, area: &mut [u8]) -> Result<(), Refusal> {
    Refusal::from_answer(raw::weigh(sheet, handler, area))
}

/// Builds the bounded sheet of a graph sheet into the output row, of the same version, with the lowered budgets: 1 to 8 with 41 and 43, 21, 9,
/// 10, 22. Hands back the words that it filled.
pub fn build<'a>(sheet: &[u16], handler: u16, area: &mut [u8], output: &'a mut [u16]) -> Result<&'a [u16], Refusal> {
    Refusal::from_answer(raw::build(sheet, handler, area, output))?;
    Ok(&output[..filled_words(output)])
}

/// How many words a build has filled that was accepted: the header, three words for each copy and two for each edge.
fn filled_words(output: &[u16]) -> usize {
    let (header, sizes) = match output[0] {
        0 => (4 + 2 * usize::from(output[3]), &output[1..3]),
        _ => (3, &output[..2]),
    };
    header + 3 * usize::from(sizes[0]) + 2 * usize::from(sizes[1])
}

/// Rule 11 on a bounded sheet.
pub fn check_bounded(sheet: &[u16]) -> Result<(), Refusal> {
    Refusal::from_answer(raw::check_bounded(sheet))
}

/// The edge words of one copy, a part of the sheet, empty for the exit: 11, 33.
pub fn edge_words(sheet: &[u16], copy: u16) -> Result<&[u16], Refusal> {
    let (answer, start, size) = raw::edge_words(sheet, copy);
    Refusal::from_answer(answer)?;
    Ok(&sheet[start..start + size])
}
