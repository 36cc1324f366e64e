// The report of a catalogue: figures and margins of each sheet, totals, the greatest fraction of copies to blocks, blocks that no kept path enters.
// It rests on construction.rs for copies and edges, margins.rs, cheapest.rs for the kept paths, and requests K1, K2, K5 and K6 of document 02.

use crate::bounded::{filled_words, Bounded};
use crate::cheapest::{cheapest_completions, cheapest_ways};
use crate::construction::build;
use crate::graph::Graph;
use crate::header;
use crate::listing::{LARGEST_AREA, LARGEST_OUTPUT};
use crate::margins::margins;

const MOST_SHEETS: usize = 200;

/// The sheets of a catalogue, each after its length; none for a last one whose length is beyond the words left.
/// Words after 200 sheets and an odd last byte are ignored.
pub fn catalogue_sheets(bytes: &[u8]) -> Vec<Option<Vec<u16>>> {
    let words: Vec<u16> =
        bytes.chunks_exact(2).map(|pair| u16::from(pair[0]) + 256 * u16::from(pair[1])).collect();
    let mut sheets = Vec::new();
    let mut left = &words[..];
    while sheets.len() < MOST_SHEETS && !left.is_empty() {
        let length = usize::from(left[0]);
        left = &left[1..];
        if length > left.len() {
            sheets.push(None);
            break;
        }
        sheets.push(Some(left[..length].to_vec()));
        left = &left[length..];
    }
    sheets
}

/// What the report says of an accepted sheet.
struct Figures {
    blocks: usize,
    copies: usize,
    edges: usize,
    /// One for each copy, in order.
    margins: Vec<Option<usize>>,
    unused: Vec<usize>,
}

/// The figures of a sheet, or the number of its refusal: 3 for a length beyond the words left, else the build's. The handler's cost is
/// taken as 0.
fn figures(sheet: Option<Vec<u16>>) -> Result<Figures, u16> {
    let words = sheet.ok_or(3_u16)?;
    let built = build(&words, 0, &vec![0; LARGEST_AREA], &vec![0; LARGEST_OUTPUT]);
    if built.answer != 0 {
        return Err(built.answer);
    }
    let graph = Graph::read(&words, 0)?;
    let (copies, edges) = header::sizes(&built.output);
    // No refusal: what a build fills keeps rule 11.
    let sheet = Bounded::read(&built.output[..filled_words(&built.output)])?;
    Ok(Figures { blocks: graph.blocks, copies, edges, margins: margins(&graph, &sheet), unused: blocks_not_entered(&graph) })
}

/// The blocks, rising, that no path from block 1 to block 2 costing at most B enters, where B is the largest budget: what a smaller
/// one keeps, it keeps too. The cheapest path through a block is the cheapest way to it and then its cheapest completion.
fn blocks_not_entered(graph: &Graph) -> Vec<usize> {
    let ways = cheapest_ways(graph);
    let completions = cheapest_completions(graph);
    let entered = |block: usize| match (ways[block], completions[block]) {
        (Some(way), Some(completion)) => way + completion <= graph.largest_budget(),
        _ => false,
    };
    (1..=graph.blocks).filter(|block| !entered(*block)).collect()
}

/// The blocks that no kept path enters; empty for a sheet refused 1 to 8 or 41.
pub fn unused_blocks(words: &[u16]) -> Vec<usize> {
    match Graph::read(words, 0) {
        Ok(graph) => blocks_not_entered(&graph),
        Err(_) => Vec::new(),
    }
}

/// The report. Every line ends with a newline.
pub fn report(bytes: &[u8]) -> String {
    let mut text = String::new();
    // The accepted sheets with their places.
    let mut accepted: Vec<(usize, Figures)> = Vec::new();
    for (index, sheet) in catalogue_sheets(bytes).into_iter().enumerate() {
        let place = index + 1;
        match figures(sheet) {
            Ok(of) => {
                text += &format!("{} {} {} {}", place, of.blocks, of.copies, of.edges);
                for margin in &of.margins {
                    text += &match margin {
                        Some(cycles) => format!(" {cycles}"),
                        None => String::from(" none"),
                    };
                }
                text += "\n";
                accepted.push((place, of));
            }
            Err(number) => text += &format!("{place} refused {number}\n"),
        }
    }

    let blocks: usize = accepted.iter().map(|(_, of)| of.blocks).sum();
    let copies: usize = accepted.iter().map(|(_, of)| of.copies).sum();
    let edges: usize = accepted.iter().map(|(_, of)| of.edges).sum();
    text += &format!("total {blocks} {copies} {edges}\n");

    // C / N is greater than c / n where C n is greater than c N; of equal fractions the earlier stays.
    let mut most: Option<&(usize, Figures)> = None;
    for sheet in &accepted {
        let greater = match most {
            Some((_, best)) => sheet.1.copies * best.blocks > best.copies * sheet.1.blocks,
            None => true,
        };
        if greater {
            most = Some(sheet);
        }
    }
    text += &match most {
        Some((place, of)) => format!("most {} {} {}\n", place, of.copies, of.blocks),
        None => String::from("most none\n"),
    };

    for (place, of) in &accepted {
        for block in &of.unused {
            text += &format!("unused {place} {block}\n");
        }
    }
    text
}
