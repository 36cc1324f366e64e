// The operation sheet in both versions: the graph sheet that it stands for (refusals 1 to 4 with 41, 6 to 8, 42, 22), and the program's output.
// It rests on header.rs, on graph.rs for what both sheets share, and on request K4 of document 02.

use crate::graph::{check_budgets, check_edges, graph_length};
use crate::header;

/// The most operation records that a sheet may have.
const MOST_RECORDS: usize = 4096;

/// An operation record.
struct Record {
    operation: u16,
    /// The number of the next record of the chain, counted from 1; 0 for none.
    next: usize,
}

/// Operations 0 to 7 take 1 cycle, 8 to 11 take 2, 12 to 14 take 3, and 15 takes 8.
fn cycles(operation: u16) -> u16 {
    match operation {
        0..=7 => 1,
        8..=11 => 2,
        12..=14 => 3,
        _ => 8,
    }
}

/// The sum of the cycles of each chain, for the first records of blocks 1 to N, or 42.
fn chain_sums(firsts: &[usize], records: &[Record]) -> Result<Vec<u16>, u16> {
    // More than 4,096 records, or an operation above 15, in any record.
    if records.len() > MOST_RECORDS || records.iter().any(|record| record.operation > 15) {
        return Err(42);
    }

    let mut sums = Vec::new();
    let mut met = vec![false; records.len()];
    for (index, first) in firsts.iter().enumerate() {
        // A block other than 1 and 2 with no operation, or one of those two with any.
        let trusted = index < 2;
        let none = *first == 0;
        if trusted != none {
            return Err(42);
        }
        // At most 4,096 records of 8 cycles, so the sum fits a word.
        let mut sum = 0;
        let mut number = *first;
        while number != 0 {
            // A record out of range, or met twice.
            if number > records.len() || met[number - 1] {
                return Err(42);
            }
            met[number - 1] = true;
            sum += cycles(records[number - 1].operation);
            number = records[number - 1].next;
        }
        sums.push(sum);
    }
    // A record missed.
    if met.contains(&false) {
        return Err(42);
    }
    Ok(sums)
}

/// The graph sheet of an operation sheet, or the first refusal in the order 1, 2, 3, 4, 41, 6, 7, 8, 42.
fn converted(words: &[u16]) -> Result<Vec<u16>, u16> {
    // 3 counts the records: a graph sheet's words, their number, and two for each; a row that ends before their number is 3 too.
    let length = graph_length(words)?;
    let number = usize::from(*words.get(length).ok_or(3_u16)?);
    if words.len() != length + 1 + 2 * number {
        return Err(3);
    }
    let (graph, behind) = words.split_at(length);
    check_budgets(graph)?;
    check_edges(graph)?;

    // The first word of a block record is the number of its first operation record; its chain's sum takes that place.
    let (blocks, edges) = header::sizes(graph);
    let blocks_at = length - 2 * blocks - 2 * edges;
    let firsts: Vec<usize> = (0..blocks).map(|index| usize::from(graph[blocks_at + 2 * index])).collect();
    let records: Vec<Record> =
        behind[1..].chunks(2).map(|pair| Record { operation: pair[0], next: usize::from(pair[1]) }).collect();
    let mut sheet = graph.to_vec();
    for (index, sum) in chain_sums(&firsts, &records)?.into_iter().enumerate() {
        sheet[blocks_at + 2 * index] = sum;
    }
    Ok(sheet)
}

/// The converter: 1, 2, 3, 4, 41, 6, 7, 8, 42, 22, else 0. Under 0 the first words of the output row are the graph sheet, and the rest is
/// kept; under a refusal the whole row is kept.
pub fn convert_operations(words: &[u16], output: &mut [u16]) -> u16 {
    match converted(words) {
        Err(answer) => answer,
        Ok(sheet) if output.len() < sheet.len() => 22,
        Ok(sheet) => {
            output[..sheet.len()].copy_from_slice(&sheet);
            0
        }
    }
}

/// What the program writes for the bytes of an operation sheet: the bytes of its graph sheet, or the line `refused` with the number.
pub fn converted_file(bytes: &[u8]) -> Vec<u8> {
    if bytes.len() % 2 == 1 {
        return b"refused 1\n".to_vec();
    }
    // Two bytes for each word, lower byte first.
    let words: Vec<u16> = bytes.chunks(2).map(|pair| u16::from(pair[0]) + 256 * u16::from(pair[1])).collect();
    match converted(&words) {
        Ok(sheet) => sheet.iter().flat_map(|word| word.to_le_bytes()).collect(),
        Err(answer) => format!("refused {answer}\n").into_bytes(),
    }
}
