// Costs from operations (request K4): conversions with every word computed by hand, the order of refusals, limits, files, and random sheets.
// It rests on the library's public functions, and on examples/operations.txt.

use reference::random::{self, Random, Size};
use reference::*;
use std::collections::{BTreeMap, BTreeSet};

fn bytes(words: &[u16]) -> Vec<u8> {
    words.iter().flat_map(|word| word.to_le_bytes()).collect()
}

/// Block 3 to itself and to the exit, behind a header, with these first records of the three blocks, and what comes behind the edges.
fn behind(header: &[u16], firsts: [u16; 3], rest: &[u16]) -> Vec<u16> {
    let [start, exit, body] = firsts;
    [header, &[start, 1, exit, 0, body, 2, 3, 0, 3, 3, 2, 0], rest].concat()
}

/// The same with the budget 7, where only block 3 has a chain.
fn looping(first: u16, rest: &[u16]) -> Vec<u16> {
    behind(&[3, 3, 7], [0, 0, first], rest)
}

/// Its graph sheet with this cost of block 3.
fn loop_of_cost(cost: u16) -> Vec<u16> {
    vec![3, 3, 7, 0, 1, 0, 0, cost, 2, 3, 0, 3, 3, 2, 0]
}

/// Blocks 3 and 4, one behind the other, with these first records, and what comes behind the edges.
fn two_blocks(first: u16, second: u16, rest: &[u16]) -> Vec<u16> {
    [&[4, 3, 9, 0, 1, 0, 0, first, 2, second, 3, 3, 0, 4, 0, 2, 0], rest].concat()
}

/// The words of an accepted conversion; what stands behind them in the row is kept.
fn converted(words: &[u16]) -> Vec<u16> {
    let mut output = vec![9; 1300];
    assert_eq!(convert_operations(words, &mut output), 0, "{words:?}");
    let sheet = bytes_to_words(&converted_file(&bytes(words)));
    assert_eq!(output[..sheet.len()], sheet);
    assert!(output[sheet.len()..].iter().all(|word| *word == 9));
    sheet
}

fn bytes_to_words(bytes: &[u8]) -> Vec<u16> {
    bytes.chunks(2).map(|pair| u16::from_le_bytes([pair[0], pair[1]])).collect()
}

/// The answer of a refused conversion, which keeps the row.
fn answer(words: &[u16]) -> u16 {
    let mut output = vec![9; 1300];
    let answer = convert_operations(words, &mut output);
    assert!(answer != 0 && output.iter().all(|word| *word == 9), "{words:?}");
    assert_eq!(converted_file(&bytes(words)), format!("refused {answer}\n").into_bytes());
    answer
}

// Conversions.

#[test]
fn the_cycles_of_each_operation() {
    let costs: Vec<u16> = (0..=15).map(|operation| converted(&looping(1, &[1, operation, 0]))[7]).collect();
    assert_eq!(costs, [1, 1, 1, 1, 1, 1, 1, 1, 2, 2, 2, 2, 3, 3, 3, 8]);
    assert_eq!(answer(&looping(1, &[1, 16, 0])), 42);
    assert_eq!(answer(&looping(1, &[1, 65535, 0])), 42);
}

#[test]
fn a_chain_is_summed() {
    assert_eq!(converted(&looping(1, &[2, 15, 2, 11, 0])), loop_of_cost(10));
    assert_eq!(converted(&looping(2, &[2, 15, 0, 11, 1])), loop_of_cost(10));
    assert_eq!(converted(&looping(3, &[3, 12, 0, 7, 1, 0, 2])), loop_of_cost(5));
    let two = |first, second, cost, other| {
        let sheet = [4, 3, 9, 0, 1, 0, 0, cost, 2, other, 3, 3, 0, 4, 0, 2, 0];
        assert_eq!(converted(&two_blocks(first, second, &[3, 0, 0, 8, 0, 12, 2])), sheet);
    };
    two(1, 3, 1, 5);
    two(3, 1, 5, 1);
}

#[test]
fn both_versions() {
    for header in [vec![3, 3, 0], vec![3, 3, 500], vec![0, 3, 3, 1, 7], vec![0, 3, 3, 4, 0, 1, 2, 500]] {
        let words = behind(&header, [0, 0, 1], &[1, 12, 0]);
        assert_eq!(converted(&words), [&header[..], &[0, 1, 0, 0, 3, 2, 3, 0, 3, 3, 2, 0]].concat());
    }
    // The least sheet has no record.
    assert_eq!(converted(&[2, 1, 0, 0, 1, 0, 0, 2, 0, 0]), [2, 1, 0, 0, 1, 0, 0, 2, 0]);
    assert_eq!(converted(&[0, 2, 1, 1, 0, 0, 1, 0, 0, 2, 0, 0]), [0, 2, 1, 1, 0, 0, 1, 0, 0, 2, 0]);
    assert_eq!(answer(&[2, 1, 0, 0, 1, 0, 0, 2, 0, 1, 0, 0]), 42);
}

#[test]
fn the_row_is_written_as_far_as_the_graph_sheet_goes() {
    let words = looping(1, &[1, 15, 0]);
    for (length, wanted) in [(0, 22), (1, 22), (14, 22), (15, 0), (16, 0), (40, 0)] {
        let mut output = vec![9; length];
        assert_eq!(convert_operations(&words, &mut output), wanted);
        let after = if wanted == 0 { [loop_of_cost(8), vec![9; length - 15]].concat() } else { vec![9; length] };
        assert_eq!(output, after);
    }
    // The header of the second version counts, and 42 comes before 22.
    let second = |operation| behind(&[0, 3, 3, 2, 3, 7], [0, 0, 1], &[1, operation, 0]);
    assert_eq!(convert_operations(&second(15), &mut [9; 17]), 22);
    assert_eq!(convert_operations(&second(15), &mut [9; 18]), 0);
    assert_eq!(convert_operations(&second(16), &mut [9; 17]), 42);
}

// Refusals.

#[test]
fn refusals_in_order() {
    // 1 and 2, in both versions, also with faults that come later.
    assert_eq!((answer(&[]), answer(&[129, 3]), answer(&[0, 129]), answer(&[0])), (1, 1, 1, 1));
    assert_eq!((answer(&[129, 3, 501]), answer(&[1, 3, 7]), answer(&[3, 0, 7]), answer(&[3, 513, 7])), (2, 2, 2, 2));
    assert_eq!((answer(&[0, 129, 3]), answer(&[0, 3, 513]), answer(&[0, 0, 0]), answer(&[0, 1, 1])), (2, 2, 2, 2));
    // 3: a row that ends before its budgets, or before the number of records, whatever is in it; a graph sheet is one.
    assert_eq!((answer(&[0, 3, 3]), answer(&[0, 3, 3, 2, 501]), answer(&[3, 3, 501])), (3, 3, 3));
    for length in 0..18 {
        assert_eq!(answer(&looping(1, &[1, 15, 0])[..length]), if length < 3 { 1 } else { 3 });
    }
    assert_eq!(answer(&paper_example(9)), 3);
    assert_eq!((answer(&looping(1, &[0, 15, 0])), answer(&looping(1, &[2, 15, 0])), answer(&looping(1, &[1, 15, 0, 0]))), (3, 3, 3));
    assert_eq!(answer(&looping(1, &[65535, 15, 0])), 3);
    assert_eq!(answer(&behind(&[3, 3, 501], [0, 0, 1], &[1, 15])), 3);
    // 4 tests each budget, before 41; 41 before 6.
    let with = |header: &[u16]| behind(header, [0, 0, 1], &[1, 15, 0]);
    assert_eq!((answer(&with(&[3, 3, 501])), answer(&with(&[0, 3, 3, 2, 501, 7]))), (4, 4));
    assert_eq!(answer(&with(&[0, 3, 3, 5, 1, 2, 3, 4, 501])), 4);
    assert_eq!((answer(&with(&[0, 3, 3, 0])), answer(&with(&[0, 3, 3, 5, 1, 2, 3, 4, 5]))), (41, 41));
    assert_eq!((answer(&with(&[0, 3, 3, 2, 7, 7])), answer(&with(&[0, 3, 3, 2, 7, 6]))), (41, 41));
    let changed = |words: Vec<u16>, changes: &[(usize, u16)]| {
        let mut words = words;
        for (place, word) in changes {
            words[*place] = *word;
        }
        answer(&words)
    };
    assert_eq!(changed(with(&[3, 3, 501]), &[(9, 1)]), 4);
    assert_eq!(changed(with(&[0, 3, 3, 2, 7, 7]), &[(12, 1)]), 41);
    // 6, 7, 8, each also with the next fault; 5 is left out, so they come where block 1 has a first operation, too.
    let sheet = || looping(1, &[1, 15, 0]);
    for target in [0, 1, 4, 65535] {
        assert_eq!(changed(sheet(), &[(9, target)]), 6);
        assert_eq!(changed(sheet(), &[(9, target), (10, 1), (3, 1)]), 6);
    }
    for next in [1, 2, 4, 65535] {
        assert_eq!(changed(sheet(), &[(10, next)]), 7);
        assert_eq!(changed(sheet(), &[(10, next), (6, 3), (3, 1)]), 7);
    }
    assert_eq!((changed(sheet(), &[(12, 0)]), changed(sheet(), &[(6, 1)])), (7, 7));
    assert_eq!(changed(sheet(), &[(4, 0), (6, 1)]), 8);
    assert_eq!(changed(sheet(), &[(4, 0), (6, 1), (3, 1), (16, 16)]), 8);
    // 42, where only an operation or a chain of them is at fault.
    assert_eq!(changed(sheet(), &[(16, 16)]), 42);
    assert_eq!((changed(sheet(), &[(3, 1)]), changed(sheet(), &[(5, 1)])), (42, 42));
}

#[test]
fn records_are_met_once_each() {
    // Twice: by its own chain, by two blocks, by a block and a record.
    assert_eq!((answer(&looping(1, &[1, 7, 1])), answer(&looping(1, &[2, 7, 2, 7, 1]))), (42, 42));
    assert_eq!((answer(&two_blocks(1, 1, &[2, 7, 2, 7, 0])), answer(&two_blocks(1, 2, &[2, 7, 2, 7, 0]))), (42, 42));
    assert_eq!(answer(&two_blocks(1, 2, &[3, 7, 3, 7, 3, 7, 0])), 42);
    // Missed, also one that would name itself.
    assert_eq!((answer(&looping(1, &[2, 7, 0, 7, 0])), answer(&looping(2, &[2, 7, 0, 7, 0]))), (42, 42));
    assert_eq!(answer(&looping(1, &[2, 7, 0, 7, 2])), 42);
    // Out of range, as first and as next.
    assert_eq!((answer(&looping(2, &[1, 7, 0])), answer(&looping(1, &[1, 7, 2])), answer(&looping(65535, &[1, 7, 0]))), (42, 42, 42));
    // An operation above 15 in a record that is missed.
    assert_eq!(answer(&looping(1, &[2, 7, 0, 16, 0])), 42);
}

#[test]
fn every_block_but_the_first_two_has_an_operation() {
    assert_eq!((answer(&looping(0, &[0])), answer(&looping(0, &[1, 7, 0]))), (42, 42));
    assert_eq!((answer(&two_blocks(1, 0, &[2, 7, 2, 7, 0])), answer(&two_blocks(0, 1, &[2, 7, 2, 7, 0]))), (42, 42));
    assert_eq!(converted(&two_blocks(1, 2, &[2, 7, 0, 7, 0]))[7..11], [1, 2, 1, 3]);
    // Blocks 1 and 2 have none, though every record is met once.
    let rest = [2, 7, 0, 7, 0];
    assert_eq!((answer(&behind(&[3, 3, 7], [2, 0, 1], &rest)), answer(&behind(&[3, 3, 7], [0, 2, 1], &rest))), (42, 42));
}

// Limits.

/// A sheet of so many blocks and 512 edges of the start to the exit, where each block but 1 and 2 has a chain of so many records of
/// operation 15, the records of a chain one behind the other.
fn large(header: &[u16], lengths: &[usize]) -> Vec<u16> {
    let mut words = header.to_vec();
    words.extend([0, 1, 0, 0]);
    let mut records = Vec::new();
    for length in lengths {
        let first = records.len() / 2 + 1;
        words.extend([first as u16, 0]);
        for position in 1..=*length {
            records.extend([15, if position == *length { 0 } else { (first + position) as u16 }]);
        }
    }
    words.extend((1..=512).flat_map(|edge| [2, if edge == 512 { 0 } else { edge + 1 }]));
    words.push((records.len() / 2) as u16);
    words.extend(records);
    words
}

#[test]
fn at_most_4096_records() {
    // In one chain.
    let one = large(&[3, 512, 500], &[4096]);
    assert_eq!(one.len(), 3 + 6 + 1024 + 1 + 8192);
    assert_eq!(converted(&one)[7], 32768);
    assert_eq!(answer(&large(&[3, 512, 500], &[4097])), 42);
    assert_eq!(answer(&large(&[3, 512, 500], &[65535])), 42);
    // In all blocks: the longest graph sheet, of 1,288 words.
    let mut lengths = vec![32; 126];
    lengths[125] += 4096 - 126 * 32;
    let header = [0, 128, 512, 4, 0, 1, 2, 500];
    let sheet = converted(&large(&header, &lengths));
    assert_eq!((sheet.len(), check_graph(&sheet)), (1288, 0));
    assert_eq!((sheet[12], sheet[260], sheet[262]), (256, 256, 8 * 96));
    assert_eq!(convert_operations(&large(&header, &lengths), &mut [9; 1287]), 22);
    lengths[60] += 1;
    assert_eq!(answer(&large(&header, &lengths)), 42);
    // More budgets than there may be, and a fitting length: 4 and 41 come first.
    let mut header = vec![7; 4 + 65535];
    header[..4].copy_from_slice(&[0, 3, 512, 65535]);
    assert_eq!(answer(&large(&header, &[65535])), 41);
    header[65538] = 501;
    assert_eq!(answer(&large(&header, &[65535])), 4);
    assert_eq!(answer(&[large(&header, &[65535]), vec![0]].concat()), 3);
}

// Files, and the text in examples/.

#[test]
fn files() {
    let words = looping(1, &[1, 15, 0]);
    assert_eq!(converted_file(&bytes(&words)), bytes(&loop_of_cost(8)));
    assert_eq!(converted_file(&bytes(&words)[..35]), b"refused 1\n");
    assert_eq!(converted_file(&[bytes(&words), vec![0]].concat()), b"refused 1\n");
    assert_eq!(converted_file(&bytes(&words)[..34]), b"refused 3\n");
    assert_eq!(converted_file(&[]), b"refused 1\n");
    assert_eq!(converted_file(&bytes(&looping(1, &[1, 16, 0]))), b"refused 42\n");
}

#[test]
fn the_example_converts_to_the_paper_example() {
    let text = std::fs::read_to_string(format!("{}/../examples/operations.txt", env!("CARGO_MANIFEST_DIR"))).unwrap();
    let words = text.lines().flat_map(|line| line.split('#').next().unwrap().split_whitespace()).map(|word| word.parse().unwrap());
    let words: Vec<u16> = words.collect();
    assert_eq!(converted(&words), paper_example(9));
    let listed = listing(&converted_file(&bytes(&words)));
    assert_eq!(listed.lines().next(), Some("copies 9 edges 11 budget 9"));
}

// The random material has what it is for, and every conversion is as request K4 says.

/// The words in front of the block records, the blocks and the edges.
fn shape(words: &[u16]) -> (usize, usize, usize) {
    match words[0] {
        0 => (4 + words[3] as usize, words[1] as usize, words[2] as usize),
        _ => (3, words[0] as usize, words[1] as usize),
    }
}

/// The cycles of the records from this one on, one at a time.
fn sum_from(records: &[u16], number: u16) -> usize {
    if number == 0 {
        return 0;
    }
    let record = 2 * number as usize - 2;
    let cycles = [1, 1, 1, 1, 1, 1, 1, 1, 2, 2, 2, 2, 3, 3, 3, 8][records[record] as usize];
    cycles + sum_from(records, records[record + 1])
}

/// The faults of 42 that a sheet has, of those that are seen without following a chain.
fn faults(words: &[u16]) -> [(&'static str, bool); 7] {
    let (blocks_at, blocks, edges) = shape(words);
    let end = blocks_at + 2 * blocks + 2 * edges;
    let (number, records) = (words[end] as usize, &words[end + 1..]);
    let firsts: Vec<u16> = (0..blocks).map(|index| words[blocks_at + 2 * index]).collect();
    let links = firsts.iter().chain(records.iter().skip(1).step_by(2)).filter(|link| **link != 0);
    let named: BTreeSet<usize> = links.clone().map(|link| *link as usize).collect();
    [
        ("too many", number > 4096),
        ("above 15", records.iter().step_by(2).any(|operation| *operation > 15)),
        ("out of range", named.iter().any(|link| *link > number)),
        ("named twice", named.len() < links.count()),
        ("not named", (1..=number).any(|record| !named.contains(&record))),
        ("block 1 or 2", firsts[..2].iter().any(|first| *first != 0)),
        ("block without", firsts[2..].contains(&0)),
    ]
}

#[test]
fn random_operation_sheets() {
    let mut random = Random::new(44);
    let mut counts: BTreeMap<String, usize> = BTreeMap::new();
    let mut count = |name: &str, holds: bool| *counts.entry(name.into()).or_default() += usize::from(holds);
    for round in 0..12000 {
        let size = [Size::Tiny, Size::Small, Size::Any][round % 3];
        assert_eq!(convert_operations(&random::sound_operations(&mut random, size), &mut []), 22);
        let words = random::operation_words(&mut random, size, 40);
        let length = random::graph_row_length(&mut random, &words);
        let before: Vec<u16> = (0..length).map(|_| random.draw() as u16).collect();
        let mut output = before.clone();
        let answer = convert_operations(&words, &mut output);
        count(&answer.to_string(), true);
        assert!(size != Size::Tiny || words.len() <= 60);
        if answer != 0 {
            assert_eq!(output, before);
        }
        match answer {
            0 => {
                let (blocks_at, blocks, edges) = shape(&words);
                let end = blocks_at + 2 * blocks + 2 * edges;
                let costs: Vec<usize> = (0..blocks).map(|index| blocks_at + 2 * index).collect();
                for (place, word) in output.iter().enumerate() {
                    let wanted = match place {
                        _ if costs.contains(&place) => sum_from(&words[end + 1..], words[place]) as u16,
                        _ if place < end => words[place],
                        _ => before[place],
                    };
                    assert_eq!(*word, wanted);
                }
                assert_eq!(check_graph(&output[..end]), 0);
                count("longer row", length > end);
                count("exact row", length == end);
                count("second version", words[0] == 0);
                count("4096 records", words[end] == 4096);
                count("no record", words[end] == 0);
                count("a cost of 32768", costs.iter().any(|place| output[*place] == 32768));
            }
            22 => {
                count("one word short", convert_operations(&words, &mut vec![0; length + 1]) == 0);
                count("more words short", convert_operations(&words, &mut vec![0; length + 1]) == 22);
                count("no word", length == 0);
            }
            42 => {
                // Each also alone; a missed record that names itself has none of them.
                let faults = faults(&words);
                let number = faults.iter().filter(|(_, holds)| *holds).count();
                for (name, holds) in faults {
                    count(&format!("42, {name} alone"), holds && number == 1);
                }
                count("42, none of these", number == 0);
                count("42, several", number > 1);
            }
            _ => {}
        }
    }
    let answers: Vec<u16> = counts.keys().filter_map(|name| name.parse().ok()).collect();
    assert_eq!(answers, [0, 1, 2, 22, 3, 4, 41, 42, 6, 7, 8]);
    assert!(counts.values().all(|times| *times > 20), "{counts:?}");
}

#[test]
fn sheets_of_other_kinds() {
    // A graph sheet ends before the number of records; damaged ones, bounded sheets and any words may be anything.
    let mut random = Random::new(45);
    for _ in 0..3000 {
        assert_eq!(answer(&random::graph_words(&mut random, Size::Small, 100)), 3);
        let damaged = random::graph_words(&mut random, Size::Small, 0);
        let bounded = random::bounded_words(&mut random, Size::Small, 50);
        let any: Vec<u16> = (0..random.below(40)).map(|_| random.below(8) as u16).collect();
        for words in [damaged, bounded, any] {
            let mut output = vec![9; random.below(40)];
            let length = output.len();
            if convert_operations(&words, &mut output) != 0 {
                assert_eq!(output, vec![9; length]);
            }
        }
    }
}
