// Random operation sheets of both versions: graph sheets with chains of operations in place of costs, sound and damaged, and rows to write to.
// It rests on graphs.rs for the graph sheets, and on the library's converter to tell what may stand for a tiny sheet.

use super::{
    change_a_word, change_the_length, damaged_graph, damaged_second_graph, get, graph_words, length_near, many_budgets, set, sizes, Layout, Random,
    Size,
};
use crate::{convert_operations, graph_sheet, with_budgets};

/// The most records that a sheet may have.
const MOST_RECORDS: usize = 4096;

/// The words of the graph sheet in front of the records, by the header alone.
pub fn graph_length(words: &[u16]) -> usize {
    let (blocks, edges) = sizes(words);
    Layout::of(words).blocks_at() + 2 * blocks + 2 * edges
}

/// Where the words of the records stand.
struct Places {
    blocks_at: usize,
    /// Where their number stands.
    number_at: usize,
}

impl Places {
    fn of(words: &[u16]) -> Places {
        Places { blocks_at: Layout::of(words).blocks_at(), number_at: graph_length(words) }
    }
    fn first(&self, block: usize) -> usize {
        self.blocks_at + 2 * block - 2
    }
    fn operation(&self, record: usize) -> usize {
        self.number_at + 2 * record - 1
    }
    fn next(&self, record: usize) -> usize {
        self.number_at + 2 * record
    }
}

// Sound records.

/// How many records each block has; place 0 is block 1. One each, a few, or very many together, in one chain or in all.
fn chain_lengths(random: &mut Random, blocks: usize, size: Size) -> Vec<usize> {
    let most = match size {
        Size::Tiny => random.pick(&[1, 2, 3]),
        Size::Small => random.pick(&[1, 2, 8]),
        Size::Any => random.pick(&[1, 4, 32]),
    };
    let mut lengths = vec![0; blocks];
    for length in lengths.iter_mut().skip(2) {
        *length = random.between(1, most);
    }
    if size == Size::Any && random.chance(15) {
        let any = random.between(0, MOST_RECORDS);
        fill_up(random, &mut lengths, any);
    }
    if size == Size::Any && random.chance(10) {
        fill_up(random, &mut lengths, MOST_RECORDS);
    }
    lengths
}

/// More records up to so many together, in one chain or in all; no block but 3 and those behind it gets one.
fn fill_up(random: &mut Random, lengths: &mut [usize], total: usize) {
    if lengths.len() < 3 {
        return;
    }
    let one = random.chance(50);
    let mut place = random.between(2, lengths.len() - 1);
    for _ in lengths.iter().sum()..total {
        if !one {
            place = random.between(2, lengths.len() - 1);
        }
        lengths[place] += 1;
    }
}

/// An operation: any, one at an end of its group, or the dearest.
fn operation(random: &mut Random, style: usize) -> usize {
    match style {
        0 | 1 => random.below(16),
        2 => random.pick(&[0, 7, 8, 11, 12, 14, 15]),
        _ => 15,
    }
}

/// The graph sheet with chains of so many records in place of its costs, the records numbered in order, backwards or shuffled, the
/// operations of one of 4 styles.
fn with_chains(random: &mut Random, graph: &[u16], lengths: &[usize], style: usize) -> Vec<u16> {
    let number: usize = lengths.iter().sum();
    let mut numbers: Vec<usize> = (1..=number).collect();
    match random.below(4) {
        0 => {}
        1 => numbers.reverse(),
        _ => random.shuffle(&mut numbers),
    }
    let at = Places { blocks_at: Layout::of(graph).blocks_at(), number_at: graph.len() };
    let mut words = graph.to_vec();
    words.resize(graph.len() + 1 + 2 * number, 0);
    set(&mut words, at.number_at, number);
    let mut numbers = numbers.into_iter();
    for (index, length) in lengths.iter().enumerate() {
        // The word that must name the next record of this block's chain.
        let mut link = at.first(index + 1);
        for record in numbers.by_ref().take(*length) {
            set(&mut words, link, record);
            set(&mut words, at.operation(record), operation(random, style));
            link = at.next(record);
        }
        set(&mut words, link, 0);
    }
    words
}

/// The graph sheet with sound chains for as many blocks as it says, whatever else it says.
fn with_operations(random: &mut Random, graph: &[u16], size: Size) -> Vec<u16> {
    let lengths = chain_lengths(random, sizes(graph).0.min(129), size);
    let style = random.below(4);
    with_chains(random, graph, &lengths, style)
}

/// A loop of one block that has all records there may be, or one less: a cost of up to 32,768 cycles.
fn one_dear_block(random: &mut Random) -> Vec<u16> {
    let budget = random.between(1, 500) as u16;
    let first = graph_sheet(&[0, 0, 1], &[vec![3], vec![], vec![3, 2]], budget);
    let graph = if random.chance(50) { first } else { with_budgets(&first, &[0, budget]) };
    let length = MOST_RECORDS - random.below(2);
    let style = random.pick(&[2, 3, 3]);
    with_chains(random, &graph, &[0, 0, length], style)
}

/// A sound operation sheet of either version.
pub fn sound_operations(random: &mut Random, size: Size) -> Vec<u16> {
    if size == Size::Any && random.chance(6) {
        return one_dear_block(random);
    }
    let graph = graph_words(random, size, 100);
    with_operations(random, &graph, size)
}

// Damaged sheets.

/// A sheet with one fault of 42 and every chain sound besides: a block with no operation, blocks 1 or 2 with some, too many records.
fn with_wrong_lengths(random: &mut Random, size: Size) -> Vec<u16> {
    let graph = graph_words(random, size, 100);
    let mut lengths = chain_lengths(random, sizes(&graph).0, size);
    match random.below(5) {
        0 if lengths.len() > 2 => {
            let place = random.between(2, lengths.len() - 1);
            lengths[place] = 0;
        }
        // No record at all.
        1 if lengths.len() > 2 => lengths.fill(0),
        2 if size == Size::Any => {
            let any = random.between(MOST_RECORDS + 1, 65535);
            let total = random.pick(&[MOST_RECORDS + 1, MOST_RECORDS + 1, MOST_RECORDS + 1, any, 65535]);
            fill_up(random, &mut lengths, total);
        }
        _ => lengths[random.below(2)] = random.between(1, 3),
    }
    let style = random.below(4);
    with_chains(random, &graph, &lengths, style)
}

/// A graph sheet with a fault of its own, or with more budgets than there may be, and sound chains.
fn with_wrong_graph(random: &mut Random, size: Size) -> Vec<u16> {
    let graph = match random.below(20) {
        0 if size == Size::Any => many_budgets(random, 70000),
        0 => many_budgets(random, 40),
        1..=9 => damaged_graph(random, size),
        _ => damaged_second_graph(random, size),
    };
    with_operations(random, &graph, size)
}

/// One damage to the number of records, to the records, or to what names them; the sheet may have been damaged before.
fn damage_operations(random: &mut Random, words: &mut Vec<u16>) {
    let layout = Layout::of(words);
    let at = Places::of(words);
    let blocks = sizes(words).0.clamp(1, 128);
    let number = get(words, at.number_at);
    let record = random.between(1, number.max(1));
    let other = random.between(1, number.max(1));
    let block = random.between(1, blocks);
    // The word that names some record: a block's first, or a record's next.
    let link = if random.chance(50) { at.first(random.between(3, blocks)) } else { at.next(record) };
    match random.below(16) {
        0 => change_a_word(random, words, layout),
        1 => change_the_length(random, words),
        // A row that ends before the number of records, right behind it, or among the records.
        2 => {
            let among = random.between(at.number_at, words.len());
            let end = random.pick(&[at.number_at.saturating_sub(1), at.number_at, at.number_at, at.number_at + 1, at.number_at + 2, among]);
            words.truncate(end);
        }
        // A word less or more, or a record.
        3 => words.truncate(words.len().saturating_sub(random.between(1, 2))),
        4 => words.resize(words.len() + random.between(1, 2), random.below(3) as u16),
        // Another number of records, without the row's length to match.
        5 => set(words, at.number_at, random.pick(&[0, number + 1, number.saturating_sub(1), MOST_RECORDS, MOST_RECORDS + 1, 65535])),
        // A record more, in no chain.
        6 | 7 => {
            let operation = random.pick(&[0, 15, 15, 16]);
            words.extend([operation as u16, random.pick(&[0, 0, record, number + 1]) as u16]);
            set(words, at.number_at, number + 1);
        }
        // An operation above 15.
        8 | 9 => set(words, at.operation(random.pick(&[record, record, 1, number.max(1)])), random.pick(&[16, 16, 17, 255, 65535])),
        // A record met twice: by its own chain, by another.
        10 => set(words, at.next(record), record),
        11 => set(words, link, other),
        // The records from here on missed.
        12 => set(words, link, 0),
        // Out of range.
        13 => set(words, link, random.pick(&[number + 1, number + 1, MOST_RECORDS, MOST_RECORDS + 1, 65535])),
        // A chain of another block, or none.
        14 => set(words, at.first(block), random.pick(&[0, other])),
        _ => {
            let taken = get(words, at.first(block));
            set(words, at.first(random.between(1, 2)), taken);
            set(words, at.first(block), 0);
        }
    }
}

/// Whether an operation sheet may stand for this size: a tiny one is within the tiny limits, or it is a short row that is refused before
/// its records are read (1 to 4, 41).
fn operations_suit(size: Size, words: &[u16]) -> bool {
    if size != Size::Tiny {
        return true;
    }
    let (blocks, edges) = sizes(words);
    words.len() <= 60 && (blocks <= 5 && edges <= 8 || matches!(convert_operations(words, &mut []), 1..=4 | 41))
}

/// An operation sheet with one damage or more. Now and then it is still accepted.
pub fn damaged_operations(random: &mut Random, size: Size) -> Vec<u16> {
    for _ in 0..100 {
        let mut words = match random.below(10) {
            0..=2 => with_wrong_graph(random, size),
            3 | 4 => with_wrong_lengths(random, size),
            _ => sound_operations(random, size),
        };
        let more = random.chance(15);
        if more || convert_operations(&words, &mut []) == 22 {
            damage_operations(random, &mut words);
        }
        if operations_suit(size, &words) {
            return words;
        }
    }
    sound_operations(random, size)
}

/// An operation sheet of either version that is sound in so many cases of a hundred.
pub fn operation_words(random: &mut Random, size: Size, sound: usize) -> Vec<u16> {
    if random.chance(sound) {
        sound_operations(random, size)
    } else {
        damaged_operations(random, size)
    }
}

/// A length of the output row near that of the graph sheet, or some short length where that is not known (1 to 3).
pub fn graph_row_length(random: &mut Random, words: &[u16]) -> usize {
    let needed = match convert_operations(words, &mut []) {
        1..=3 => random.below(40),
        _ => graph_length(words),
    };
    length_near(random, needed)
}
