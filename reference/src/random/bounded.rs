// Random bounded sheets of both versions: of a build, free ones that keep every rule, and damaged ones.
// It rests on the library's build and its check of rule 11.

use super::{budgets, buildable_graph, buildable_second_graph, change_a_word, change_the_length, get, largest, place_but, set, Layout, Random, Size};
use crate::{build, check_bounded, filled_words, LARGEST_AREA, LARGEST_OUTPUT};
use std::collections::BTreeSet;

/// The bounded sheet of a graph sheet with a handler of this cost, if its build is accepted.
pub fn built_words(words: &[u16], handler: u16) -> Option<Vec<u16>> {
    let built = build(words, handler, &vec![0; LARGEST_AREA], &vec![0; LARGEST_OUTPUT]);
    if built.answer != 0 {
        return None;
    }
    Some(built.output[..filled_words(&built.output)].to_vec())
}

/// How many copies and edges a free sheet has, and its largest budget.
fn free_sizes(random: &mut Random, size: Size) -> (usize, usize, usize) {
    let (most_copies, most_edges, most_budget) = match size {
        Size::Tiny => (6, 9, 8),
        Size::Small => (20, 40, 60),
        Size::Any => (60, 150, 500),
    };
    if size == Size::Any && random.chance(4) {
        // At the limits and just past them.
        return (random.pick(&[4095, 4096, 4096, 4097]), random.pick(&[8191, 8192, 8192, 8193]), 500);
    }
    (random.between(2, most_copies), random.between(1, most_edges), random.between(0, most_budget))
}

/// Copies with these lows of block 1, the exit's, and others, rising; so many together if there is room.
fn free_copies(random: &mut Random, starts: &BTreeSet<usize>, copies: usize, budget: usize) -> BTreeSet<(usize, usize)> {
    let mut pairs: BTreeSet<(usize, usize)> = starts.iter().map(|low| (1, *low)).collect();
    pairs.insert((2, 0));
    let most_block = if random.chance(50) && copies < 40 { 7 } else { 128 };
    for _ in 0..20 * copies {
        if pairs.len() < copies {
            pairs.insert((random.between(3, most_block), random.between(0, budget)));
        }
    }
    pairs
}

/// The one rule that a free sheet breaks, all others being kept.
#[derive(Clone, Copy, PartialEq)]
enum Fault {
    None,
    /// The exit has a chain, its edges in their order.
    ExitChain,
    /// A target that is a start copy.
    StartTarget,
    /// A start copy that no entry names; in the first version a second one.
    UnnamedStart,
    /// The largest budget with the entry 0; in the first version no fault.
    LastEntry,
    /// The largest budget above 500.
    Budget,
}

const FAULTS: [Fault; 5] = [Fault::ExitChain, Fault::StartTarget, Fault::UnnamedStart, Fault::LastEntry, Fault::Budget];

/// The records of these copies with so many edges: chains of any length, also empty ones, to any copies behind so many start copies;
/// unreached copies, and loops whose low does not fall.
fn free_records(random: &mut Random, pairs: &BTreeSet<(usize, usize)>, starts: usize, edges: usize, fault: Fault) -> Vec<u16> {
    let copies = pairs.len();
    // How many edges each copy has; place 0 is copy 1, the exit has none.
    let exit = starts + 1;
    let mut chains = vec![0; copies];
    for index in 0..edges {
        let source = if index == 0 && fault == Fault::ExitChain { exit } else { place_but(random, exit, copies) };
        chains[source - 1] += 1;
    }
    let astray = if fault == Fault::StartTarget { random.between(1, edges) } else { 0 };
    let mut words = Vec::new();
    let mut used = 0;
    for ((block, low), length) in pairs.iter().zip(&chains) {
        let first = if *length == 0 { 0 } else { used + 1 };
        words.extend([*block as u16, *low as u16, first as u16]);
        used += length;
    }
    let mut edge = 0;
    for length in &chains {
        for position in 1..=*length {
            edge += 1;
            let target = match edge == astray {
                true => random.between(1, starts),
                false if random.chance(20) => 0,
                false => random.between(exit, copies),
            };
            let next = if position == *length { 0 } else { edge + 1 };
            words.extend([target as u16, next as u16]);
        }
    }
    words
}

/// A bounded sheet of the first version that keeps every rule but this one, and need not come from a build.
fn free_bounded_sheet(random: &mut Random, size: Size, fault: Fault) -> Vec<u16> {
    let (copies, edges, most) = free_sizes(random, size);
    let mut starts = BTreeSet::from([random.between(0, most)]);
    if fault == Fault::UnnamedStart {
        starts.insert(random.between(0, most));
    }
    let copies = copies.max(starts.len() + 1);
    let pairs = free_copies(random, &starts, copies, most);
    let records = free_records(random, &pairs, starts.len(), edges, fault);
    let budget = if fault == Fault::Budget { random.pick(&[501, 502, 65535]) } else { most };
    [vec![pairs.len() as u16, edges as u16, budget as u16], records].concat()
}

/// The same of the second version, with free entries: 0, start copies of their own, shared ones, falling ones.
fn free_second_sheet(random: &mut Random, size: Size, fault: Fault) -> Vec<u16> {
    let (copies, edges, most) = free_sizes(random, size);
    let mut budgets = BTreeSet::from([most]);
    for _ in 0..random.below(4) {
        budgets.insert(random.between(0, most));
    }
    // The low of each budget's start copy, or none.
    let mut lows: Vec<Option<usize>> = Vec::new();
    for budget in &budgets {
        let earlier: Vec<usize> = lows.iter().flatten().copied().collect();
        let own = random.between(0, *budget);
        let fits_nothing = random.chance(25) && *budget != most;
        let shared = random.chance(40) && !earlier.is_empty();
        lows.push(match (fits_nothing, shared) {
            (true, _) => None,
            (_, true) => Some(random.pick(&earlier)),
            _ => Some(own),
        });
    }
    let mut starts: BTreeSet<usize> = lows.iter().flatten().copied().collect();
    match fault {
        Fault::UnnamedStart => {
            starts.insert(random.between(0, most));
        }
        Fault::LastEntry => lows[budgets.len() - 1] = None,
        _ => {}
    }
    let copies = copies.max(starts.len() + 1);
    let pairs = free_copies(random, &starts, copies, most);
    let records = free_records(random, &pairs, starts.len(), edges, fault);
    let number = |low: &usize| 1 + starts.iter().take_while(|start| *start < low).count();
    let mut words = vec![0, pairs.len() as u16, edges as u16, budgets.len() as u16];
    words.extend(budgets.iter().map(|budget| *budget as u16));
    if fault == Fault::Budget {
        set(&mut words, 3 + budgets.len(), random.pick(&[501, 502, 65535]));
    }
    words.extend(lows.iter().map(|low| low.as_ref().map_or(0, number) as u16));
    words.extend(records);
    words
}

/// The number of the first copy of block 2 of a row with so many copies; 2 if there is none.
fn exit_of(words: &[u16], copies_at: usize, copies: usize) -> usize {
    (1..=copies.min(8)).find(|copy| get(words, copies_at + 3 * (copy - 1)) == 2).unwrap_or(2)
}

/// One damage to a bounded sheet that was of this version; it may have been damaged before.
fn damage_bounded(random: &mut Random, words: &mut Vec<u16>, second: bool) {
    let layout = Layout::as_version(words, second);
    let (sizes_at, copies_at) = (layout.sizes_at(), layout.copies_at());
    let (copies, edges) = (get(words, sizes_at), get(words, sizes_at + 1));
    let budget = get(words, layout.budgets_at() + layout.budgets.saturating_sub(1));
    let exit = exit_of(words, copies_at, copies);
    let copy_record = copies_at + 3 * random.below(copies);
    let edge_record = copies_at + 3 * copies + 2 * random.below(edges);
    match random.below(13) {
        0 => change_a_word(random, words, layout),
        1 => {
            change_a_word(random, words, layout);
            change_a_word(random, words, layout);
        }
        2 => change_the_length(random, words),
        3 => {
            match random.below(3) {
                0 => set(words, sizes_at, random.pick(&[0, 1, 2, copies + 1, 4096, 4097, 65535])),
                1 => set(words, sizes_at + 1, random.pick(&[0, 1, edges + 1, 8192, 8193, 65535])),
                _ => {
                    let place = layout.budgets_at() + random.below(layout.budgets);
                    set(words, place, random.pick(&[0, budget + 1, 500, 501, 65535]));
                }
            }
            let needed = copies_at + 3 * get(words, sizes_at) + 2 * get(words, sizes_at + 1);
            if words.len() >= 3 && needed < 400 && random.chance(60) {
                words.resize(needed, 0);
            }
        }
        // A block or a low moved by one or to an edge of its range.
        4 => set(words, copy_record, random.pick(&[0, 1, 2, 127, 128, 129])),
        5 | 6 => {
            let block = get(words, copy_record);
            let value = random.pick(&[block + 1, block.saturating_sub(1)]);
            set(words, copy_record, value);
        }
        7 => {
            let low = get(words, copy_record + 1);
            let value = random.pick(&[0, low + 1, low.saturating_sub(1), budget, budget + 1]);
            set(words, copy_record + 1, value);
        }
        // A chain that begins elsewhere.
        8 => {
            let first = get(words, copy_record + 2);
            let value = random.pick(&[0, first + 1, first.saturating_sub(1), edges + 1]);
            set(words, copy_record + 2, value);
        }
        // The exit with a low or a chain.
        9 => set(words, copies_at + 3 * (exit - 1) + random.between(1, 2), random.between(1, edges.max(1))),
        // Two copy records exchanged, or one twice.
        10 => {
            let other = copies_at + 3 * random.below(copies);
            let twice = random.chance(50);
            for offset in 0..3 {
                let (here, there) = (get(words, copy_record + offset), get(words, other + offset));
                set(words, copy_record + offset, there);
                if !twice {
                    set(words, other + offset, here);
                }
            }
        }
        // A target at or past its limits, or another one.
        11 => {
            let value = random.pick(&[0, 1, 2, exit - 1, exit, copies, copies + 1]);
            set(words, edge_record, value);
        }
        // A next edge: the chain's end moved, or a jump.
        _ => {
            let next = get(words, edge_record + 1);
            let edge = (edge_record.saturating_sub(copies_at + 3 * copies)) / 2 + 1;
            let value = random.pick(&[0, next + 1, edge, edge + 1, edges + 1]);
            set(words, edge_record + 1, value);
        }
    }
}

/// One damage to the header of a bounded sheet of the second version.
fn damage_second_header(random: &mut Random, words: &mut Vec<u16>) {
    let layout = Layout::as_version(words, true);
    let (copies, number) = (get(words, 1), layout.budgets);
    let entries_at = 4 + number;
    let place = random.below(number);
    let exit = exit_of(words, layout.copies_at(), copies);
    match random.below(12) {
        // A row that ends before its records.
        0 => words.truncate(random.between(1, 4 + 2 * number)),
        // Another number of budgets, without the row's length to match.
        1 => set(words, 3, random.pick(&[0, number + 1, number.saturating_sub(1), 4, 5, 65535])),
        // No budget, or five, with the row's length to match.
        2 => {
            words.drain(4..layout.copies_at().min(words.len()));
            set(words, 3, 0);
        }
        3 => {
            for more in number..5 {
                let last = largest(&budgets(words));
                let entry = get(words, 4 + 2 * more - 1);
                words.insert((4 + 2 * more).min(words.len()), entry as u16);
                words.insert((4 + more).min(words.len()), (last + 1).min(65535) as u16);
                set(words, 3, more + 1);
            }
        }
        // Equal budgets, falling ones.
        4 => {
            let place = random.below(number.saturating_sub(1));
            let budget = get(words, 4 + place);
            set(words, 5 + place, random.pick(&[budget, budget, budget.saturating_sub(1)]));
        }
        5 if words.len() > entries_at => words.swap(4 + place, 4 + random.below(number.max(1))),
        // An entry that names the exit, a copy of another block, one beyond C, another start copy, none.
        6 => set(words, entries_at + place, exit),
        7 => set(words, entries_at + place, random.between(exit, copies)),
        8 => set(words, entries_at + place, random.pick(&[copies + 1, copies + 1, 65535])),
        9 | 10 => set(words, entries_at + place, random.between(0, exit - 1)),
        // The last entry 0, or the first word no longer 0.
        _ if random.chance(50) => set(words, (entries_at + number).saturating_sub(1), 0),
        _ => set(words, 0, random.pick(&[1, 2, copies, 65535])),
    }
}

/// A bounded sheet of the first version that keeps every rule (but for rows past the limits in the size `Any`).
pub fn sound_bounded_sheet(random: &mut Random, size: Size) -> Vec<u16> {
    if random.chance(60) {
        let graph = buildable_graph(random, size);
        if let Some(words) = built_words(&graph, 0) {
            return words;
        }
    }
    free_bounded_sheet(random, size, Fault::None)
}

/// The same of the second version.
pub fn sound_second_bounded_sheet(random: &mut Random, size: Size) -> Vec<u16> {
    if random.chance(50) {
        let graph = buildable_second_graph(random, size);
        if let Some(words) = built_words(&graph, 0) {
            return words;
        }
    }
    free_second_sheet(random, size, Fault::None)
}

/// Whether a bounded sheet may stand for this size: a tiny one has budgets of at most 8, or is refused.
fn bounded_suits(size: Size, words: &[u16]) -> bool {
    size != Size::Tiny || largest(&budgets(words)) <= 8 || check_bounded(words) != 0
}

/// A bounded sheet of the first version with one damage or two. Often it is still accepted.
pub fn damaged_bounded_sheet(random: &mut Random, size: Size) -> Vec<u16> {
    for _ in 0..100 {
        let mut words = sound_bounded_sheet(random, size);
        if random.chance(20) {
            let fault = FAULTS[random.below(FAULTS.len())];
            words = free_bounded_sheet(random, size, fault);
        } else {
            damage_bounded(random, &mut words, false);
        }
        if random.chance(15) {
            damage_bounded(random, &mut words, false);
        }
        if bounded_suits(size, &words) {
            return words;
        }
    }
    sound_bounded_sheet(random, size)
}

/// The same of the second version, its header and entries damaged as often as its records.
pub fn damaged_second_bounded_sheet(random: &mut Random, size: Size) -> Vec<u16> {
    for _ in 0..100 {
        let mut words = sound_second_bounded_sheet(random, size);
        match random.below(10) {
            0 | 1 => {
                let fault = FAULTS[random.below(FAULTS.len())];
                words = free_second_sheet(random, size, fault);
            }
            2..=5 => damage_second_header(random, &mut words),
            _ => damage_bounded(random, &mut words, true),
        }
        if random.chance(15) {
            damage_bounded(random, &mut words, true);
        }
        if bounded_suits(size, &words) {
            return words;
        }
    }
    sound_second_bounded_sheet(random, size)
}

/// A bounded sheet of either version that is undamaged in so many cases of a hundred.
pub fn bounded_words(random: &mut Random, size: Size, sound: usize) -> Vec<u16> {
    match (random.chance(50), random.chance(sound)) {
        (false, true) => sound_bounded_sheet(random, size),
        (false, false) => damaged_bounded_sheet(random, size),
        (true, true) => sound_second_bounded_sheet(random, size),
        (true, false) => damaged_second_bounded_sheet(random, size),
    }
}
