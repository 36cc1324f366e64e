// Seeded random material: a small generator, what the kinds of material share, and the costs of handlers.
// It rests on splitmix64; the material aims at interesting values by the library's own checks, build and monitor.

mod bounded;
mod graphs;
mod operations;
mod walks;

pub use bounded::{bounded_words, built_words, damaged_bounded_sheet, damaged_second_bounded_sheet, sound_bounded_sheet, sound_second_bounded_sheet};
pub use graphs::{
    buildable_graph, buildable_second_graph, damaged_graph, damaged_second_graph, graph_near_the_limits, graph_words, many_budgets, second_graph,
    second_graph_near_the_limits, valid_graph,
};
pub use operations::{damaged_operations, graph_length, graph_row_length, operation_words, sound_operations};
pub use walks::{bounded_choice, bounded_walk, budget_number, choices, graph_choice, graph_walk, inside_number};

use crate::{check_graph, completion_table, header};

/// A small deterministic generator (splitmix64).
pub struct Random {
    state: u64,
}

impl Random {
    pub fn new(seed: u64) -> Random {
        Random { state: seed }
    }

    /// The next 64 bits.
    pub fn draw(&mut self) -> u64 {
        self.state = self.state.wrapping_add(0x9E37_79B9_7F4A_7C15);
        let mut bits = self.state;
        bits = (bits ^ (bits >> 30)).wrapping_mul(0xBF58_476D_1CE4_E5B9);
        bits = (bits ^ (bits >> 27)).wrapping_mul(0x94D0_49BB_1331_11EB);
        bits ^ (bits >> 31)
    }

    /// A number below `bound`; 0 for the bound 0.
    pub fn below(&mut self, bound: usize) -> usize {
        if bound == 0 {
            return 0;
        }
        (self.draw() % bound as u64) as usize
    }

    /// A number from `low` to `high`, both included; `low` if `high` is smaller.
    pub fn between(&mut self, low: usize, high: usize) -> usize {
        low + self.below((high + 1).saturating_sub(low))
    }

    /// True in so many cases of a hundred.
    pub fn chance(&mut self, percent: usize) -> bool {
        self.below(100) < percent
    }

    /// One of these; 0 if there are none.
    pub fn pick(&mut self, numbers: &[usize]) -> usize {
        let index = self.below(numbers.len());
        numbers.get(index).copied().unwrap_or(0)
    }

    pub fn shuffle<T>(&mut self, row: &mut [T]) {
        for index in (1..row.len()).rev() {
            row.swap(index, self.below(index + 1));
        }
    }
}

/// How large the sheets may be. Tiny: N at most 5, E at most 8, every budget at most 8.
#[derive(Clone, Copy, PartialEq, Eq, Debug)]
pub enum Size {
    Tiny,
    Small,
    Any,
}

/// The words of a sheet read and written without care for its length.
fn get(words: &[u16], index: usize) -> usize {
    words.get(index).copied().map_or(0, usize::from)
}

fn set(words: &mut [u16], index: usize, value: usize) {
    if let Some(word) = words.get_mut(index) {
        *word = value.min(65535) as u16;
    }
}

/// Where the parts of a row stand that is read as a sheet of one version, without care for its length.
#[derive(Clone, Copy)]
struct Layout {
    second: bool,
    /// The number of budgets.
    budgets: usize,
}

impl Layout {
    /// The layout by the row's own version.
    fn of(words: &[u16]) -> Layout {
        Layout::as_version(words, header::is_second(words))
    }

    /// The layout by a given version, whatever the first word says by now.
    fn as_version(words: &[u16], second: bool) -> Layout {
        Layout { second, budgets: if second { get(words, 3) } else { 1 } }
    }

    /// Where N or C stands, with E or F behind it.
    fn sizes_at(&self) -> usize {
        usize::from(self.second)
    }

    fn budgets_at(&self) -> usize {
        if self.second { 4 } else { 2 }
    }

    /// Where the block records of a graph sheet begin.
    fn blocks_at(&self) -> usize {
        if self.second { 4 + self.budgets } else { 3 }
    }

    /// Where the copy records of a bounded sheet begin.
    fn copies_at(&self) -> usize {
        if self.second { 4 + 2 * self.budgets } else { 3 }
    }
}

/// N or C, and E or F, of a row in either version.
fn sizes(words: &[u16]) -> (usize, usize) {
    let at = Layout::of(words).sizes_at();
    (get(words, at), get(words, at + 1))
}

/// The budgets of a row in either version, as far as it has them.
fn budgets(words: &[u16]) -> Vec<usize> {
    let layout = Layout::of(words);
    words.iter().skip(layout.budgets_at()).take(layout.budgets).map(|budget| usize::from(*budget)).collect()
}

/// The largest of these budgets; 0 if there are none.
fn largest(budgets: &[usize]) -> usize {
    budgets.iter().copied().max().unwrap_or(0)
}

/// The budgets of a row in either version, each lowered by the handler's cost; 0 where that is not possible.
fn lowered_budgets(words: &[u16], handler: u16) -> Vec<usize> {
    budgets(words).iter().map(|budget| budget.saturating_sub(usize::from(handler))).collect()
}

/// A value to put in place of `old`: near it, near a number of the header, or anything.
fn odd_value(random: &mut Random, words: &[u16], layout: Layout, old: usize) -> usize {
    let at = layout.sizes_at();
    let (first, second, third) = (get(words, at), get(words, at + 1), get(words, at + 2));
    let small = random.below(10);
    let any = random.below(65536);
    random.pick(&[
        0, 1, 2, 3, first, first + 1, second, second + 1, third, third + 1,
        old + 1, old.saturating_sub(1), small, small, any, 65535,
    ])
}

fn change_a_word(random: &mut Random, words: &mut [u16], layout: Layout) {
    let index = random.below(words.len());
    let value = odd_value(random, words, layout, get(words, index));
    set(words, index, value);
}

fn change_the_length(random: &mut Random, words: &mut Vec<u16>) {
    match random.below(6) {
        // A word dropped.
        0 if !words.is_empty() => {
            let index = random.below(words.len());
            words.remove(index);
        }
        1 => {
            words.pop();
        }
        // A word added.
        2 => {
            let index = random.between(0, words.len());
            words.insert(index, random.below(5) as u16);
        }
        3 => words.push(random.below(5) as u16),
        // A row cut short.
        _ => {
            let length = if random.chance(60) { random.below(4) } else { random.below(words.len()) };
            words.truncate(length);
        }
    }
}

/// A place in 1..=places other than this one, of at least two places.
fn place_but(random: &mut Random, except: usize, places: usize) -> usize {
    let place = random.between(1, places.max(2) - 1);
    if place < except { place } else { place + 1 }
}

/// A length near the needed one: exact, longer, or shorter.
pub fn length_near(random: &mut Random, needed: usize) -> usize {
    match random.below(10) {
        0 => needed.saturating_sub(1),
        1 => random.pick(&[0, 1, needed / 2, needed.saturating_sub(2)]),
        2..=5 => needed,
        6 => needed + 1,
        _ => needed + random.between(1, 5),
    }
}

/// The length that a work area needs for an accepted graph sheet: N * (B + 1), by the largest lowered budget.
pub fn area_needed(words: &[u16], handler: u16) -> usize {
    sizes(words).0 * (largest(&lowered_budgets(words, handler)) + 1)
}

/// A length of the work area near the needed one, or some short length under a refused header. Where the handler costs more than a budget,
/// in half of the cases near the one that the claimed budgets would need.
pub fn area_length(random: &mut Random, words: &[u16], handler: u16) -> usize {
    let too_dear = budgets(words).iter().any(|budget| *budget < usize::from(handler));
    let needed = match check_graph(words) {
        1..=4 | 41 => random.below(40),
        _ if too_dear && random.chance(50) => area_needed(words, 0),
        _ => area_needed(words, handler),
    };
    length_near(random, needed)
}

/// A handler's cost for a graph sheet: 0 in about a third of the cases, most of them where a budget is 0; else small, up to the smallest
/// budget, so that a budget becomes a completion cost of the start, at the smallest budget or next to it, between that and the largest,
/// above every budget, or the largest word.
pub fn handler(random: &mut Random, words: &[u16]) -> u16 {
    let budgets = budgets(words);
    let (smallest, largest) = (budgets.iter().copied().min().unwrap_or(0), largest(&budgets));
    let cost = match random.below(24) {
        0..=3 => 0,
        4..=6 => random.pick(&[1, 1, 2, 3, 4]),
        7..=12 => random.between(smallest.min(1), smallest),
        13..=17 => exact_handler(random, words, &budgets),
        18 => smallest.saturating_sub(1),
        19 => smallest,
        20 => smallest + 1,
        21 => random.between(smallest, largest),
        22 => random.between(largest + 1, largest + 500),
        _ => 65535,
    };
    cost.min(65535) as u16
}

/// A handler's cost up to the smallest budget that leaves of some budget exactly a completion cost of block 1; 0 if there is none.
fn exact_handler(random: &mut Random, words: &[u16], budgets: &[usize]) -> usize {
    let table = completion_table(words, 0);
    let costs: Vec<usize> = (0..=largest(budgets)).filter(|cost| table.get(*cost) == Some(&1)).collect();
    // A refused sheet has no costs; an accepted one has its smallest budget first.
    let left = |budget: &usize| costs.iter().filter_map(|cost| budget.checked_sub(*cost)).collect::<Vec<_>>();
    let exact: Vec<usize> = budgets.iter().flat_map(left).filter(|cost| (1..=budgets[0]).contains(cost)).collect();
    random.pick(&exact)
}
