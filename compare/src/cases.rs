// One random case of each call, on sheets of both versions, given to the library and to the reference; a difference is told as text.
// It rests on the wrapper's raw calls, and on the reference's random material and answers.

use gilstavo::raw;
use reference::random::{self, area_length, area_needed, bounded_words, graph_words, length_near, operation_words, Random, Size};
use reference::{copies_at, filled_words, End, Monitor, Walk};

/// What is counted beside the differences.
#[derive(Default)]
pub struct Tally {
    pub calls: usize,
    pub built: usize,
    /// How many of those are of the second version.
    pub built_second: usize,
    pub moves: usize,
    /// How many operation sheets were converted.
    pub converted: usize,
    pub differences: Vec<String>,
    /// How often each number was answered, by the library.
    pub answers: Vec<usize>,
}

impl Tally {
    pub fn new() -> Tally {
        Tally { answers: vec![0; 44], ..Tally::default() }
    }

    /// Notes one call: its answer, and whether everything agrees.
    fn call<T: PartialEq + std::fmt::Debug>(&mut self, name: &str, sheet: &[u16], answer: u16, got: T, wanted: T) {
        self.calls += 1;
        match self.answers.get_mut(usize::from(answer)) {
            Some(count) => *count += 1,
            None => self.differences.push(format!("{name}: unlisted answer {answer} on {}", shown_words(sheet))),
        }
        if got != wanted {
            self.differences.push(format!("{name} on {}: {got:?}, the reference says {wanted:?}", shown_words(sheet)));
        }
    }
}

/// A call's name with the handler's cost, where it has any.
fn with(name: &str, handler: u16) -> String {
    match handler {
        0 => name.into(),
        cost => format!("{name} with a handler of {cost}"),
    }
}

/// The words of a sheet, the first of them where there are very many.
fn shown_words(sheet: &[u16]) -> String {
    match sheet.len() {
        0..=2000 => format!("{sheet:?}"),
        length => format!("{:?} .. ({length} words)", &sheet[..40]),
    }
}

/// Bytes that a buffer may hold before a call.
fn junk_bytes(random: &mut Random, length: usize) -> Vec<u8> {
    (0..length).map(|_| random.draw() as u8).collect()
}

fn junk_words(random: &mut Random, length: usize) -> Vec<u16> {
    (0..length).map(|_| random.draw() as u16).collect()
}

/// Any words at all, behind a first word that makes them of the second version in half of the cases.
fn any_words(random: &mut Random) -> Vec<u16> {
    let length = random.below(40);
    let mut words = junk_words(random, length);
    if random.chance(50) {
        words.insert(0, 0);
    }
    words
}

/// A graph sheet of either version: valid, damaged, at the limits, with very many budgets, or any words at all.
pub fn graph(random: &mut Random) -> Vec<u16> {
    match random.below(100) {
        0 if random.chance(50) => random::graph_near_the_limits(random),
        0 => random::second_graph_near_the_limits(random),
        1 if random.chance(90) => any_words(random),
        1 => random::many_budgets(random, 70000),
        2..=11 => graph_words(random, Size::Any, 70),
        12..=70 => graph_words(random, Size::Small, 70),
        _ => graph_words(random, Size::Tiny, 60),
    }
}

/// A walk of the reference as four words; what does not fit a word is cut to the largest.
fn words_of(walk: Walk) -> [u16; 4] {
    let end = match walk.end {
        End::Going => 0,
        End::Exit => 1,
        End::Diverted => 2,
    };
    [walk.place.min(65535) as u16, walk.count.min(65535) as u16, end, walk.budget.min(65535) as u16]
}

/// The walk that four words stand for, with an end of 0, 1 or 2.
fn walk_of(row: [u16; 4]) -> Walk {
    let end = match row[2] {
        0 => End::Going,
        1 => End::Exit,
        _ => End::Diverted,
    };
    Walk { place: u32::from(row[0]), count: u32::from(row[1]), end, budget: u32::from(row[3]) }
}

/// Any four words, as a walk that is lent to a start may hold.
fn junk_walk(random: &mut Random) -> [u16; 4] {
    [random.draw() as u16, random.draw() as u16, random.below(5) as u16, random.below(7) as u16]
}

/// N or C as the sheet's version has it; 2 for a row without it.
fn places(sheet: &[u16]) -> usize {
    let at = usize::from(sheet.first() == Some(&0));
    sheet.get(at).map_or(2, |places| usize::from(*places))
}

/// The budget with this number as a graph sheet or a bounded sheet has it; 0 for none.
fn budget_in(sheet: &[u16], number: u32) -> u32 {
    let budgets_at = if sheet[0] == 0 { 3 } else { 1 };
    sheet.get(budgets_at + number as usize).map_or(0, |budget| u32::from(*budget))
}

/// The cost of a block as a graph sheet has it; 0 for none.
fn cost_in(sheet: &[u16], block: u32) -> u32 {
    let blocks_at = if sheet[0] == 0 { 4 + usize::from(sheet[3]) } else { 3 };
    let record = (blocks_at + 2 * block as usize).checked_sub(2);
    record.and_then(|record| sheet.get(record)).map_or(0, |cost| u32::from(*cost))
}

/// The check and a count of one graph sheet.
pub fn sheet_case(random: &mut Random, tally: &mut Tally, sheet: &[u16]) {
    let answer = raw::check_graph(sheet);
    tally.call("check_graph", sheet, answer, answer, reference::check_graph(sheet));

    let blocks = places(sheet);
    let block = random.pick(&[0, 1, 2, 3, blocks, blocks + 1, 65535]).min(65535) as u16;
    let junk = random.draw() as u16;
    let mut count = junk;
    let answer = raw::count_successors(sheet, block, &mut count);
    let (wanted, number) = reference::successor_count(sheet, block);
    tally.call("count_successors", sheet, answer, (answer, count), (wanted, if wanted == 0 { number } else { junk }));
}

/// A weighing and a build of one graph sheet with a handler of this cost. Hands back the words of a build that was accepted.
pub fn build_case(random: &mut Random, tally: &mut Tally, sheet: &[u16], handler: u16) -> Option<Vec<u16>> {
    // Buffers too short, exact and too long, with junk in them.
    let area_size = area_length(random, sheet, handler);
    let area_before = junk_bytes(random, area_size);
    let needed = match random::built_words(sheet, handler) {
        Some(words) => words.len(),
        None => random.below(60),
    };
    let output_size = length_near(random, needed);
    let output_before = junk_words(random, output_size);
    let wanted = reference::build(sheet, handler, &area_before, &output_before);

    let mut area = area_before.clone();
    let answer = raw::weigh(sheet, handler, &mut area);
    let weighed = if matches!(wanted.answer, 10 | 22) { 0 } else { wanted.answer };
    tally.call(&with("weigh", handler), sheet, answer, (answer, &area), (weighed, &wanted.area));

    let mut area = area_before;
    let mut output = output_before;
    let answer = raw::build(sheet, handler, &mut area, &mut output);
    tally.call(&with("build", handler), sheet, answer, (answer, &area, &output), (wanted.answer, &wanted.area, &wanted.output));
    if (answer, wanted.answer) != (0, 0) {
        return None;
    }
    tally.built += 1;
    tally.built_second += usize::from(sheet[0] == 0);
    Some(output[..filled_words(&output)].to_vec())
}

/// One list of choices with one handler and one budget number of the sheet, given to the monitor, to guarded moves and to bounded moves on a
/// sheet that was built with that handler. Both walks start by their start calls, and on a sheet of the first version in half of the cases as
/// the starting walk. The blocks that the bounded walk enters and the handler together stay within the claimed budget.
pub fn run_case(random: &mut Random, tally: &mut Tally, sheet: &[u16], handler: u16, bounded: &[u16]) {
    let number = random::inside_number(random, sheet);
    let monitor = match Monitor::new(sheet, handler, number) {
        Ok(monitor) => monitor,
        Err(_) => return,
    };
    let (claimed, budget) = (budget_in(sheet, number), budget_in(bounded, number));
    if budget + u32::from(handler) != claimed {
        tally.differences.push(format!("budget {budget} with a handler of {handler} on {}", shown_words(sheet)));
    }
    let needed = area_needed(sheet, handler);
    let mut state = monitor.start();
    let (mut watched, mut walked) = (junk_walk(random), junk_walk(random));
    let block_of = |walked: [u16; 4]| {
        let record = (copies_at(bounded) + 3 * usize::from(walked[0])).checked_sub(3);
        record.and_then(|record| bounded.get(record)).map_or(0, |block| u32::from(*block))
    };
    if sheet[0] != 0 && random.chance(50) {
        raw::start(&mut watched);
        raw::start(&mut walked);
    } else {
        let mut area = junk_bytes(random, needed);
        let answer = raw::start_guarded(sheet, handler, &mut area, &mut watched, number as u16);
        tally.call(&with("the guarded start of a list", handler), sheet, answer, (answer, walk_of(watched)), (0, state));
        let answer = raw::start_bounded(bounded, &mut walked, number as u16);
        let shown = Walk { place: block_of(walked), ..walk_of(walked) };
        tally.call(&with("the bounded start of a list", handler), sheet, answer, (answer, shown), (0, state));
    }
    let (mut accepted, mut cycles) = (0, 0);
    for choice in random::choices(random, sheet, handler, number) {
        let choice = choice.min(65535);
        let longer = random.below(3);
        let mut area = junk_bytes(random, needed + longer);
        let (answer, after) = monitor.step(state, choice);
        let by_graph = raw::guarded_move(sheet, handler, &mut area, &mut watched, choice as u16);
        let by_copies = raw::bounded_move(bounded, &mut walked, choice as u16);
        state = after;
        accepted += u32::from(answer == 0);
        tally.moves += 2;
        tally.call(&with("a list of choices, guarded moves", handler), sheet, by_graph, (by_graph, walk_of(watched)), (answer, state));
        let shown = Walk { place: block_of(walked), ..walk_of(walked) };
        let wanted = Walk { count: accepted, ..state };
        tally.call(&with("a list of choices, bounded moves", handler), sheet, by_copies, (by_copies, shown), (answer, wanted));
        let most = if state.end == End::Going { budget } else { budget + 1 };
        if accepted > most {
            tally.differences.push(format!("{accepted} moves accepted on {}", shown_words(sheet)));
        }
        let entered = by_copies == 0 && shown.end != End::Diverted;
        cycles += if entered { cost_in(sheet, shown.place) } else { 0 };
        if cycles + u32::from(handler) > claimed {
            tally.differences.push(format!("{cycles} cycles and a handler of {handler} on {}", shown_words(sheet)));
        }
    }
}

/// A guarded start with any budget number and any words in the walk, and a guarded move of any walk, on any graph sheet with a handler of
/// this cost.
pub fn guarded_case(random: &mut Random, tally: &mut Tally, sheet: &[u16], handler: u16) {
    let walk = walk_of(words_of(random::graph_walk(random, sheet, handler)));
    let choice = random::graph_choice(random, sheet, walk).min(65535);
    let size = area_length(random, sheet, handler);
    let mut area = junk_bytes(random, size);
    let (answer, after, area_after) = reference::guarded_move(sheet, handler, &area, walk, choice);
    let mut row = words_of(walk);
    let got = raw::guarded_move(sheet, handler, &mut area, &mut row, choice as u16);
    tally.call(&with("guarded_move", handler), sheet, got, (got, row, area), (answer, words_of(after), area_after));

    let number = random::budget_number(random, sheet).min(65535);
    let size = area_length(random, sheet, handler);
    let mut area = junk_bytes(random, size);
    let (answer, set, area_after) = reference::start_guarded(sheet, handler, &area, number);
    let before = junk_walk(random);
    let mut row = before;
    let got = raw::start_guarded(sheet, handler, &mut area, &mut row, number as u16);
    tally.call(&with("start_guarded", handler), sheet, got, (got, row, area), (answer, set.map_or(before, words_of), area_after));
}

/// Rule 11, the edge words of a copy, a bounded move of any walk, and a bounded start with any budget number, on any bounded sheet.
pub fn bounded_case(random: &mut Random, tally: &mut Tally, sheet: &[u16]) {
    let answer = raw::check_bounded(sheet);
    tally.call("check_bounded", sheet, answer, answer, reference::check_bounded(sheet));

    let copies = places(sheet);
    let any = random.between(1, copies);
    let copy = random.pick(&[0, 1, 2, any, any, copies, copies + 1, 65535]).min(65535);
    let (answer, start, size) = raw::edge_words(sheet, copy as u16);
    let part = sheet.get(start..start + size).map(<[u16]>::to_vec);
    let (wanted, words) = reference::edge_words(sheet, copy as u32);
    tally.call("edge_words", sheet, answer, (answer, part), (wanted, Some(words)));

    let walk = walk_of(words_of(random::bounded_walk(random, sheet)));
    let choice = random::bounded_choice(random, sheet, walk).min(65535);
    let (answer, after) = reference::bounded_move(sheet, walk, choice);
    let mut row = words_of(walk);
    let got = raw::bounded_move(sheet, &mut row, choice as u16);
    tally.call("bounded_move", sheet, got, (got, row), (answer, words_of(after)));

    let number = random::budget_number(random, sheet).min(65535);
    let (answer, set) = reference::start_bounded(sheet, number);
    let before = junk_walk(random);
    let mut row = before;
    let got = raw::start_bounded(sheet, &mut row, number as u16);
    tally.call("start_bounded", sheet, got, (got, row), (answer, set.map_or(before, words_of)));
}

/// Walks with an end that is none: refused 33 where the walk's turn comes, and nothing but the area is written.
pub fn endless_case(random: &mut Random, tally: &mut Tally, sheet: &[u16], handler: u16, bounded: &[u16]) {
    // The other words are mostly those of a walk in shape.
    let (far, any_end) = (random.below(65536), random.between(3, 65535));
    let place = random.pick(&[1, 2, 3, far]) as u16;
    let count = random.pick(&[0, 0, 1, far]) as u16;
    let end = random.pick(&[3, 3, 4, any_end]) as u16;
    let row = [place, count, end, random::budget_number(random, sheet).min(65535) as u16];
    let size = area_length(random, sheet, handler);
    let mut area = junk_bytes(random, size);
    // A walk at no place is refused like one with no end.
    let nowhere = Walk { place: 0, ..Walk::start() };
    let (answer, _, area_after) = reference::guarded_move(sheet, handler, &area, nowhere, 1);
    let mut walk = row;
    let got = raw::guarded_move(sheet, handler, &mut area, &mut walk, 1);
    tally.call(&with("guarded_move with no end", handler), sheet, got, (got, walk, area), (answer, row, area_after));
    let (answer, _) = reference::bounded_move(bounded, nowhere, 1);
    let mut walk = row;
    let got = raw::bounded_move(bounded, &mut walk, 1);
    tally.call("bounded_move with no end", bounded, got, (got, walk), (answer, row));
}

/// The calls that take a handler, on any graph sheet with one that costs something.
pub fn handler_case(random: &mut Random, tally: &mut Tally, sheet: &[u16], handler: u16) {
    let built = build_case(random, tally, sheet, handler);
    guarded_case(random, tally, sheet, handler);
    if let Some(bounded) = &built {
        run_case(random, tally, sheet, handler, bounded);
        bounded_case(random, tally, bounded);
    }
    endless_case(random, tally, sheet, handler, built.as_deref().unwrap_or(&[]));
}

/// A bounded sheet of either version that need not come from a build: sound, damaged, or any words at all.
pub fn any_bounded(random: &mut Random) -> Vec<u16> {
    match random.below(100) {
        0 => any_words(random),
        1..=5 => bounded_words(random, Size::Any, 60),
        6..=50 => bounded_words(random, Size::Small, 50),
        _ => bounded_words(random, Size::Tiny, 50),
    }
}

/// An operation sheet of either version: sound, damaged, at the limits, or any words at all.
pub fn any_operations(random: &mut Random) -> Vec<u16> {
    match random.below(100) {
        0 => any_words(random),
        1..=10 => operation_words(random, Size::Any, 50),
        11..=60 => operation_words(random, Size::Small, 50),
        _ => operation_words(random, Size::Tiny, 50),
    }
}

/// The conversion of an operation sheet into a row too short, exact or longer, with junk in it; a graph sheet that is written is checked.
pub fn operation_case(random: &mut Random, tally: &mut Tally, sheet: &[u16]) {
    let size = random::graph_row_length(random, sheet);
    let mut output = junk_words(random, size);
    let mut wanted = output.clone();
    let answer = reference::convert_operations(sheet, &mut wanted);
    let got = raw::convert_operations(sheet, &mut output);
    tally.call("convert_operations", sheet, got, (got, &output), (answer, &wanted));
    if got == 0 {
        tally.converted += 1;
        let graph = &output[..random::graph_length(sheet).min(output.len())];
        let answer = raw::check_graph(graph);
        tally.call("check_graph of a converted sheet", graph, answer, answer, 0);
    }
}
