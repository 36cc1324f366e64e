// Several budgets (request K2): sheets, builds, starts and moves with every word computed by hand, orders of refusals, hostile headers.
// It rests on the library's public functions, and on the texts in examples/.

use reference::corpus::{hostile_headers, second_at_the_limits, second_refusals};
use reference::random::{self, Random, Size};
use reference::*;
use std::collections::BTreeMap;

fn list(words: &[u16]) -> String {
    listing(&words.iter().flat_map(|word| word.to_le_bytes()).collect::<Vec<u8>>())
}

fn paper(budgets: &[u16]) -> Vec<u16> {
    with_budgets(&paper_example(9), budgets)
}

/// Block 3 with cost 3, to itself and to the exit.
fn looping(budgets: &[u16]) -> Vec<u16> {
    budgets_sheet(&[0, 0, 3], &[vec![3], vec![], vec![3, 2]], budgets)
}

fn sheet_of(words: &[u16]) -> Vec<u16> {
    let built = build(words, 0, &[7; LARGEST_AREA], &[9; LARGEST_OUTPUT]);
    assert_eq!(built.answer, 0);
    let filled = filled_words(&built.output);
    assert!(built.output[filled..].iter().all(|word| *word == 9));
    built.output[..filled].to_vec()
}

fn going(place: u32, count: u32, budget: u32) -> Walk {
    Walk { place, count, end: End::Going, budget }
}

fn diverted(place: u32, count: u32, budget: u32) -> Walk {
    Walk { place, count, end: End::Diverted, budget }
}

fn at_exit(place: u32, count: u32, budget: u32) -> Walk {
    Walk { place, count, end: End::Exit, budget }
}

/// The paper's example with the budgets 5 and 9: 12 copies, 15 edges, the start copies 1 and 2, the exit copy 3.
const TWO: [u16; 74] = [
    0, 12, 15, 2, 5, 9, 1, 2, // header: copies, edges, number of budgets, budgets, entries
    1, 5, 1, 1, 9, 2, 2, 0, 0, 3, 5, 3, 3, 9, 5, 4, 3, 7, 4, 7, 8, 5, 6, 9, 6, 2, 10, 6, 6, 12, 7, 1, 14, 8, 5, 15, // copies
    4, 0, 5, 0, 6, 4, 0, 0, 7, 6, 8, 0, 9, 0, 10, 0, 9, 0, 11, 11, 0, 0, 11, 13, 12, 0, 3, 0, 3, 0, // edges
];

// Builds.

#[test]
fn two_budgets() {
    let words = paper(&[5, 9]);
    assert_eq!(words[..6], [0, 8, 9, 2, 5, 9]);
    assert_eq!(words[6..], paper_example(9)[3..]);
    assert_eq!(check_graph(&words), 0);
    assert_eq!(sheet_of(&words), TWO);
    assert_eq!(check_bounded(&TWO), 0);
    assert_eq!(
        list(&words),
        "copies 12 edges 15 budget 5 9\n1 1 5 4\n2 1 9 5\n3 2 0\n4 3 5 6 0\n5 3 9 7 8\n6 4 3 9\n7 4 7 10\n8 5 6 9\n9 6 2 11 0\n\
         10 6 6 11 12\n11 7 1 3\n12 8 5 3\n"
    );
}

#[test]
fn equal_start_copies_are_shared() {
    // With 9 and 11 the largest completion cost of block 1 is 9.
    let first = sheet_of(&paper_example(9));
    assert_eq!(sheet_of(&paper(&[9, 11])), [&[0, 9, 11, 2, 9, 11, 1, 1], &first[3..]].concat());
    assert_eq!(list(&paper(&[9, 11])), list(&paper_example(9)).replace("budget 9", "budget 9 11"));
    // With 7, 8 and 9 the loop's are 6, 6 and 9.
    assert_eq!(
        sheet_of(&looping(&[7, 8, 9])),
        [0, 6, 8, 3, 7, 8, 9, 1, 1, 2, 1, 6, 1, 1, 9, 2, 2, 0, 0, 3, 3, 3, 3, 6, 5, 3, 9, 7, 5, 0, 6, 0, 0, 4, 3, 0, 4, 6, 3, 0, 5, 8, 3, 0]
    );
}

#[test]
fn a_budget_that_nothing_fits() {
    // The entry of the first is 0; with only such budgets it is 9.
    assert_eq!(
        list(&looping(&[2, 3, 7, 9])),
        "copies 7 edges 9 budget 2 3 7 9\n1 1 3 5\n2 1 6 6\n3 1 9 7\n4 2 0\n5 3 3 0 4\n6 3 6 5 4\n7 3 9 6 4\n"
    );
    let sheet = sheet_of(&looping(&[2, 3, 7, 9]));
    assert_eq!(sheet[..12], [0, 7, 9, 4, 2, 3, 7, 9, 0, 1, 2, 3]);
    assert_eq!(sheet_of(&looping(&[0, 1, 2, 3]))[..12], [0, 3, 3, 4, 0, 1, 2, 3, 0, 0, 0, 1]);
    assert_eq!(list(&looping(&[0, 1, 2])), "refused 9\n");
    assert_eq!(list(&paper(&[4, 5, 9, 12])).lines().next(), Some("copies 15 edges 19 budget 4 5 9 12"));
}

#[test]
fn one_budget_in_both_versions() {
    // The second version with one budget has the records of the first, and the entry 1.
    for budget in [5, 7, 8, 9, 11, 12, 500] {
        let first = sheet_of(&paper_example(budget));
        assert_eq!(sheet_of(&paper(&[budget])), [&[0, first[0], first[1], 1, budget, 1], &first[3..]].concat());
        assert_eq!(list(&paper(&[budget])), list(&paper_example(budget)));
    }
    assert_eq!(sheet_of(&[0, 2, 1, 1, 0, 0, 1, 0, 0, 2, 0]), [0, 2, 1, 1, 0, 1, 1, 0, 1, 2, 0, 0, 2, 0]);
}

#[test]
fn more_budgets_than_completion_costs() {
    // Every budget admits the one path of cost 0, and they share one start copy.
    assert_eq!(
        sheet_of(&[0, 2, 1, 4, 0, 1, 2, 500, 0, 1, 0, 0, 2, 0]),
        [0, 2, 1, 4, 0, 1, 2, 500, 1, 1, 1, 1, 1, 0, 1, 2, 0, 0, 2, 0]
    );
}

#[test]
fn the_area_and_the_output_go_by_the_new_header() {
    let words = paper(&[5, 9]);
    // The area goes by the largest budget: 8 * 10 bytes, as with the budget 9 alone.
    let table = completion_table(&paper_example(9), 0);
    assert_eq!(completion_table(&words, 0), table);
    let short = build(&words, 0, &[7; 79], &[9; 74]);
    assert_eq!(short, Built { answer: 21, area: vec![7; 79], output: vec![9; 74] });
    // 4 + 2 * 2 + 3 * 12 + 2 * 15 words.
    let narrow = build(&words, 0, &[7; 80], &[9; 73]);
    assert_eq!(narrow, Built { answer: 22, area: table.clone(), output: vec![9; 73] });
    let exact = build(&words, 0, &[7; 81], &[9; 75]);
    assert_eq!(exact.answer, 0);
    assert_eq!((&exact.area[..80], exact.area[80]), (&table[..], 7));
    assert_eq!((&exact.output[..74], exact.output[74]), (&TWO[..], 9));
    // 9 by the largest budget, and the area holds the table then.
    let unfit = build(&paper(&[1, 4]), 0, &[7; 41], &[9; 2]);
    assert_eq!((unfit.answer, unfit.area[40], unfit.output), (9, 7, vec![9; 2]));
    assert_eq!(unfit.area[..40], completion_table(&paper_example(4), 0));
    assert_eq!(build(&paper(&[1, 4]), 0, &[7; 39], &[9; 2]).answer, 21);
}

#[test]
fn limits_of_copies_and_edges() {
    let answer = |words: &[u16]| build(words, 0, &[7; LARGEST_AREA], &[9; LARGEST_OUTPUT]).answer;
    let sheet = sheet_of(&second_at_the_limits(1, 4, false));
    assert_eq!(sheet[..12], [0, 4096, 8192, 4, 415, 416, 417, 418, 1, 2, 3, 4]);
    assert_eq!((sheet.len(), check_bounded(&sheet)), (LARGEST_OUTPUT, 0));
    assert_eq!(sheet_of(&second_at_the_limits(1, 1, false))[..4], [0, 4096, 8189, 4]);
    assert_eq!(answer(&second_at_the_limits(1, 5, false)), 10);
    assert_eq!(answer(&second_at_the_limits(1, 1, true)), 10);
    // 10 before 22.
    assert_eq!(build(&second_at_the_limits(1, 5, false), 0, &[7; LARGEST_AREA], &[]).answer, 10);
    assert_eq!(build(&second_at_the_limits(1, 4, false), 0, &[7; LARGEST_AREA], &[9; LARGEST_OUTPUT - 1]).answer, 22);
}

// Refusals of graph sheets.

#[test]
fn refusals_in_order() {
    let answers: Vec<u16> = second_refusals().iter().map(|words| build(words, 0, &[0; LARGEST_AREA], &[0; LARGEST_OUTPUT]).answer).collect();
    assert_eq!(answers, [1, 2, 3, 4, 41, 5, 6, 7, 8, 9, 10]);
    // Fewer than 3 words are 1 in both versions.
    assert_eq!(check_graph(&[0]), 1);
    assert_eq!(check_graph(&[0, 2]), 1);
    // N and E stand one word later. `0 N E` alone is 2 or 3.
    assert_eq!(check_graph(&[0, 0, 0]), 2);
    assert_eq!(check_graph(&[0, 1, 1]), 2);
    assert_eq!(check_graph(&[0, 129, 1, 1, 0]), 2);
    assert_eq!(check_graph(&[0, 2, 0, 1, 0]), 2);
    assert_eq!(check_graph(&[0, 2, 513, 9, 0]), 2);
    assert_eq!(check_graph(&[0, 2, 1]), 3);
    // A row that ends before its budgets, or is otherwise too short or too long, is 3, whatever the budgets are.
    let records = [0, 1, 0, 0, 2, 0];
    let with = |header: &[u16]| [header, &records].concat();
    for number in [0, 1, 4, 5, 65535] {
        assert_eq!(check_graph(&[0, 2, 1, number]), 3);
        assert_eq!(check_graph(&[0, 2, 1, number, 501]), 3);
    }
    assert_eq!(check_graph(&with(&[0, 2, 1, 2, 7])), 3);
    assert_eq!(check_graph(&with(&[0, 2, 1, 65535, 501])), 3);
    assert_eq!(check_graph(&with(&[0, 2, 1, 1, 501, 7])), 3);
    // 4 tests each budget, before 41: also where there are too many, or where they do not rise.
    assert_eq!(check_graph(&with(&[0, 2, 1, 1, 500])), 0);
    assert_eq!(check_graph(&with(&[0, 2, 1, 1, 501])), 4);
    assert_eq!(check_graph(&with(&[0, 2, 1, 2, 501, 7])), 4);
    assert_eq!(check_graph(&with(&[0, 2, 1, 5, 1, 2, 3, 4, 501])), 4);
    assert_eq!(check_graph(&with(&[0, 2, 1, 3, 7, 7, 65535])), 4);
    // 41: no budget, more than four, equal or falling ones; before 5.
    assert_eq!(check_graph(&with(&[0, 2, 1, 0])), 41);
    assert_eq!(check_graph(&with(&[0, 2, 1, 4, 1, 2, 3, 4])), 0);
    assert_eq!(check_graph(&with(&[0, 2, 1, 5, 1, 2, 3, 4, 5])), 41);
    assert_eq!(check_graph(&with(&[0, 2, 1, 2, 7, 7])), 41);
    assert_eq!(check_graph(&with(&[0, 2, 1, 2, 7, 6])), 41);
    assert_eq!(check_graph(&with(&[0, 2, 1, 4, 1, 2, 4, 3])), 41);
    assert_eq!(check_graph(&[0, 2, 1, 2, 7, 7, 1, 1, 0, 0, 2, 0]), 41);
    assert_eq!(check_graph(&[0, 2, 1, 2, 6, 7, 1, 1, 0, 0, 1, 0]), 5);
    assert_eq!(check_graph(&[0, 2, 1, 2, 6, 7, 0, 9, 0, 1, 1, 0]), 6);
    assert_eq!(check_graph(&[0, 2, 1, 2, 6, 7, 0, 9, 0, 1, 2, 0]), 7);
    assert_eq!(check_graph(&[0, 2, 1, 2, 6, 7, 0, 0, 0, 1, 2, 0]), 8);
    assert_eq!(successor_count(&paper(&[5, 9]), 6), (0, 2));
    assert_eq!(successor_count(&paper(&[5, 9]), 9), (33, 0));
    assert_eq!(successor_count(&paper(&[9, 9]), 9), (41, 0));
}

#[test]
fn every_budget_is_tested_however_many() {
    // 65,535 budgets and a fitting length: 41, or 4 where any of them is above 500.
    let with = |budgets: &[u16]| budgets_sheet(&[0, 0], &[vec![2], vec![]], budgets);
    let mut budgets = vec![7; 65535];
    assert_eq!(with(&budgets).len(), 65545);
    assert_eq!(check_graph(&with(&budgets)), 41);
    for place in [0, 4, 5, 1000, 65534] {
        budgets[place] = 501;
        assert_eq!(check_graph(&with(&budgets)), 4);
        budgets[place] = 7;
    }
    let whole = with(&budgets);
    assert_eq!(check_graph(&whole[..65544]), 3);
    assert_eq!(check_graph(&[&whole[..], &[0]].concat()), 3);
    assert_eq!(check_graph(&whole[..4]), 3);
    assert_eq!(list(&whole), "refused 41\n");
}

#[test]
fn hostile_headers_are_refused() {
    let answers: Vec<u16> = hostile_headers().iter().map(|words| check_graph(words)).collect();
    assert_eq!(answers, [1, 1, 3, 2, 3, 3, 3, 3, 3, 41, 41, 4, 41, 41, 41, 4, 4, 41, 4, 41, 4, 2]);
}

// Rule 11.

/// This sheet with some words changed.
fn changed(changes: &[(usize, u16)]) -> u16 {
    let mut words = TWO.to_vec();
    for (place, word) in changes {
        words[*place] = *word;
    }
    check_bounded(&words)
}

#[test]
fn the_header_of_a_bounded_sheet() {
    for length in 0..TWO.len() {
        assert_eq!(check_bounded(&TWO[..length]), 11);
    }
    assert_eq!(check_bounded(&[&TWO[..], &[0]].concat()), 11);
    assert_eq!(changed(&[(0, 12)]), 11);
    // The number of budgets and the budgets: strictly rising, at most 500, and no low above the largest.
    for number in [0, 1, 3, 4, 5, 65535] {
        assert_eq!(changed(&[(3, number)]), 11);
    }
    assert_eq!(changed(&[(5, 500)]), 0);
    assert_eq!(changed(&[(5, 501)]), 11);
    assert_eq!(changed(&[(4, 9)]), 11);
    assert_eq!(changed(&[(4, 10)]), 11);
    assert_eq!(changed(&[(4, 8)]), 0);
    assert_eq!(changed(&[(5, 8)]), 11);
    assert_eq!(changed(&[(4, 4)]), 11); // the low of copy 1 is 5
}

#[test]
fn entries() {
    // The first entry 0 leaves copy 1 without a name; naming copy 2 does too, whose low 9 is above the budget 5 besides.
    assert_eq!(changed(&[(6, 0)]), 11);
    assert_eq!(changed(&[(6, 2)]), 11);
    // An entry that names the exit, a copy of another block, a copy beyond C.
    for entry in [3, 4, 12, 13, 65535] {
        assert_eq!(changed(&[(6, entry)]), 11);
        assert_eq!(changed(&[(7, entry)]), 11);
    }
    // The last entry 0; the last naming copy 1 leaves copy 2 without a name.
    assert_eq!(changed(&[(7, 0)]), 11);
    assert_eq!(changed(&[(7, 1)]), 11);
    // Where both lows are within both budgets the entries may cross, and one start copy may not stay unnamed.
    assert_eq!(changed(&[(4, 9), (5, 10)]), 0);
    assert_eq!(changed(&[(4, 9), (5, 10), (6, 2), (7, 1)]), 0);
    assert_eq!(changed(&[(4, 9), (5, 10), (6, 2)]), 11);
    assert_eq!(changed(&[(4, 9), (5, 10), (7, 1)]), 11);
    // One start copy: both name it, or the first is 0.
    let one = |first: u16, last: u16| check_bounded(&[0, 2, 1, 2, 3, 4, first, last, 1, 0, 1, 2, 0, 0, 2, 0]);
    assert_eq!((one(1, 1), one(0, 1), one(1, 0), one(0, 0), one(2, 1), one(1, 2)), (0, 0, 11, 11, 11, 11));
}

#[test]
fn copies_and_targets() {
    // The exit stands behind the start copies: one of it, its low 0, its chain empty.
    assert_eq!(changed(&[(14, 3)]), 11);
    assert_eq!(changed(&[(15, 1)]), 11);
    assert_eq!(changed(&[(16, 3)]), 11);
    assert_eq!(changed(&[(17, 2), (18, 1)]), 11);
    // Equal copies, and start copies out of order.
    assert_eq!(changed(&[(9, 9)]), 11);
    assert_eq!(changed(&[(9, 9), (12, 5), (4, 8), (6, 2), (7, 1)]), 11);
    // A target: 0, the exit, the last copy; none is a start copy, or beyond C.
    assert_eq!((changed(&[(44, 0)]), changed(&[(44, 3)]), changed(&[(44, 12)])), (0, 0, 0));
    assert_eq!((changed(&[(44, 1)]), changed(&[(44, 2)]), changed(&[(44, 13)])), (11, 11, 11));
    assert_eq!(changed(&[(45, 2)]), 11);
    // No copy of block 1 at all: no entry can name one.
    assert_eq!(check_bounded(&[0, 2, 1, 1, 3, 1, 2, 0, 0, 3, 3, 1, 1, 0]), 11);
    // In the first version one copy of block 1 is all that there may be.
    assert_eq!(check_bounded(&[3, 1, 5, 1, 4, 1, 1, 5, 0, 2, 0, 0, 3, 0]), 11);
}

#[test]
fn edge_words_behind_the_new_header() {
    assert_eq!(edge_words(&TWO, 1), (0, vec![4, 0]));
    assert_eq!(edge_words(&TWO, 2), (0, vec![5, 0]));
    assert_eq!(edge_words(&TWO, 3), (0, vec![]));
    assert_eq!(edge_words(&TWO, 10), (0, vec![11, 13, 12, 0]));
    assert_eq!(edge_words(&TWO, 0), (33, vec![]));
    assert_eq!(edge_words(&TWO, 13), (33, vec![]));
    assert_eq!(edge_words(&TWO[..73], 13), (11, vec![]));
}

// Starts.

#[test]
fn guarded_starts() {
    let words = looping(&[2, 3, 7, 9]);
    let table = completion_table(&words, 0);
    assert_eq!(table.len(), 30);
    let start = |number: u32| {
        let (answer, walk, area) = start_guarded(&words, 0, &[7; 31], number);
        assert_eq!((&area[..30], area[30]), (&table[..], 7));
        (answer, walk)
    };
    // Nothing fits 2: diverted at block 1.
    assert_eq!(start(1), (0, Some(diverted(1, 0, 1))));
    assert_eq!(start(2), (0, Some(going(1, 0, 2))));
    assert_eq!(start(4), (0, Some(going(1, 0, 4))));
    for number in [0, 5, 65535, 65537, u32::MAX] {
        assert_eq!(start(number), (33, None));
    }
    // 1 to 8 with 41, 21 and 9 come first, and the area is as after a move.
    assert_eq!(start_guarded(&[0, 2], 0, &[7], 9), (1, None, vec![7]));
    assert_eq!(start_guarded(&looping(&[3, 3]), 0, &[7], 9), (41, None, vec![7]));
    assert_eq!(start_guarded(&words, 0, &[7; 29], 9), (21, None, vec![7; 29]));
    let unfit = start_guarded(&looping(&[1, 2]), 0, &[7; 9], 9);
    assert_eq!(unfit, (9, None, completion_table(&looping(&[1, 2]), 0)));
    // On the first version 1 is the only number.
    assert_eq!(start_guarded(&paper_example(9), 0, &[7; 80], 1).1, Some(Walk::start()));
    assert_eq!(start_guarded(&paper_example(9), 0, &[7; 80], 2).0, 33);
    assert_eq!(start_guarded(&paper_example(4), 0, &[7; 40], 1).0, 9);
}

#[test]
fn bounded_starts() {
    assert_eq!(start_bounded(&TWO, 1), (0, Some(going(1, 0, 1))));
    assert_eq!(start_bounded(&TWO, 2), (0, Some(going(2, 0, 2))));
    for number in [0, 3, 65537, u32::MAX] {
        assert_eq!(start_bounded(&TWO, number), (33, None));
    }
    assert_eq!(start_bounded(&TWO[..73], 0), (11, None));
    // The entry of the first budget is 0, and those of the others name copies 1 to 3.
    let sheet = sheet_of(&looping(&[2, 3, 7, 9]));
    let starts: Vec<Option<Walk>> = (1..=4).map(|number| start_bounded(&sheet, number).1).collect();
    assert_eq!(starts, [Some(diverted(1, 0, 1)), Some(going(1, 0, 2)), Some(going(2, 0, 3)), Some(going(3, 0, 4))]);
    // Shared start copies.
    let sheet = sheet_of(&paper(&[9, 11]));
    assert_eq!(start_bounded(&sheet, 1).1, Some(going(1, 0, 1)));
    assert_eq!(start_bounded(&sheet, 2).1, Some(going(1, 0, 2)));
    // The first version.
    let sheet = sheet_of(&paper_example(9));
    assert_eq!(start_bounded(&sheet, 1), (0, Some(Walk::start())));
    assert_eq!(start_bounded(&sheet, 2), (33, None));
}

#[test]
fn the_monitor_starts_likewise() {
    let start = |words: &[u16], number: u32| Monitor::new(words, 0, number).map(|monitor| monitor.start());
    let words = looping(&[2, 3, 7, 9]);
    assert_eq!(start(&words, 1), Ok(diverted(1, 0, 1)));
    assert_eq!(start(&words, 2), Ok(going(1, 0, 2)));
    assert_eq!(start(&words, 0), Err(33));
    assert_eq!(start(&words, 5), Err(33));
    assert_eq!(start(&looping(&[3, 3]), 9), Err(41));
    assert_eq!(start(&paper_example(9), 1), Ok(Walk::start()));
    assert_eq!(start(&paper_example(4), 1), Ok(diverted(1, 0, 1)));
    assert_eq!(monitor_step(&words, 0, diverted(1, 0, 1), 1), (32, diverted(1, 0, 1)));
    assert_eq!(monitor_step(&words, 0, going(1, 0, 5), 1), (33, going(1, 0, 5)));
}

// Moves.

#[test]
fn guarded_moves_read_the_chosen_budget() {
    let words = paper(&[5, 9]);
    let go = |walk: Walk, choice: u32| {
        let (answer, after, area) = guarded_move(&words, 0, &[7; 80], walk, choice);
        assert_eq!(area, completion_table(&paper_example(9), 0));
        (answer, after)
    };
    // At block 3 the way through block 5 costs 8 at least: within 9, not within 5.
    assert_eq!(go(going(3, 2, 1), 2), (0, diverted(3, 2, 1)));
    assert_eq!(go(going(3, 2, 2), 2), (0, going(5, 6, 2)));
    assert_eq!(go(going(3, 2, 1), 1), (0, going(4, 3, 1)));
    assert_eq!(go(going(7, 5, 1), 1), (0, at_exit(2, 5, 1)));
    // The count limit reads it too.
    assert_eq!(go(going(7, 6, 1), 1), (33, going(7, 6, 1)));
    assert_eq!(go(going(7, 6, 2), 1), (0, at_exit(2, 6, 2)));
    assert_eq!((go(at_exit(2, 5, 1), 1).0, go(at_exit(2, 6, 1), 1).0), (32, 33));
    // A budget number outside the sheet is 33, before 32 and 31.
    for number in [0, 3, 65537, u32::MAX] {
        assert_eq!(go(going(1, 0, number), 0), (33, going(1, 0, number)));
        assert_eq!(go(at_exit(2, 5, number), 0).0, 33);
    }
    assert_eq!(guarded_move(&paper_example(9), 0, &[7; 80], going(1, 0, 2), 1).0, 33);
    // A going walk whose budget nothing fits is in shape; every way is diverted.
    let words = looping(&[2, 3]);
    assert_eq!(guarded_move(&words, 0, &[7; 12], going(1, 0, 1), 1).1, diverted(1, 0, 1));
    assert_eq!(guarded_move(&words, 0, &[7; 12], diverted(1, 0, 1), 1).0, 32);
}

#[test]
fn bounded_moves_go_by_the_exit_copy_and_the_chosen_budget() {
    let go = |walk: Walk, choice: u32| bounded_move(&TWO, walk, choice);
    assert_eq!(go(going(1, 0, 1), 1), (0, going(4, 1, 1)));
    assert_eq!(go(going(2, 0, 2), 1), (0, going(5, 1, 2)));
    assert_eq!(go(going(4, 1, 1), 2), (0, diverted(4, 2, 1)));
    assert_eq!(go(going(11, 4, 1), 1), (0, at_exit(3, 5, 1)));
    // The exit is copy 3; copy 2 is a place as any other.
    assert_eq!(go(going(2, 3, 1), 0).0, 31);
    assert_eq!(go(going(3, 3, 1), 1).0, 33);
    assert_eq!(go(at_exit(2, 3, 1), 1).0, 33);
    assert_eq!(go(at_exit(3, 3, 1), 1).0, 32);
    assert_eq!(go(diverted(3, 3, 1), 1).0, 33);
    assert_eq!(go(diverted(2, 3, 1), 1).0, 32);
    // Counts: up to B while going, B + 1 once ended, with B the chosen budget.
    assert_eq!((go(going(4, 5, 1), 0).0, go(going(4, 6, 1), 0).0, go(going(4, 9, 2), 0).0, go(going(4, 10, 2), 0).0), (31, 33, 31, 33));
    assert_eq!((go(at_exit(3, 6, 1), 0).0, go(at_exit(3, 7, 1), 0).0, go(at_exit(3, 10, 2), 0).0, go(at_exit(3, 11, 2), 0).0), (32, 33, 32, 33));
    assert_eq!((go(diverted(4, 6, 1), 0).0, go(diverted(4, 7, 1), 0).0), (32, 33));
    // A budget number outside the sheet is 33, before 32 and 31.
    for number in [0, 3, 65537, u32::MAX] {
        assert_eq!(go(going(4, 0, number), 0), (33, going(4, 0, number)));
        assert_eq!(go(diverted(1, 0, number), 0).0, 33);
    }
    assert_eq!(bounded_move(&sheet_of(&paper_example(9)), going(1, 0, 2), 1).0, 33);
    // A place outside the sheet.
    assert_eq!((go(going(0, 0, 1), 1).0, go(going(12, 0, 1), 1), go(going(13, 0, 1), 1).0), (33, (0, at_exit(3, 1, 1)), 33));
}

#[test]
fn the_same_choices_under_two_budgets() {
    // 1, 2: under 5 cycles diverted at block 3, under 9 at block 6.
    let run = |number: u32, choices: &[u32]| {
        let mut walk = start_bounded(&TWO, number).1.unwrap();
        let mut answers = Vec::new();
        for choice in choices {
            let (answer, after) = bounded_move(&TWO, walk, *choice);
            answers.push(answer);
            walk = after;
        }
        (answers, walk)
    };
    assert_eq!(run(1, &[1, 2, 1, 2]), (vec![0, 0, 32, 32], diverted(4, 2, 1)));
    assert_eq!(run(2, &[1, 2, 1, 2]), (vec![0, 0, 0, 0], diverted(9, 4, 2)));
    assert_eq!(run(1, &[1, 1, 1, 1, 1]), (vec![0; 5], at_exit(3, 5, 1)));
    assert_eq!(run(2, &[1, 1, 1, 2, 1]), (vec![0; 5], at_exit(3, 5, 2)));
}

// The texts in examples/.

/// The words of a text, and the listing that its comments show: the comment lines from `copies` on, without their mark.
fn example(name: &str) -> (Vec<u16>, String) {
    let text = std::fs::read_to_string(format!("{}/../examples/{name}.txt", env!("CARGO_MANIFEST_DIR"))).unwrap();
    let words = text.lines().flat_map(|line| line.split('#').next().unwrap().split_whitespace()).map(|word| word.parse().unwrap()).collect();
    let shown = text.lines().filter_map(|line| line.strip_prefix("#   ")).map(|line| format!("{line}\n")).collect();
    (words, shown)
}

#[test]
fn the_examples_list_what_they_say() {
    for (name, budgets) in [("two_budgets", vec![5, 9]), ("four_budgets", vec![2, 3, 7, 9]), ("shared_start", vec![7, 8])] {
        let (words, shown) = example(name);
        assert_eq!(words[4..4 + words[3] as usize], budgets, "{name}");
        assert_eq!(list(&words), shown, "{name}");
    }
    assert_eq!(example("two_budgets").0, paper(&[5, 9]));
    assert_eq!(example("four_budgets").0, looping(&[2, 3, 7, 9]));
    assert_eq!(example("shared_start").0, looping(&[7, 8]));
}

// The random material has what it is for.

#[test]
fn random_sheets_of_the_second_version() {
    let mut random = Random::new(41);
    let mut counts: BTreeMap<&str, usize> = BTreeMap::new();
    let mut count = |name: &'static str, holds: bool| *counts.entry(name).or_default() += usize::from(holds);
    for _ in 0..4000 {
        let words = random::buildable_second_graph(&mut random, Size::Small);
        let sheet = sheet_of(&words);
        let number = words[3] as usize;
        let entries = &sheet[4 + number..4 + 2 * number];
        count("one budget", number == 1);
        count("four budgets", number == 4);
        count("nothing fits the first", entries[0] == 0);
        count("equal start copies", entries.windows(2).any(|pair| pair[0] != 0 && pair[0] == pair[1]));
        count("three start copies", entries.contains(&3));
        count("four start copies", entries.contains(&4));
    }
    for _ in 0..4000 {
        let words = random::damaged_second_graph(&mut random, Size::Small);
        let is_second = words.first() == Some(&0);
        let answer = check_graph(&words);
        count("41", answer == 41);
        count("4", is_second && answer == 4);
        count("cut in the header", is_second && words.len() < 5 && matches!(answer, 1 | 3));
        count("many budgets", is_second && answer == 41 && words[3] > 4);
        count("no budget", is_second && answer == 41 && words[3] == 0);
        count("not rising", is_second && answer == 41 && (1..=4).contains(&words[3]));
        count("first version by now", !is_second && !words.is_empty());
        let sheet = random::bounded_words(&mut random, Size::Small, 0);
        let is_second = sheet.first() == Some(&0);
        count("11 in the second version", is_second && check_bounded(&sheet) == 11);
        count("damaged and accepted", is_second && check_bounded(&sheet) == 0);
        let free = random::sound_second_bounded_sheet(&mut random, Size::Small);
        assert_eq!(check_bounded(&free), 0);
        let entries = &free[4 + free[3] as usize..4 + 2 * free[3] as usize];
        count("entries that fall", entries.windows(2).any(|pair| pair[0] > pair[1] && pair[1] != 0));
        count("an entry 0", entries.contains(&0));
        let walk = random::bounded_walk(&mut random, &free);
        let (answer, _) = bounded_move(&free, walk, 1);
        let inside = (1..=u32::from(free[3])).contains(&walk.budget);
        count("a number outside", answer == 33 && !inside);
        count("a number inside, refused 33", answer == 33 && inside);
        let exit = 1 + *entries.iter().max().unwrap() as u32;
        count("at the exit beyond place 2", answer == 32 && exit > 2 && walk.place == exit);
        count("place 2 with end exit, refused", answer == 33 && inside && exit > 2 && walk.place == 2 && walk.end == End::Exit);
        count("moved beyond the budget before it", answer == 0 && walk.budget > 1);
    }
    let mut many = 0;
    for _ in 0..60 {
        let words = random::many_budgets(&mut random, 65535);
        assert!(words.len() <= 65535 && matches!(check_graph(&words), 3 | 4 | 41));
        many += usize::from(words.len() > 60000 && check_graph(&words) != 3);
    }
    assert!(many > 5, "{many}");
    assert!(counts.values().all(|times| *times > 20), "{counts:?}");
}
