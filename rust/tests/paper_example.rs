// The wrapper on the example of document 01, with one budget, with two, with a handler, and with operations for costs: every call, accepted and
// refused. It rests on the wrapper alone; the expected words are those of document 01, and for other budgets computed by hand.

use gilstavo::{
    build, check_bounded, check_graph, convert_operations, count_successors, edge_words, weigh, End, Refusal, Walk, MOST_AREA, MOST_GRAPH,
    MOST_OUTPUT,
};

/// Costs 0, 0, 2, 1, 4, 1, 1, 5; successors 1: 3; 3: 4, 5; 4: 6; 5: 6; 6: 7, 8; 7: 2; 8: 2.
fn example(budget: u16) -> [u16; 37] {
    [
        8, 9, budget, 0, 1, 0, 0, 2, 2, 1, 4, 4, 5, 1, 6, 1, 8, 5, 9, 3, 0, 4, 3, 5, 0, 6, 0, 6, 0, 7, 7, 8, 0, 2, 0, 2, 0,
    ]
}

/// Copies: block, low, first edge. Edges: target, next.
const BOUNDED: [u16; 52] = [
    9, 11, 9, 1, 9, 1, 2, 0, 0, 3, 9, 2, 4, 7, 4, 5, 6, 5, 6, 2, 6, 6, 6, 8, 7, 1, 10, 8, 5, 11, 3, 0, 4, 3, 5, 0, 7, 0, 6, 0,
    8, 7, 0, 0, 8, 9, 9, 0, 2, 0, 2, 0,
];

/// Its bounded sheet for 8 cycles.
const EIGHT: [u16; 40] = [
    7, 8, 8, 1, 8, 1, 2, 0, 0, 3, 8, 2, 4, 3, 4, 5, 6, 5, 6, 2, 6, 7, 1, 8, 3, 0, 4, 3, 5, 0, 6, 0, 6, 0, 7, 7, 0, 0, 2, 0,
];

/// The same graph in the second version, with two budgets.
fn with_two_budgets(first: u16, second: u16) -> Vec<u16> {
    [&[0, 8, 9, 2, first, second], &example(9)[3..]].concat()
}

/// Its bounded sheet for 5 and 9: the start copies 1 and 2, the exit copy 3.
const TWO: [u16; 74] = [
    0, 12, 15, 2, 5, 9, 1, 2, 1, 5, 1, 1, 9, 2, 2, 0, 0, 3, 5, 3, 3, 9, 5, 4, 3, 7, 4, 7, 8, 5, 6, 9, 6, 2, 10, 6, 6, 12, 7, 1, 14, 8, 5,
    15, 4, 0, 5, 0, 6, 4, 0, 0, 7, 6, 8, 0, 9, 0, 10, 0, 9, 0, 11, 11, 0, 0, 11, 13, 12, 0, 3, 0, 3, 0,
];

/// The first operation records of blocks 1 to 8, and the records: operation, next. Their sums are the costs of the example.
const FIRSTS: [u16; 8] = [0, 0, 1, 2, 3, 5, 6, 9];
const RECORDS: [u16; 18] = [8, 0, 3, 0, 12, 4, 7, 0, 0, 0, 5, 0, 11, 0, 1, 7, 10, 8];

/// A graph sheet of the example's graph, whose blocks begin at this word, with these operations for its costs.
fn with_operations(sheet: &[u16], blocks_at: usize) -> Vec<u16> {
    let mut words = [sheet, &[9], &RECORDS].concat();
    for (index, first) in FIRSTS.iter().enumerate() {
        words[blocks_at + 2 * index] = *first;
    }
    words
}

fn walk(place: u16, count: u16, end: End, budget: u16) -> Walk {
    Walk { place, count, end, budget }
}

#[test]
fn the_build_of_the_example() {
    let mut area = [7; MOST_AREA];
    let mut output = [9; MOST_OUTPUT];
    assert_eq!(build(&example(9), 0, &mut area, &mut output), Ok(&BOUNDED[..]));
    // Block 3 has the completion costs 5, 8, 9; behind the cells the area keeps its content.
    let block_3: Vec<usize> = (0..10).filter(|cost| area[2 * 10 + cost] == 1).collect();
    assert_eq!(block_3, [5, 8, 9]);
    assert!(area[80..].iter().all(|byte| *byte == 7));
}

#[test]
fn refusals_write_nothing() {
    let mut area = [7; 79];
    let mut output = [9; 51];
    assert_eq!(build(&example(9)[..36], 0, &mut area, &mut output), Err(Refusal(3)));
    assert_eq!(build(&example(9), 0, &mut area, &mut output), Err(Refusal(21)));
    assert_eq!(area, [7; 79]);
    let mut area = [7; 80];
    assert_eq!(build(&example(9), 0, &mut area, &mut output), Err(Refusal(22)));
    assert_eq!(output, [9; 51]);
    assert_eq!(weigh(&example(4), 0, &mut area), Err(Refusal(9)));
    assert_eq!(check_graph(&[]), Err(Refusal(1)));
    assert_eq!(check_bounded(&BOUNDED[..51]), Err(Refusal(11)));
    assert_eq!(Refusal(9).to_string(), "refused 9: no path from start to exit within the budget less the handler's cost");
}

#[test]
fn successors_and_edge_words() {
    assert_eq!(count_successors(&example(9), 6), Ok(2));
    assert_eq!(count_successors(&example(9), 2), Ok(0));
    assert_eq!(count_successors(&example(9), 9), Err(Refusal(33)));
    assert_eq!(edge_words(&BOUNDED, 6), Ok(&[8, 7, 0, 0][..]));
    assert_eq!(edge_words(&BOUNDED, 2), Ok(&[][..]));
    assert_eq!(edge_words(&BOUNDED, 10), Err(Refusal(33)));
}

#[test]
fn a_path_of_10_cycles_is_diverted() {
    let mut area = [7; 80];
    let (mut watched, mut walked) = (Walk::start(), Walk::start());
    assert_eq!(watched, walk(1, 0, End::Going, 1));
    for choice in [1, 2, 1, 2] {
        assert_eq!(watched.guarded_move(&example(9), 0, &mut area, choice), Ok(()));
        assert_eq!(walked.bounded_move(&BOUNDED, choice), Ok(()));
    }
    assert_eq!(watched, walk(6, 7, End::Diverted, 1));
    assert_eq!(walked, walk(6, 4, End::Diverted, 1));
    assert_eq!(watched.guarded_move(&example(9), 0, &mut area, 1), Err(Refusal(32)));
    assert_eq!(walked.bounded_move(&BOUNDED, 1), Err(Refusal(32)));
}

#[test]
fn a_walk_out_of_shape() {
    for out_of_shape in [walk(2, 0, End::Going, 1), walk(1, 0, End::Going, 2), walk(1, 0, End::Going, 0)] {
        let mut lent = out_of_shape;
        assert_eq!(lent.bounded_move(&BOUNDED, 1), Err(Refusal(33)));
        assert_eq!(lent, out_of_shape);
    }
}

#[test]
fn the_build_with_two_budgets() {
    let mut area = [7; MOST_AREA];
    let mut output = [9; MOST_OUTPUT];
    assert_eq!(build(&with_two_budgets(5, 9), 0, &mut area, &mut output), Ok(&TWO[..]));
    assert!(area[80..].iter().all(|byte| *byte == 7));
    assert_eq!(build(&with_two_budgets(5, 9), 0, &mut area, &mut output[..73]), Err(Refusal(22)));
    assert_eq!(build(&with_two_budgets(9, 9), 0, &mut area, &mut output), Err(Refusal(41)));
    assert_eq!(build(&with_two_budgets(9, 501), 0, &mut area, &mut output), Err(Refusal(4)));
    assert_eq!(build(&with_two_budgets(3, 4), 0, &mut area, &mut output), Err(Refusal(9)));
    assert_eq!(check_bounded(&TWO), Ok(()));
    assert_eq!(edge_words(&TWO, 10), Ok(&[11, 13, 12, 0][..]));
    assert_eq!(Refusal(41).to_string(), "refused 41: not 1 to 4 budgets, or budgets that do not rise strictly");
}

#[test]
fn starts_with_a_budget_number() {
    let mut area = [7; 80];
    let sheet = with_two_budgets(4, 9);
    assert_eq!(Walk::start_guarded(&sheet, 0, &mut area, 1), Ok(walk(1, 0, End::Diverted, 1)));
    assert_eq!(Walk::start_guarded(&sheet, 0, &mut area, 2), Ok(walk(1, 0, End::Going, 2)));
    assert_eq!(Walk::start_guarded(&sheet, 0, &mut area, 3), Err(Refusal(33)));
    assert_eq!(Walk::start_guarded(&sheet, 0, &mut area[..79], 3), Err(Refusal(21)));
    assert_eq!(Walk::start_guarded(&example(9), 0, &mut area, 1), Ok(Walk::start()));
    assert_eq!(Walk::start_bounded(&TWO, 1), Ok(walk(1, 0, End::Going, 1)));
    assert_eq!(Walk::start_bounded(&TWO, 2), Ok(walk(2, 0, End::Going, 2)));
    assert_eq!(Walk::start_bounded(&TWO, 0), Err(Refusal(33)));
    assert_eq!(Walk::start_bounded(&TWO[..73], 0), Err(Refusal(11)));
    assert_eq!(Walk::start_bounded(&BOUNDED, 1), Ok(Walk::start()));
    // A budget that nothing fits has the entry 0.
    let mut output = [9; 63];
    let unfit = build(&sheet, 0, &mut area, &mut output).unwrap();
    assert_eq!(unfit[..8], [0, 9, 11, 2, 4, 9, 0, 1]);
    assert_eq!(Walk::start_bounded(unfit, 1), Ok(walk(1, 0, End::Diverted, 1)));
}

#[test]
fn the_same_choices_under_two_budgets() {
    // Under 5 cycles the second choice is diverted at block 3, under 9 the fourth at block 6.
    for (number, moves, guarded_end, bounded_end) in [
        (1, 2, walk(3, 2, End::Diverted, 1), walk(4, 2, End::Diverted, 1)),
        (2, 4, walk(6, 7, End::Diverted, 2), walk(9, 4, End::Diverted, 2)),
    ] {
        let mut area = [7; 80];
        let sheet = with_two_budgets(5, 9);
        let mut guarded = Walk::start_guarded(&sheet, 0, &mut area, number).unwrap();
        let mut bounded = Walk::start_bounded(&TWO, number).unwrap();
        for choice in &[1, 2, 1, 2][..moves] {
            assert_eq!(guarded.guarded_move(&sheet, 0, &mut area, *choice), Ok(()));
            assert_eq!(bounded.bounded_move(&TWO, *choice), Ok(()));
        }
        assert_eq!((guarded, bounded), (guarded_end, bounded_end));
        assert_eq!(guarded.guarded_move(&sheet, 0, &mut area, 1), Err(Refusal(32)));
        assert_eq!(bounded.bounded_move(&TWO, 1), Err(Refusal(32)));
    }
}

#[test]
fn a_build_with_a_handler() {
    // 9 cycles are claimed: with 1 for the handler the sheet is that of 8. Of 12 with 3 it is that of 9.
    for (claimed, handler, sheet) in [(9, 1, &EIGHT[..]), (8, 0, &EIGHT), (12, 3, &BOUNDED), (9, 0, &BOUNDED), (500, 491, &BOUNDED)] {
        let mut area = [7; MOST_AREA];
        let mut output = [9; MOST_OUTPUT];
        assert_eq!(build(&example(claimed), handler, &mut area, &mut output), Ok(sheet));
        // The work area goes by what is left: 9 or 10 costs for each of 8 blocks.
        let filled = 8 * usize::from(sheet[2] + 1);
        assert!(area[..filled].iter().all(|byte| *byte < 2) && area[filled..].iter().all(|byte| *byte == 7));
        assert!(output[sheet.len()..].iter().all(|word| *word == 9));
        let mut weighed = [7; MOST_AREA];
        assert_eq!(weigh(&example(claimed), handler, &mut weighed), Ok(()));
        assert_eq!(weighed, area);
        assert_eq!(weigh(&example(claimed), handler, &mut area[..filled - 1]), Err(Refusal(21)));
        assert_eq!(build(&example(claimed), handler, &mut area[..filled], &mut output[..sheet.len() - 1]), Err(Refusal(22)));
    }
    let mut area = [7; 80];
    let mut output = [9; 74];
    assert_eq!(build(&with_two_budgets(8, 12), 3, &mut area, &mut output), Ok(&TWO[..]));
    // Nothing fits the first budget where the handler costs all of it.
    let unfit = build(&with_two_budgets(3, 12), 3, &mut area, &mut output).unwrap();
    assert_eq!(unfit[..8], [0, 9, 11, 2, 0, 9, 0, 1]);
    assert_eq!(unfit[8..], BOUNDED[3..]);
}

#[test]
fn a_handler_above_the_smallest_budget() {
    let mut area = [7; 80];
    let mut output = [9; 74];
    // With all of the 9 cycles for the handler nothing fits; the area has one cost for each block.
    assert_eq!(build(&example(9), 9, &mut area, &mut output), Err(Refusal(9)));
    assert_eq!((&area[..8], area[8]), (&[0, 1, 0, 0, 0, 0, 0, 0][..], 7));
    let mut area = [7; 80];
    for (sheet, handler, number) in [
        (example(9).to_vec(), 10, 43),
        (example(9).to_vec(), 65535, 43),
        (with_two_budgets(5, 9), 6, 43),
        (with_two_budgets(5, 9), 10, 43),
        // After 4 and 41, before 5 and 21.
        (example(501).to_vec(), 502, 4),
        (with_two_budgets(5, 501), 6, 4),
        (with_two_budgets(9, 9), 10, 41),
        ([&[8, 9, 9, 1], &example(9)[4..]].concat(), 10, 43),
        ([&[8, 9, 9, 1], &example(9)[4..]].concat(), 9, 5),
    ] {
        assert_eq!(build(&sheet, handler, &mut area, &mut output), Err(Refusal(number)));
        assert_eq!(weigh(&sheet, handler, &mut area), Err(Refusal(number)));
        assert_eq!(weigh(&sheet, handler, &mut []), Err(Refusal(number)));
        assert_eq!(Walk::start_guarded(&sheet, handler, &mut area, 9), Err(Refusal(number)));
        let mut lent = walk(9, 600, End::Going, 9);
        assert_eq!(lent.guarded_move(&sheet, handler, &mut area, 0), Err(Refusal(number)));
        assert_eq!(lent, walk(9, 600, End::Going, 9));
    }
    assert_eq!((area, output), ([7; 80], [9; 74]));
    assert_eq!(check_graph(&example(0)), Ok(()));
    assert_eq!(Refusal(43).to_string(), "refused 43: a handler that costs more than the smallest budget");
}

#[test]
fn walks_with_a_handler() {
    // Claimed 8 and 12 with 3 for the handler: the walks of 5 and 9.
    let sheet = with_two_budgets(8, 12);
    for (number, moves, cycles, guarded_end, bounded_end) in [
        (1, 2, 2, walk(3, 2, End::Diverted, 1), walk(4, 2, End::Diverted, 1)),
        (2, 4, 7, walk(6, 7, End::Diverted, 2), walk(9, 4, End::Diverted, 2)),
    ] {
        let mut area = [7; 80];
        let mut guarded = Walk::start_guarded(&sheet, 3, &mut area, number).unwrap();
        let mut bounded = Walk::start_bounded(&TWO, number).unwrap();
        for choice in &[1, 2, 1, 2][..moves] {
            assert_eq!(guarded.guarded_move(&sheet, 3, &mut area, *choice), Ok(()));
            assert_eq!(bounded.bounded_move(&TWO, *choice), Ok(()));
        }
        assert_eq!((guarded, bounded), (guarded_end, bounded_end));
        // The diverted run and the handler are within the claimed budget.
        assert_eq!(guarded.count, cycles);
        assert!(cycles + 3 <= [8, 12][usize::from(number) - 1]);
        // A count above the lowered budget is out of shape, also within the claimed one.
        let most = [5, 9][usize::from(number) - 1];
        assert_eq!(walk(3, most, End::Diverted, number).guarded_move(&sheet, 3, &mut area, 1), Err(Refusal(32)));
        assert_eq!(walk(3, most + 1, End::Diverted, number).guarded_move(&sheet, 3, &mut area, 1), Err(Refusal(33)));
        assert_eq!(walk(3, most + 1, End::Diverted, number).guarded_move(&sheet, 2, &mut [7; 88], 1), Err(Refusal(32)));
    }
    // With 4 for the handler nothing fits the first budget, and the walk starts diverted.
    assert_eq!(Walk::start_guarded(&sheet, 4, &mut [7; 72], 1), Ok(walk(1, 0, End::Diverted, 1)));
    assert_eq!(Walk::start_guarded(&sheet, 4, &mut [7; 72], 2), Ok(walk(1, 0, End::Going, 2)));
    assert_eq!(Walk::start_guarded(&sheet, 4, &mut [7; 71], 2), Err(Refusal(21)));
    assert_eq!(Walk::start_guarded(&sheet, 4, &mut [7; 72], 3), Err(Refusal(33)));
}

#[test]
fn operations_for_costs() {
    let operations = with_operations(&example(9), 3);
    let mut output = [7; MOST_GRAPH];
    assert_eq!(convert_operations(&operations, &mut output), Ok(&example(9)[..]));
    assert!(output[37..].iter().all(|word| *word == 7));
    let two = with_operations(&with_two_budgets(5, 9), 6);
    assert_eq!(convert_operations(&two, &mut output), Ok(&with_two_budgets(5, 9)[..]));
    // The graph sheet is built as it stands in the row.
    let mut row = [7; 37];
    let sheet = convert_operations(&operations, &mut row).unwrap();
    assert_eq!(check_graph(sheet), Ok(()));
    assert_eq!(build(sheet, 0, &mut [7; 80], &mut [9; 52]), Ok(&BOUNDED[..]));
    // Refusals keep the row: a word too few, a budget above 500, an operation above 15, a block with none; a row too short comes last.
    let mut output = [7; 37];
    let mut refused = |words: &[u16], length: usize| {
        let answer = convert_operations(words, &mut output[..length]).map(<[u16]>::len);
        assert_eq!(output, [7; 37]);
        answer
    };
    let changed = |place: usize, word: u16| {
        let mut words = operations.clone();
        words[place] = word;
        words
    };
    assert_eq!(refused(&operations[..55], 37), Err(Refusal(3)));
    assert_eq!(refused(&example(9), 37), Err(Refusal(3)));
    assert_eq!(refused(&changed(2, 501), 37), Err(Refusal(4)));
    assert_eq!(refused(&changed(19, 1), 37), Err(Refusal(6)));
    assert_eq!(refused(&changed(38, 16), 37), Err(Refusal(42)));
    assert_eq!(refused(&changed(7, 0), 36), Err(Refusal(42)));
    assert_eq!(refused(&operations, 36), Err(Refusal(22)));
    assert_eq!(refused(&operations, 0), Err(Refusal(22)));
    assert_eq!(
        Refusal(42).to_string(),
        "refused 42: not at most 4,096 operations from 0 to 15, each in one chain, some for every block but 1 and 2"
    );
}
