// measure: the library's times beside those of the reference, the plain build and the tuned one, same inputs, one run.
// It rests on the wrapper, plain.rs, tuned.rs, sheets.rs and the reference; every answer, area and output is held to the reference's first.
//
// A time is the least of 9 rounds, each the mean of as many calls as take about 1 ms; in a round all are timed one after the other.
// The buffers are not cleared between calls.

use compare::{plain, sheets, tuned};
use gilstavo::raw;
use reference::{corpus, filled_words, Walk};
use std::hint::black_box;
use std::time::Instant;

const ROUNDS: usize = 9;

/// How many calls take about 1 ms.
fn calls_of(call: &mut dyn FnMut()) -> usize {
    let began = Instant::now();
    call();
    let once = began.elapsed().as_secs_f64().max(1e-8);
    ((1e-3 / once) as usize).clamp(1, 10000)
}

/// Microseconds of one call of each, measured in turn, round by round.
fn timed(calls: &mut [&mut dyn FnMut()]) -> Vec<f64> {
    let counts: Vec<usize> = calls.iter_mut().map(|call| calls_of(call)).collect();
    let mut least = vec![f64::MAX; calls.len()];
    for _ in 0..ROUNDS {
        for (index, call) in calls.iter_mut().enumerate() {
            let began = Instant::now();
            for _ in 0..counts[index] {
                call();
            }
            least[index] = least[index].min(began.elapsed().as_secs_f64() / counts[index] as f64);
        }
    }
    least.iter().map(|seconds| seconds * 1e6).collect()
}

struct Times {
    answer: u16,
    copies: u16,
    edges: u16,
    library: f64,
    tuned: f64,
    plain: f64,
    reference: f64,
}

/// The build of one sheet with no cost of a handler, four times over.
fn build(sheet: &[u16]) -> Times {
    build_with(sheet, 0)
}

fn build_with(sheet: &[u16], handler: u16) -> Times {
    let mut rows = tuned::Workspace::default();
    let mut area = vec![7; gilstavo::MOST_AREA];
    let mut output = vec![9; gilstavo::MOST_OUTPUT];
    let wanted = reference::build(sheet, handler, &area, &output);
    let (mut other_area, mut other_output) = (area.clone(), output.clone());
    let (mut third_area, mut third_output) = (area.clone(), output.clone());
    let answer = raw::build(sheet, handler, &mut area, &mut output);
    let other = plain::build(sheet, handler, &mut other_area, &mut other_output);
    assert_eq!((answer, &area, &output), (wanted.answer, &wanted.area, &wanted.output), "{sheet:?}");
    assert_eq!((other, &other_area, &other_output), (wanted.answer, &wanted.area, &wanted.output), "{sheet:?}");
    let third = rows.build(sheet, handler, &mut third_area, &mut third_output);
    assert_eq!((third, &third_area, &third_output), (wanted.answer, &wanted.area, &wanted.output), "{sheet:?}");
    let sizes = usize::from(output[0] == 0);
    let (copies, edges) = if answer == 0 { (output[sizes], output[sizes + 1]) } else { (0, 0) };
    let (kept_area, kept_output) = (area.clone(), output.clone());
    let took = timed(&mut [
        &mut || {
            black_box(raw::build(black_box(sheet), handler, &mut area, &mut output));
        },
        &mut || {
            black_box(rows.build(black_box(sheet), handler, &mut third_area, &mut third_output));
        },
        &mut || {
            black_box(plain::build(black_box(sheet), handler, &mut other_area, &mut other_output));
        },
        &mut || {
            black_box(reference::build(black_box(sheet), handler, &kept_area, &kept_output));
        },
    ]);
    Times { answer, copies, edges, library: took[0], tuned: took[1], plain: took[2], reference: took[3] }
}

fn show(name: &str, t: &Times) {
    let what = if t.answer == 0 { format!("{} copies, {} edges", t.copies, t.edges) } else { format!("refused {}", t.answer) };
    println!(
        "{name} ({what}): {:.1} µs; tuned {:.1}, ratio {:.2}; plain {:.1}, ratio {:.2}; reference {:.1}, ratio {:.2}",
        t.library,
        t.tuned,
        t.library / t.tuned,
        t.plain,
        t.library / t.plain,
        t.reference,
        t.library / t.reference
    );
}

/// The library's times of the accepted largest graphs, claimed 500 with a handler of 100 and claimed 400 with none.
fn lowered() {
    let sheets = sheets::lowered();
    let (mut with_handler, mut without) = (0.0, 0.0);
    for [first, second] in &sheets {
        // Every build is held to the reference, and then both of the library are timed in turn.
        assert_eq!((build_with(&first.0, first.1).answer, build_with(&second.0, second.1).answer), (0, 0));
        let took = pair(first, second);
        with_handler += took[0];
        without += took[1];
    }
    println!(
        "the {} accepted ones claimed 500 with a handler of 100: {with_handler:.1} µs in all; claimed 400 with none: {without:.1}, ratio {:.2}",
        sheets.len(),
        with_handler / without
    );
}

/// The library's build of two sheets, each with its handler, in turn; both make the same area and the same words.
fn pair(first: &(Vec<u16>, u16), second: &(Vec<u16>, u16)) -> [f64; 2] {
    let mut rows = [first, second].map(|(sheet, handler)| {
        let (mut area, mut output) = (vec![7; gilstavo::MOST_AREA], vec![9; gilstavo::MOST_OUTPUT]);
        assert_eq!(raw::build(sheet, *handler, &mut area, &mut output), 0);
        (area, output)
    });
    assert_eq!(rows[0], rows[1]);
    let [one, other] = &mut rows;
    let took = timed(&mut [
        &mut || {
            black_box(raw::build(black_box(&first.0), first.1, &mut one.0, &mut one.1));
        },
        &mut || {
            black_box(raw::build(black_box(&second.0), second.1, &mut other.0, &mut other.1));
        },
    ]);
    [took[0], took[1]]
}

/// The times of some sheets: their sums, the means of their ratios, and the greatest ratio to the tuned build.
fn group(name: &str, times: Vec<&Times>) {
    let sum = |of: fn(&Times) -> f64| times.iter().map(|t| of(t)).sum::<f64>();
    let count = times.len() as f64;
    println!(
        "{name}: {count} sheets, mean {:.2} µs; ratio of the sums to tuned {:.2}, to plain {:.2}, to the reference {:.2}; mean ratio to tuned {:.2}, to plain {:.2}, to the reference {:.2}; greatest to tuned {:.2}",
        sum(|t| t.library) / count,
        sum(|t| t.library) / sum(|t| t.tuned),
        sum(|t| t.library) / sum(|t| t.plain),
        sum(|t| t.library) / sum(|t| t.reference),
        sum(|t| t.library / t.tuned) / count,
        sum(|t| t.library / t.plain) / count,
        sum(|t| t.library / t.reference) / count,
        times.iter().map(|t| t.library / t.tuned).fold(0.0, f64::max)
    );
}

fn main() {
    println!("THE CORPUS (seed 1, 400 random sheets and the named ones)");
    let sheets = corpus::corpus(1, 400);
    let times: Vec<Times> = sheets.iter().map(|sheet| build(sheet)).collect();
    group("all", times.iter().collect());
    group("accepted", times.iter().filter(|t| t.answer == 0).collect());
    group("refused 9 or 10", times.iter().filter(|t| t.answer > 8).collect());
    group("refused 1 to 8", times.iter().filter(|t| (1..=8).contains(&t.answer)).collect());

    println!("THE CORPUS OF THE SECOND VERSION (seed 1, 400 random sheets and the named ones)");
    let second: Vec<Times> = corpus::second_corpus(1, 400).iter().map(|sheet| build(sheet)).collect();
    group("all", second.iter().collect());
    group("accepted", second.iter().filter(|t| t.answer == 0).collect());
    group("refused 9 or 10", second.iter().filter(|t| matches!(t.answer, 9 | 10)).collect());
    group("refused 1 to 8 or 41", second.iter().filter(|t| matches!(t.answer, 1..=8 | 41)).collect());

    println!("BLOCKS IN A ROW, AND BLOCKS WITH EDGES TO ALL");
    for (name, sheets) in [("in a row", sheets::chains()), ("to all", sheets::dense())] {
        let times: Vec<Times> = sheets.iter().map(|sheet| build(sheet)).collect();
        group(name, times.iter().collect());
    }

    println!("THE LARGEST GRAPHS (N = 128, E = 512, B = 500)");
    let largest: Vec<(&str, Times)> =
        sheets::largest().iter().map(|(name, sheet)| (*name, build(sheet))).collect();
    for (name, times) in &largest {
        show(name, times);
    }
    lowered();
    let yardstick =
        largest.iter().filter(|(_, t)| t.answer == 0).map(|(_, t)| t.library).fold(0.0, f64::max);

    println!("THE LARGEST GRAPHS IN THE SECOND VERSION, WITH ONE BUDGET AND WITH FOUR (125, 250, 375, 500)");
    for ((name, sheet), (_, first)) in sheets::largest().iter().zip(&largest) {
        let [one, four] = sheets::with_one_and_four(sheet).map(|sheet| build(&sheet));
        show(&format!("{name}, one budget"), &one);
        show(&format!("{name}, four budgets"), &four);
        println!(
            "{name}: to the first version, one budget {:.2}, four {:.2}; four to one {:.2}",
            one.library / first.library,
            four.library / first.library,
            four.library / one.library
        );
    }

    println!("EDGES SIDE BY SIDE, AND THE LEAST SHEETS");
    for (name, sheet) in &sheets::parallel() {
        show(name, &build(sheet));
    }

    println!("THE WORST SHEETS");
    let names = [
        "one chain of 511 edges",
        "126 blocks, 63,002 copies if none stops it",
        "C = 4,096, F = 8,189",
        "C = 4,096, F = 8,192",
        "F = 8,193",
        "C = 4,097",
    ];
    let worst: Vec<Times> = corpus::worst().iter().map(|sheet| build(sheet)).collect();
    for (name, times) in names.iter().zip(&worst) {
        show(name, times);
    }
    println!("THE WORST SHEETS OF THE SECOND VERSION");
    let second_worst: Vec<Times> = corpus::second_worst().iter().map(|sheet| build(sheet)).collect();
    for (name, times) in names.iter().zip(&second_worst) {
        show(&format!("{name}, four budgets"), times);
    }
    let slowest = times.iter().chain(&second).chain(&worst).chain(&second_worst).chain(largest.iter().map(|(_, t)| t)).fold(&worst[0], |a, b| {
        if b.library > a.library {
            b
        } else {
            a
        }
    });
    println!(
        "the slowest of all: {:.1} µs, {:.2} times the slowest largest graph that is accepted ({:.1} µs); to plain {:.2}, to the reference {:.2}",
        slowest.library,
        slowest.library / yardstick,
        yardstick,
        slowest.library / slowest.plain,
        slowest.library / slowest.reference
    );

    println!("GROWTH (64 blocks: costs 50 to 95, accepted; costs 5 to 9, refused 9, so that almost all is weighing)");
    for (edges, budget) in [(256, 125), (256, 250), (256, 375), (256, 500), (128, 250), (384, 250), (512, 250)] {
        let product = edges as f64 * f64::from(budget);
        let built = build(&sheets::family(edges, budget, 50, 95, 0));
        let weighed = build(&sheets::family(edges, budget, 5, 9, 60000));
        assert_eq!((built.answer, weighed.answer), (0, 9));
        println!(
            "E {edges} B {budget}: {:.1} µs and {:.1}, {:.2} and {:.2} ns for each edge and cycle",
            built.library,
            weighed.library,
            built.library * 1e3 / product,
            weighed.library * 1e3 / product
        );
    }

    println!("MOVES");
    let (_, sheet) = &sheets::largest()[4];
    let mut area = vec![7; gilstavo::MOST_AREA];
    let mut output = vec![9; gilstavo::MOST_OUTPUT];
    assert_eq!(raw::build(sheet, 0, &mut area, &mut output), 0);
    moves("first version", sheet, &mut area, &output[..filled_words(&output)], 1);
    let [_, four] = sheets::with_one_and_four(sheet);
    assert_eq!(raw::build(&four, 0, &mut area, &mut output), 0);
    moves("four budgets, the last", &four, &mut area, &output[..filled_words(&output)], 4);
}

/// The times of the starts with this budget number, and of the first moves behind them, with no cost of a handler.
fn moves(name: &str, sheet: &[u16], area: &mut [u8], bounded: &[u16], number: u16) {
    let kept_area = area.to_vec();
    let guarded = Walk { budget: u32::from(number), ..Walk::start() };
    let walked = reference::start_bounded(bounded, u32::from(number)).1.expect("a budget number of the sheet");
    let (guarded_row, bounded_row) = ([1, 0, 0, number], [walked.place as u16, 0, 0, number]);
    // The area is lent to one call at a time.
    let area = std::cell::RefCell::new(area);
    let took = timed(&mut [
        &mut || {
            black_box(raw::guarded_move(black_box(sheet), 0, &mut area.borrow_mut(), &mut guarded_row.clone(), 1));
        },
        &mut || {
            black_box(reference::guarded_move(black_box(sheet), 0, &kept_area, guarded, 1));
        },
        &mut || {
            black_box(raw::bounded_move(black_box(bounded), &mut bounded_row.clone(), 1));
        },
        &mut || {
            black_box(reference::bounded_move(black_box(bounded), walked, 1));
        },
        &mut || {
            black_box(raw::start_guarded(black_box(sheet), 0, &mut area.borrow_mut(), &mut [0; 4], number));
        },
        &mut || {
            black_box(reference::start_guarded(black_box(sheet), 0, &kept_area, u32::from(number)));
        },
        &mut || {
            black_box(raw::start_bounded(black_box(bounded), &mut [0; 4], number));
        },
        &mut || {
            black_box(reference::start_bounded(black_box(bounded), u32::from(number)));
        },
    ]);
    let calls = ["a guarded move on a largest graph", "a bounded move on its bounded sheet", "a guarded start", "a bounded start"];
    for (call, pair) in calls.iter().zip(took.chunks(2)) {
        println!("{call}, {name}: {:.1} µs, reference {:.1}, ratio {:.2}", pair[0], pair[1], pair[0] / pair[1]);
    }
}
