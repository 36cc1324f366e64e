// compare SEED COUNT: so many random graphs, with builds, walks, handlers and hostile sheets, and as many operation sheets, given to library and
// reference. It rests on cases.rs; it prints what was run and every difference, and its status is 1 where there is one.

use compare::cases::{self, Tally};
use reference::random::{self, Random};
use std::process::ExitCode;

fn main() -> ExitCode {
    let arguments: Vec<u64> = std::env::args().skip(1).filter_map(|word| word.parse().ok()).collect();
    let [seed, count] = arguments[..] else {
        eprintln!("usage: compare SEED COUNT");
        return ExitCode::from(2);
    };
    let mut random = Random::new(seed);
    // Operation sheets and handlers have a generator each, so that they leave the graphs of a seed as they are.
    let mut of_operations = Random::new(seed);
    let mut of_handlers = Random::new(seed);
    // What is called with no cost of a handler, and what is called with some.
    let (mut tally, mut handled) = (Tally::new(), Tally::new());
    let mut handlers = 0;
    for _ in 0..count {
        let sheet = cases::graph(&mut random);
        cases::sheet_case(&mut random, &mut tally, &sheet);
        let built = cases::build_case(&mut random, &mut tally, &sheet, 0);
        cases::guarded_case(&mut random, &mut tally, &sheet, 0);
        if let Some(bounded) = &built {
            cases::run_case(&mut random, &mut tally, &sheet, 0, bounded);
            cases::bounded_case(&mut random, &mut tally, bounded);
        }
        let bounded = cases::any_bounded(&mut random);
        cases::bounded_case(&mut random, &mut tally, &bounded);
        cases::endless_case(&mut random, &mut tally, &sheet, 0, &bounded);
        let operations = cases::any_operations(&mut of_operations);
        cases::operation_case(&mut of_operations, &mut tally, &operations);
        let handler = random::handler(&mut of_handlers, &sheet);
        if handler > 0 {
            handlers += 1;
            cases::handler_case(&mut of_handlers, &mut handled, &sheet, handler);
        }
        if tally.differences.len() + handled.differences.len() > 20 {
            break;
        }
    }
    println!(
        "graphs {count} seed {seed} calls {} built {}, {} of them of the second version, moves in lists {}, operation sheets converted {}",
        tally.calls, tally.built, tally.built_second, tally.moves, tally.converted
    );
    println!(
        "with a handler: graphs {handlers} calls {} built {}, {} of them of the second version, moves in lists {}, 43 answered {} times",
        handled.calls, handled.built, handled.built_second, handled.moves, handled.answers[43]
    );
    for (number, (times, more)) in tally.answers.iter().zip(&handled.answers).enumerate().filter(|(_, (times, more))| **times + **more > 0) {
        println!("answer {number}: {times}, with a handler {more}");
    }
    let differences = [tally.differences, handled.differences].concat();
    for difference in &differences {
        println!("{difference}");
    }
    println!("differences {}", differences.len());
    ExitCode::from(u8::from(!differences.is_empty()))
}
