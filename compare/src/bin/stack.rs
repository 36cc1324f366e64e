// stack KB: builds the worst sheets, and the largest graphs, in a thread with so many KB of stack, and holds the answers to the reference's.
// It rests on the wrapper and the reference's worst sheets. Too small a stack ends the process with a signal.

use compare::sheets;
use std::process::ExitCode;

fn main() -> ExitCode {
    let Some(size) = std::env::args().nth(1).and_then(|word| word.parse::<usize>().ok()) else {
        eprintln!("usage: stack KB");
        return ExitCode::from(2);
    };
    let mut sheets = reference::corpus::worst();
    sheets.extend(reference::corpus::second_worst());
    for (_, sheet) in sheets::largest() {
        let [_, four] = sheets::with_one_and_four(&sheet);
        sheets.extend([sheet, four]);
    }
    sheets.push(sheets::deepest());
    sheets.push(reference::with_budgets(&sheets::deepest(), &[497, 498, 499, 500]));
    // With no cost of a handler; with one the descent is that of a smaller budget.
    let mut cases: Vec<(Vec<u16>, u16)> = sheets.into_iter().map(|sheet| (sheet, 0)).collect();
    cases.push((sheets::deepest(), 1));
    let mut failed = 0;
    for (sheet, handler) in cases {
        let wanted = reference::build(&sheet, handler, &[7; gilstavo::MOST_AREA], &[9; gilstavo::MOST_OUTPUT]);
        let heading = match sheet[0] {
            0 => format!("N {} E {} B {:?}", sheet[1], sheet[2], &sheet[4..4 + usize::from(sheet[3])]),
            _ => format!("N {} E {} B {}", sheet[0], sheet[1], sheet[2]),
        };
        let mut area = vec![7; gilstavo::MOST_AREA];
        let mut output = vec![9; gilstavo::MOST_OUTPUT];
        let thread = std::thread::Builder::new().stack_size(size * 1024).spawn(move || {
            let answer = gilstavo::raw::build(&sheet, handler, &mut area, &mut output);
            (answer, area, output)
        });
        let Ok(Ok((answer, area, output))) = thread.map(|thread| thread.join()) else {
            println!("no thread");
            return ExitCode::from(1);
        };
        let same = (answer, &area, &output) == (wanted.answer, &wanted.area, &wanted.output);
        failed += u8::from(!same);
        println!("{heading}, handler {handler}: answer {answer}, {}", if same { "agrees" } else { "DIFFERS" });
    }
    ExitCode::from(failed.min(1))
}
