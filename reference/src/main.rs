// The command line tool: a listing, a build, a report, a conversion, random cases, corpora and catalogues of sheets, sheets from text; see USAGE.
// It rests on the library and its random material; it prints what the library answers.

use reference::{catalogue, corpus};
use reference::random::{self, area_length, bounded_words, graph_words, length_near, operation_words, Random, Size};
use reference::{
    bounded_move, build, check_bounded, check_graph, convert_operations, converted_file, copies_at, edge_words, filled_words, guarded_move,
    listing, report, start_bounded, start_guarded, successor_count, End, Monitor, Walk, LARGEST_AREA, LARGEST_OUTPUT,
};
use std::io::{self, BufWriter, Read, Write};
use std::process::ExitCode;

const USAGE: &str = "usage: reference listing < sheet
       reference build [HANDLER] < decimal words
       reference encode < decimal words > sheet
       reference report < catalogue
       reference operations < operation sheet > sheet
       reference corpus SEED COUNT > sheets
       reference second_corpus SEED COUNT > sheets
       reference worst > sheets
       reference second_worst > sheets
       reference listings < sheets
       reference catalogue SEED COUNT > catalogue
       reference catalogue_example > catalogue
       reference catalogue_second > catalogue
       reference catalogue_full > catalogue
       reference catalogue_long_lines > catalogue
       reference cases SEED COUNT tiny|small|any [KIND]";

/// What makes a case as fields of a line.
enum Maker {
    Plain(fn(&mut Random, Size) -> Vec<String>),
    Handled(Handled),
}

/// A case with a handler: what makes its graph sheet, the handler's cost for it, and the fields of both.
struct Handled {
    sheet: fn(&mut Random, Size) -> Vec<u16>,
    handler: fn(&mut Random, &[u16]) -> u16,
    fields: fn(&mut Random, &[u16], u16) -> Vec<String>,
}

/// A kind of case: its name and its maker.
type Kind = (&'static str, Maker);

/// The kinds in the order in which they take turns.
const KINDS: [Kind; 12] = [
    ("graph", Maker::Plain(graph_case)),
    ("count", Maker::Plain(count_case)),
    ("build", Maker::Handled(Handled { sheet: mostly_valid, handler: random::handler, fields: build_case })),
    ("bounded", Maker::Plain(bounded_case)),
    ("guarded", Maker::Handled(Handled { sheet: mostly_buildable, handler: random::handler, fields: guarded_case })),
    ("move", Maker::Plain(move_case)),
    ("part", Maker::Plain(part_case)),
    ("start_guarded", Maker::Handled(Handled { sheet: mostly_buildable, handler: random::handler, fields: start_guarded_case })),
    ("start_bounded", Maker::Plain(start_bounded_case)),
    ("run", Maker::Handled(Handled { sheet: rather_diverting, handler: accepted_handler, fields: run_case })),
    ("report", Maker::Plain(report_case)),
    ("convert", Maker::Plain(convert_case)),
];

fn main() -> ExitCode {
    let arguments: Vec<String> = std::env::args().skip(1).collect();
    let arguments: Vec<&str> = arguments.iter().map(String::as_str).collect();
    let done = match arguments[..] {
        ["listing"] => print_listing(),
        ["build"] => print_build(0),
        ["build", handler] => match handler.parse() {
            Ok(handler) => print_build(handler),
            Err(_) => return usage(),
        },
        ["encode"] => print_encoded(),
        ["report"] => print_report(),
        ["operations"] => print_converted(),
        ["listings"] => print_listings(),
        ["worst"] => print_sheets(corpus::worst()),
        ["second_worst"] => print_sheets(corpus::second_worst()),
        ["corpus", seed, count] | ["second_corpus", seed, count] => match (seed.parse(), count.parse()) {
            (Ok(seed), Ok(count)) if arguments[0] == "corpus" => print_sheets(corpus::corpus(seed, count)),
            (Ok(seed), Ok(count)) => print_sheets(corpus::second_corpus(seed, count)),
            _ => return usage(),
        },
        ["catalogue_second"] => io::stdout().lock().write_all(&catalogue::second_example()),
        ["catalogue_full"] => io::stdout().lock().write_all(&catalogue::full()),
        ["catalogue_long_lines"] => io::stdout().lock().write_all(&catalogue::long_lines()),
        ["catalogue_example"] => io::stdout().lock().write_all(&catalogue::example()),
        ["catalogue", seed, count] => match (seed.parse(), count.parse()) {
            (Ok(seed), Ok(count)) => io::stdout().lock().write_all(&catalogue::catalogue(seed, count)),
            _ => return usage(),
        },
        ["cases", seed, count, size] | ["cases", seed, count, size, _] => {
            let kinds: Vec<_> = KINDS.iter().filter(|(name, _)| arguments.get(4).map_or(true, |kind| kind == name)).collect();
            match (seed.parse(), count.parse(), size_named(size)) {
                (Ok(seed), Ok(count), Some(size)) if !kinds.is_empty() => print_cases(seed, count, size, &kinds),
                _ => return usage(),
            }
        }
        _ => return usage(),
    };
    match done {
        Ok(()) => ExitCode::SUCCESS,
        Err(error) if error.kind() == io::ErrorKind::BrokenPipe => ExitCode::SUCCESS,
        Err(error) => {
            eprintln!("{error}");
            ExitCode::from(1)
        }
    }
}

fn usage() -> ExitCode {
    eprintln!("{USAGE}");
    ExitCode::from(2)
}

fn size_named(name: &str) -> Option<Size> {
    match name {
        "tiny" => Some(Size::Tiny),
        "small" => Some(Size::Small),
        "any" => Some(Size::Any),
        _ => None,
    }
}

fn print_listing() -> io::Result<()> {
    let mut bytes = Vec::new();
    io::stdin().lock().read_to_end(&mut bytes)?;
    io::stdout().lock().write_all(listing(&bytes).as_bytes())
}

fn print_report() -> io::Result<()> {
    let mut bytes = Vec::new();
    io::stdin().lock().read_to_end(&mut bytes)?;
    io::stdout().lock().write_all(report(&bytes).as_bytes())
}

fn print_converted() -> io::Result<()> {
    let mut bytes = Vec::new();
    io::stdin().lock().read_to_end(&mut bytes)?;
    io::stdout().lock().write_all(&converted_file(&bytes))
}

/// The listing of each sheet of a corpus file.
fn print_listings() -> io::Result<()> {
    let mut bytes = Vec::new();
    io::stdin().lock().read_to_end(&mut bytes)?;
    let mut out = BufWriter::new(io::stdout().lock());
    for sheet in corpus::decoded(&bytes) {
        out.write_all(listing(sheet).as_bytes())?;
    }
    out.flush()
}

fn print_sheets(sheets: Vec<Vec<u16>>) -> io::Result<()> {
    io::stdout().lock().write_all(&corpus::encoded(&sheets))
}

/// The decimal words of a text on standard input; `#` to the end of a line is a comment. What is no word is an error.
fn read_text() -> io::Result<Vec<u16>> {
    let mut text = String::new();
    io::stdin().lock().read_to_string(&mut text)?;
    let words = text.lines().flat_map(|line| line.split('#').next().unwrap_or("").split_whitespace());
    words.map(|word| word.parse().map_err(|error| io::Error::other(format!("{word}: {error}")))).collect()
}

/// The words of a text as a file has them: two bytes each, the lower first.
fn print_encoded() -> io::Result<()> {
    let bytes: Vec<u8> = read_text()?.iter().flat_map(|word| word.to_le_bytes()).collect();
    io::stdout().lock().write_all(&bytes)
}

/// A build with a handler of this cost and buffers that are long enough: the answer, and the words that it fills.
fn print_build(handler: u16) -> io::Result<()> {
    let built = build(&read_text()?, handler, &[0; LARGEST_AREA], &[0; LARGEST_OUTPUT]);
    let filled = match built.answer {
        0 => filled_words(&built.output),
        _ => 0,
    };
    println!("{}\t{}", built.answer, row(&built.output[..filled]));
    Ok(())
}

/// The kinds take turns. Catalogues, operation sheets and handlers have a generator each, so that they leave the other cases of a seed as
/// they are.
fn print_cases(seed: u64, count: usize, size: Size, kinds: &[&Kind]) -> io::Result<()> {
    let mut random = Random::new(seed);
    let mut of_catalogues = Random::new(seed);
    let mut of_operations = Random::new(seed);
    let mut of_handlers = Random::new(seed);
    let mut out = BufWriter::new(io::stdout().lock());
    for index in 0..count {
        let (name, maker) = kinds[index % kinds.len()];
        let generator = match *name {
            "report" => &mut of_catalogues,
            "convert" => &mut of_operations,
            _ => &mut random,
        };
        let fields = match maker {
            Maker::Plain(case) => case(generator, size),
            Maker::Handled(case) => handled_case(generator, &mut of_handlers, size, case),
        };
        writeln!(out, "{}", fields.join("\t"))?;
    }
    out.flush()
}

/// A case with a handler. The one of cost 0 is made first and draws from `random` alone, so that the next sheets do not hang on the cost.
fn handled_case(random: &mut Random, of_handlers: &mut Random, size: Size, case: &Handled) -> Vec<String> {
    let words = (case.sheet)(random, size);
    let without = (case.fields)(random, &words, 0);
    match (case.handler)(of_handlers, &words) {
        0 => without,
        handler => (case.fields)(of_handlers, &words, handler),
    }
}

/// Numbers separated by single spaces.
fn row<T: ToString>(numbers: &[T]) -> String {
    let texts: Vec<String> = numbers.iter().map(|number| number.to_string()).collect();
    texts.join(" ")
}

fn walk_text(walk: Walk) -> String {
    let end = match walk.end {
        End::Going => 0,
        End::Exit => 1,
        End::Diverted => 2,
    };
    format!("{} {} {} {}", walk.place, walk.count, end, walk.budget)
}

fn graph_case(random: &mut Random, size: Size) -> Vec<String> {
    let words = graph_words(random, size, 30);
    vec!["graph".into(), row(&words), check_graph(&words).to_string()]
}

/// N or C as the sheet's version has it; 3 for a row without it.
fn places(words: &[u16]) -> usize {
    let at = usize::from(words.first() == Some(&0));
    words.get(at).map_or(3, |places| usize::from(*places))
}

fn count_case(random: &mut Random, size: Size) -> Vec<String> {
    let words = graph_words(random, size, 70);
    let blocks = places(&words);
    let block = match random.below(10) {
        0 => random.pick(&[0, blocks + 1, 65535]).min(65535),
        1 => 2,
        _ => random.between(1, blocks),
    };
    let (answer, count) = successor_count(&words, block as u16);
    vec!["count".into(), row(&words), block.to_string(), answer.to_string(), count.to_string()]
}

fn mostly_valid(random: &mut Random, size: Size) -> Vec<u16> {
    graph_words(random, size, 80)
}

fn build_case(random: &mut Random, words: &[u16], handler: u16) -> Vec<String> {
    let area_length = area_length(random, words, handler);
    let needed = match random::built_words(words, handler) {
        Some(built) => built.len(),
        None => random.below(20),
    };
    let output_length = length_near(random, needed);
    let built = build(words, handler, &vec![7; area_length], &vec![9; output_length]);
    vec![
        "build".into(),
        row(words),
        handler.to_string(),
        area_length.to_string(),
        output_length.to_string(),
        built.answer.to_string(),
        row(&built.area),
        row(&built.output),
    ]
}

fn bounded_case(random: &mut Random, size: Size) -> Vec<String> {
    let words = bounded_words(random, size, 30);
    vec!["bounded".into(), row(&words), check_bounded(&words).to_string()]
}

/// A graph sheet of either version whose build is accepted with a handler of cost 0.
fn buildable(random: &mut Random, size: Size) -> Vec<u16> {
    if random.chance(40) {
        random::buildable_graph(random, size)
    } else {
        random::buildable_second_graph(random, size)
    }
}

/// Mostly such a graph sheet.
fn mostly_buildable(random: &mut Random, size: Size) -> Vec<u16> {
    if random.chance(70) {
        buildable(random, size)
    } else {
        graph_words(random, size, 60)
    }
}

fn guarded_case(random: &mut Random, words: &[u16], handler: u16) -> Vec<String> {
    let area_length = area_length(random, words, handler);
    let walk = random::graph_walk(random, words, handler);
    let choice = random::graph_choice(random, words, walk);
    let (answer, after, area) = guarded_move(words, handler, &vec![7; area_length], walk, choice);
    vec![
        "guarded".into(),
        row(words),
        handler.to_string(),
        area_length.to_string(),
        walk_text(walk),
        choice.to_string(),
        answer.to_string(),
        walk_text(after),
        row(&area),
    ]
}

fn move_case(random: &mut Random, size: Size) -> Vec<String> {
    let words = bounded_words(random, size, 80);
    let walk = random::bounded_walk(random, &words);
    let choice = random::bounded_choice(random, &words, walk);
    let (answer, after) = bounded_move(&words, walk, choice);
    vec![
        "move".into(),
        row(&words),
        walk_text(walk),
        choice.to_string(),
        answer.to_string(),
        walk_text(after),
    ]
}

fn part_case(random: &mut Random, size: Size) -> Vec<String> {
    let words = bounded_words(random, size, 80);
    let copies = places(&words);
    let copy = match random.below(8) {
        0 => random.pick(&[0, copies + 1, 65535, 65537, 4294967295]),
        1 => 2,
        _ => random.between(1, copies),
    };
    let (answer, part) = edge_words(&words, copy as u32);
    vec!["part".into(), row(&words), copy.to_string(), answer.to_string(), row(&part)]
}

/// The start of a guarded walk: the walk that is lent, the budget number, and what the call leaves.
fn start_guarded_case(random: &mut Random, words: &[u16], handler: u16) -> Vec<String> {
    let area_length = area_length(random, words, handler);
    let walk = random::graph_walk(random, words, handler);
    let number = random::budget_number(random, words);
    let (answer, set, area) = start_guarded(words, handler, &vec![7; area_length], number);
    vec![
        "start_guarded".into(),
        row(words),
        handler.to_string(),
        area_length.to_string(),
        walk_text(walk),
        number.to_string(),
        answer.to_string(),
        walk_text(set.unwrap_or(walk)),
        row(&area),
    ]
}

fn start_bounded_case(random: &mut Random, size: Size) -> Vec<String> {
    let words = bounded_words(random, size, 80);
    let walk = random::bounded_walk(random, &words);
    let number = random::budget_number(random, &words);
    let (answer, set) = start_bounded(&words, number);
    vec![
        "start_bounded".into(),
        row(&words),
        walk_text(walk),
        number.to_string(),
        answer.to_string(),
        walk_text(set.unwrap_or(walk)),
    ]
}

/// Whether the build of this graph sheet with a handler of cost 0 is accepted and has a target 0.
fn has_diverted_edge(words: &[u16]) -> bool {
    let Some(sheet) = random::built_words(words, 0) else {
        return false;
    };
    sheet.iter().skip(copies_at(&sheet) + 3 * places(&sheet)).step_by(2).any(|target| *target == 0)
}

/// A graph sheet whose build is accepted, and where rather some edge is diverted, with a handler of cost 0.
fn rather_diverting(random: &mut Random, size: Size) -> Vec<u16> {
    let mut words = buildable(random, size);
    if random.chance(60) {
        for _ in 0..20 {
            if has_diverted_edge(&words) {
                break;
            }
            words = buildable(random, size);
        }
    }
    words
}

/// A handler's cost with which the build of this graph sheet is accepted, as it is with 0.
fn accepted_handler(random: &mut Random, words: &[u16]) -> u16 {
    for _ in 0..20 {
        let handler = random::handler(random, words);
        if random::built_words(words, handler).is_some() {
            return handler;
        }
    }
    0
}

/// A list of choices for the monitor with a budget number of the sheet: its answers and its last state.
fn run_case(random: &mut Random, words: &[u16], handler: u16) -> Vec<String> {
    let number = random::inside_number(random, words);
    let choices = random::choices(random, words, handler, number);
    let mut state = Walk::start();
    let mut answers = Vec::new();
    if let Ok(monitor) = Monitor::new(words, handler, number) {
        state = monitor.start();
        for choice in &choices {
            let (answer, after) = monitor.step(state, *choice);
            answers.push(answer);
            state = after;
        }
    }
    vec!["run".into(), row(words), handler.to_string(), number.to_string(), row(&choices), row(&answers), walk_text(state)]
}

/// The bytes of a catalogue, and the bytes of its report.
fn report_case(random: &mut Random, size: Size) -> Vec<String> {
    let bytes = catalogue::short_catalogue(random, size);
    vec!["report".into(), row(&bytes), row(report(&bytes).as_bytes())]
}

/// The conversion of an operation sheet: the length of the output row, and what the call leaves.
fn convert_case(random: &mut Random, size: Size) -> Vec<String> {
    let words = operation_words(random, size, 40);
    let mut output = vec![7; random::graph_row_length(random, &words)];
    let length = output.len();
    let answer = convert_operations(&words, &mut output);
    vec!["convert".into(), row(&words), length.to_string(), answer.to_string(), row(&output)]
}
