//! `harness COMMAND ..`: see README.md.

use std::io::{self, Read, Write};
use std::path::Path;
use std::process::{Command, ExitCode, Stdio};

use harness::bench::{measure, range, tasks, Spread};
use harness::export::{stack_use, Entry};
use harness::subject::{Own, Programs, Subject};
use harness::{compare, demand, generate, picture, vectors};

const USAGE: &str = "\
harness calendar                   a plan on standard input, its calendar on standard output
harness dispatch                   a session on standard input, its answers on standard output
harness vectors DIR [WHAT]         the texts NAME.in of a folder, compared with their outputs NAME.out
harness game SEED COUNT [WHAT]     verdict, K and offers, compared with an exhaustive search over tiny plans
harness compare WHAT SEED COUNT    random plans, sessions and damaged texts, compared with this implementation
harness case SEED NUMBER           the text of one case of `compare`
harness corpus SEED COUNT DIR      sessions among the cases, each in a file
harness bench                      times of one call; with the feature `export` also ratios and stack use
harness figures                    the same in several processes, as the page docs/FIGURES.md (with the feature `export`)
harness picture SESSION ANSWERS J [NAMES]
                                   window J of a session as a picture in SVG, from the files of its text and of its answers
harness offers SESSION ANSWERS [NAMES]
                                   how the offers of a session move from window to window, as a picture in SVG

NAMES is a file with the name of a job on each line.
WHAT is a folder with the programs calendar and dispatch, `own`, or `export` (with the feature `export`).";

fn main() -> ExitCode {
    let arguments: Vec<String> = std::env::args().collect();
    let mut words: Vec<&str> = arguments.iter().map(String::as_str).collect();
    // Under the name of a program, it is that program.
    let name = Path::new(words.remove(0)).file_name().and_then(|name| name.to_str());
    if let Some(program @ ("calendar" | "dispatch")) = name {
        words = vec![program];
    }
    let passed = match words.as_slice() {
        ["calendar"] => filter(harness::calendar_output),
        ["dispatch"] => filter(harness::dispatch_output),
        ["vectors", folder] => compare_vectors(folder, "own"),
        ["vectors", folder, what] => compare_vectors(folder, what),
        ["game", seed, count] => game("own", seed, count),
        ["game", seed, count, what] => game(what, seed, count),
        ["compare", what, seed, count] => compare_cases(what, seed, count),
        ["case", seed, number] => print_case(seed, number),
        ["corpus", seed, count, folder] => corpus(seed, count, Path::new(folder)),
        ["bench"] => bench(),
        ["figures"] => figures(),
        // One of the processes of `figures`.
        ["figures", "medians"] => print_medians(),
        ["picture", session, answers, window] => draw(session, answers, Some(window), None),
        ["picture", session, answers, window, names] => draw(session, answers, Some(window), Some(names)),
        ["offers", session, answers] => draw(session, answers, None, None),
        ["offers", session, answers, names] => draw(session, answers, None, Some(names)),
        _ => Err(io::Error::other(USAGE)),
    };
    match passed {
        Ok(true) => ExitCode::SUCCESS,
        Ok(false) => ExitCode::FAILURE,
        Err(error) => {
            eprintln!("{error}");
            ExitCode::from(2)
        }
    }
}

fn number(word: &str) -> io::Result<u64> {
    word.parse().map_err(|_| io::Error::other(format!("no number: {word}")))
}

/// How many cases; none would pass without a look at anything.
fn cases(word: &str) -> io::Result<u64> {
    match number(word)? {
        0 => Err(io::Error::other("no cases")),
        count => Ok(count),
    }
}

fn subject(what: &str) -> io::Result<Box<dyn Subject>> {
    match what {
        "own" => Ok(Box::new(Own)),
        #[cfg(feature = "export")]
        "export" => Ok(Box::new(harness::export::Export)),
        #[cfg(not(feature = "export"))]
        "export" => Err(io::Error::other("built without the feature `export`")),
        folder => Ok(Box::new(Programs { folder: folder.into() })),
    }
}

/// This implementation, then the export if it is linked.
fn entries() -> Vec<(&'static str, Entry)> {
    #[cfg(feature = "export")]
    return vec![("harness", harness::session), ("export", harness::export::ENTRY)];
    #[cfg(not(feature = "export"))]
    return vec![("harness", harness::session)];
}

/// Standard input through a program to standard output.
fn filter(program: fn(&[u8]) -> Vec<u8>) -> io::Result<bool> {
    let mut input = Vec::new();
    io::stdin().lock().read_to_end(&mut input)?;
    io::stdout().lock().write_all(&program(&input))?;
    Ok(true)
}

fn compare_vectors(folder: &str, what: &str) -> io::Result<bool> {
    let (count, wrong) = vectors::compare(Path::new(folder), subject(what)?.as_ref())?;
    for name in &wrong {
        println!("differs: {name}");
    }
    println!("vectors: {count} texts, {} differ", wrong.len());
    Ok(count > 0 && wrong.is_empty())
}

fn game(what: &str, seed: &str, count: &str) -> io::Result<bool> {
    match demand::check_many(number(seed)?, cases(count)?, subject(what)?.as_ref()) {
        Ok(counts) => println!("game: no difference, {counts:?}"),
        Err(why) => {
            println!("game: {why}");
            return Ok(false);
        }
    }
    Ok(true)
}

fn compare_cases(what: &str, seed: &str, count: &str) -> io::Result<bool> {
    let compared = compare::compare(subject(what)?.as_ref(), number(seed)?, cases(count)?);
    for (number, why) in &compared.differences {
        println!("differs: harness case {seed} {number}: {why}");
    }
    let kinds: Vec<String> = compared.counts.iter().map(|(kind, count)| format!("{kind} {count}")).collect();
    println!("answers: {}", kinds.join(", "));
    println!("compare: {} cases, {} differ", compared.cases, compared.differences.len());
    Ok(compared.differences.is_empty())
}

fn print_case(seed: &str, case: &str) -> io::Result<bool> {
    let case = generate::case(number(seed)?, number(case)?);
    eprintln!("{}", if case.session { "dispatch" } else { "calendar" });
    io::stdout().lock().write_all(&case.text)?;
    Ok(true)
}

fn corpus(seed: &str, count: &str, folder: &Path) -> io::Result<bool> {
    std::fs::create_dir_all(folder)?;
    for case in 0..number(count)? {
        let text = generate::case(number(seed)?, case).text;
        // Short texts let a fuzzer try more.
        if text.len() <= 2000 {
            std::fs::write(folder.join(format!("{seed}-{case}")), text)?;
        }
    }
    Ok(true)
}

/// A window of a session, or the offers of all its windows.
fn draw(session: &str, answers: &str, window: Option<&str>, names: Option<&str>) -> io::Result<bool> {
    let text = |path: &str| std::fs::read(path).map(|bytes| String::from_utf8_lossy(&bytes).into_owned());
    let (session, answers) = (std::fs::read(session)?, text(answers)?);
    let names = names.map_or(Ok(String::new()), text)?;
    let names: Vec<&str> = names.lines().collect();
    let svg = match window {
        Some(window) => picture::picture(&session, &answers, number(window)? as i64, &names),
        None => picture::offers(&session, &answers, &names),
    };
    io::stdout().lock().write_all(svg.map_err(io::Error::other)?.as_bytes())?;
    Ok(true)
}

fn bench() -> io::Result<bool> {
    let entries = entries();
    let names: Vec<&str> = entries.iter().map(|(name, _)| *name).collect();
    println!("the processor's microseconds of one call, median (quartiles): {}", names.join(", then "));
    for row in rows(&entries) {
        let times: Vec<String> = row.times.iter().map(|time| shown(*time)).collect();
        let ratio = row.ratio.map_or(String::new(), |ratio| format!("   ratio {}", shown(ratio)));
        let stack: Vec<String> = row.stack.iter().map(usize::to_string).collect();
        println!("{:44} {}{ratio}   stack {}", row.name, times.join("   "), stack.join(", "));
    }
    Ok(true)
}

/// What is measured of a task: times and stack of each entry, and the ratio of the second's times to the first's.
struct Row {
    name: String,
    times: Vec<Spread>,
    ratio: Option<Spread>,
    stack: Vec<usize>,
}

fn rows(entries: &[(&str, Entry)]) -> impl Iterator<Item = Row> {
    let calls: Vec<Entry> = entries.iter().map(|(_, entry)| *entry).collect();
    tasks().into_iter().map(move |task| {
        let (times, ratio) = measure(&task, &calls);
        let stack = calls.iter().map(|&entry| stack_use(entry, &task.text, task.room)).collect();
        Row { name: task.name, times, ratio, stack }
    })
}

fn shown(spread: Spread) -> String {
    format!("{:.2} ({:.2} to {:.2})", spread.median, spread.lower, spread.upper)
}

const GROWTH: &str = "
## How it grows

Reading grows with the text, and with the square of the bounds for the pairs that came before. A round grows with the cube of the jobs at most:
it eliminates two events for each job, and a start joins each bound to it with each bound from it; most pairs have no bound and are passed
over. A verdict is its rounds, one more walk for the calendar, and a table for C(0). A session is its plan's verdict once and then the same for
each step, whatever came before it; where the lent slice is shorter than 7 bytes for each byte of the steps and 56 more, the answer is measured
first, and the steps take twice the time. The stack does not grow with the text, the jobs or the rounds.

What is left in a round: the judgement of each bound that is made or put, and two copies of the table (5,476 bytes each). What is left in a
step: its line and its answer, and the two ends of the offer; no step copies the run.";

const FIGURES: &str = "\
# Figures

`make figures` measures and writes this page. The export for C and the second implementation (harness/, Rust, release build) are linked into
one process and called on the same texts, in turns, 41 batches of each, now the one first and now the other. That is done in five processes,
one after the other, since where a process happens to lie in memory moves the ratio more than the batches do. Times are the processor's
microseconds of one call: the median of the five medians, and their range in parentheses. The ratio is the export's time to that of the second
implementation, batch by batch, and its column gives the median of its five medians. Stack is the bytes that a call needs below its caller, measured on a
stack that is painted before the call.

- read: a plan of nine jobs and 64 bounds that is refused at its last line, so that there is no verdict
- verdict by jobs: a plan without steps; the call reads it, settles it and makes its calendar
- verdict by rounds: a plan of nine jobs that loses a millisecond in each round and is refused by 5 in the end
- session: a plan of one job, asked twice before each start; answers are written whole, and where the slice just holds them, the export measures
  them first
";

/// The processes that `figures` measures in; FIGURES tells their number.
const PROCESSES: usize = 5;

/// A line for each task: its name, then the medians of both times and of the ratio, and both stacks.
fn print_medians() -> io::Result<bool> {
    for row in rows(&entries()) {
        let medians = row.times.iter().chain(&row.ratio).map(|spread| spread.median);
        let numbers: Vec<String> = medians.chain(row.stack.iter().map(|&bytes| bytes as f64)).map(|number| number.to_string()).collect();
        println!("{}\t{}", row.name, numbers.join("\t"));
    }
    Ok(true)
}

/// The names and the numbers that a process of its own prints.
fn medians() -> io::Result<Vec<(String, Vec<f64>)>> {
    let child = Command::new(std::env::current_exe()?).args(["figures", "medians"]).stderr(Stdio::inherit()).output()?;
    let printed = String::from_utf8_lossy(&child.stdout).into_owned();
    let row = |line: &str| {
        let (name, numbers) = line.split_once('\t')?;
        Some((name.to_string(), numbers.split('\t').map(str::parse).collect::<Result<Vec<f64>, _>>().ok()?))
    };
    let rows: Option<Vec<_>> = printed.lines().map(row).collect();
    rows.filter(|_| child.status.success()).ok_or_else(|| io::Error::other(format!("a process that measures failed: {}", child.status)))
}

/// The page docs/FIGURES.md, with the figures of this machine.
fn figures() -> io::Result<bool> {
    if entries().len() < 2 {
        return Err(io::Error::other("built without the feature `export`"));
    }
    let processes = (0..PROCESSES).map(|_| medians()).collect::<io::Result<Vec<_>>>()?;
    let processors = std::fs::read_to_string("/proc/cpuinfo").unwrap_or_default();
    let processor =
        processors.lines().find_map(|line| line.strip_prefix("model name")).map_or("unknown", |name| name.trim_start_matches([' ', '\t', ':']));
    println!("{FIGURES}\nProcessor: {processor}.\n");
    println!("| what | export | harness | ratio | stack, export | stack, harness |\n|---|---|---|---|---|---|");
    for (row, (name, _)) in processes[0].iter().enumerate() {
        let column = |at: usize| range(processes.iter().map(|rows| rows[row].1[at]).collect());
        let [harness, export, ratio] = [0, 1, 2].map(|at| shown(column(at)));
        let [harness_stack, export_stack] = [3, 4].map(|at| column(at).upper);
        println!("| {name} | {export} | {harness} | {ratio} | {export_stack} | {harness_stack} |");
    }
    println!("{GROWTH}");
    Ok(true)
}
