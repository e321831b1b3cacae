//! The time of our library and of the Rust on the same books, and how ours grows.
//!
//!     bench [--worst] [--limit SECONDS] [--runs N]
//!     bench books [worst]
//!
//! Ours is one call of the library: reading the book, the run, and filling and clearing lists as long as the book's
//! bound needs. The Rust's is `saturate_with` alone, on an ontology that stands in memory; beside it stands the same
//! with reading the book and building the ontology. Each is the median of its runs, in processor time. The Rust runs in
//! a child process, which is ended where one run takes longer than the limit. With --worst stand instead the worst books
//! known, ours alone, at the program's budget and at the highest: a child process too, under the same limit. The second
//! form writes the books themselves, a line each, for bench/run-beside.

mod books;
mod clock;
mod worst;

use clock::thread_time;
use oracle::book::{Book, INDIVIDUALS};
use oracle::ours::Library;
use oracle::rust;
use oracle::words::{hex, unhex};
use std::io::{BufRead, BufReader, Write};
use std::process::{Command, ExitCode, Stdio};
use std::sync::mpsc;
use std::time::{Duration, Instant};

/// The program's budget, and the highest.
const BUDGETS: [usize; 2] = [4000, 1_000_000];

struct Options {
    limit: Duration,
    runs: usize,
    worst: bool,
}

fn options() -> Result<Options, String> {
    let mut options = Options { limit: Duration::from_secs(20), runs: 5, worst: false };
    let mut words = std::env::args().skip(1);
    while let Some(word) = words.next() {
        if word == "--worst" {
            options.worst = true;
            continue;
        }
        let value = words.next().and_then(|n| n.parse().ok()).ok_or(format!("{word} needs a number"))?;
        match word.as_str() {
            "--limit" => options.limit = Duration::from_secs(value),
            "--runs" => options.runs = value.max(1) as usize,
            _ => return Err(format!("unknown word {word}")),
        }
    }
    Ok(options)
}

/// Ours: the median time of a pass over the books, and their facts. Short passes are run more often.
fn ours(books: &[Book], runs: usize) -> Option<(Duration, u64)> {
    let mut library = Library::new()?;
    let inputs: Vec<_> = books.iter().map(|b| (b.bytes(), b.bound(), b.counts[INDIVIDUALS])).collect();
    let mut pass = || {
        let mut facts = 0;
        let start = thread_time();
        for (bytes, budget, individuals) in &inputs {
            let code = library.call(bytes, *budget, *individuals);
            assert!(code < 2, "a book of the benchmark ends as finished or clash, not by {code}");
            facts += u64::from(library.counts[0]) + u64::from(library.counts[1]);
        }
        (thread_time() - start, facts)
    };
    let (_, facts) = pass();
    let (start, mut times) = (Instant::now(), vec![]);
    while times.len() < runs || start.elapsed() < Duration::from_millis(200) && times.len() < 1000 {
        times.push(pass().0);
    }
    Some((median(times), facts))
}

fn median(mut times: Vec<Duration>) -> Duration {
    times.sort_unstable();
    times[times.len() / 2]
}

/// The child's work: for each pass over the books that it is given in hexadecimal, a line with the nanoseconds of the
/// runs alone, those with reading and building, and the facts.
fn child(runs: usize) {
    rust::forget_variables();
    let lines = std::io::stdin().lock().lines().map_while(Result::ok);
    let books: Vec<_> = lines.map(|line| unhex(&line).expect("hexadecimal")).collect();
    for _ in 0..runs {
        let start = thread_time();
        let ontology = |data: &Vec<u8>| rust::ontology(Book::read(data).expect("an accepted book"));
        let ontologies: Vec<_> = books.iter().map(ontology).collect();
        let built = thread_time();
        let facts: u64 = ontologies.iter().map(rust::saturate).map(|a| a.types + a.edge_additions).sum();
        let end = thread_time();
        println!("{} {} {facts}", (end - built).as_nanos(), (end - start).as_nanos());
    }
}

/// The Rust's times are those of the runs alone, and with reading and building.
struct RustTimes {
    alone: Duration,
    whole: Duration,
    facts: u64,
}

/// The lines of numbers that a child process of these words writes on the books, so many at most, each within the limit.
fn lines(words: &[String], books: &[Book], options: &Options) -> Vec<Vec<u64>> {
    let program = std::env::current_exe().expect("this program");
    let mut command = Command::new(program);
    command.args(words).stdin(Stdio::piped()).stdout(Stdio::piped());
    let mut child = command.spawn().expect("a child process");
    let mut input = child.stdin.take().expect("piped");
    for book in books {
        writeln!(input, "{}", hex(&book.bytes())).expect("the child reads");
    }
    drop(input);
    let (sender, lines) = mpsc::channel();
    let output = BufReader::new(child.stdout.take().expect("piped"));
    let reader = std::thread::spawn(move || {
        let _ = output.lines().map_while(Result::ok).try_for_each(|line| sender.send(line));
    });
    let mut all = vec![];
    while all.len() < options.runs {
        let Ok(line) = lines.recv_timeout(options.limit) else { break };
        all.push(line.split(' ').map(|n| n.parse().expect("a number")).collect());
    }
    let _ = child.kill();
    let _ = child.wait();
    let _ = reader.join();
    all
}

/// None where not one run ended within the limit.
fn rust(books: &[Book], options: &Options) -> Option<RustTimes> {
    let runs = lines(&["child".into(), options.runs.to_string()], books, options);
    let times = |k: usize| median(runs.iter().map(|run| Duration::from_nanos(run[k])).collect());
    runs.last().map(|run| RustTimes { alone: times(0), whole: times(1), facts: run[2] })
}

/// The child's work on our side: for each run of the book that it is given in hexadecimal, with such a budget, a line with
/// its nanoseconds, the code of its end, and its facts. A book that takes long is not run again.
fn our_child(runs: usize, budget: usize) {
    let line = std::io::stdin().lock().lines().next().expect("a book").expect("a line");
    let bytes = unhex(&line).expect("hexadecimal");
    let individuals = Book::read(&bytes).expect("an accepted book").counts[INDIVIDUALS];
    let mut library = Library::new().expect("our library");
    let start = thread_time();
    for _ in 0..runs {
        let before = thread_time();
        let code = library.call(&bytes, budget, individuals);
        let after = thread_time();
        println!("{} {code} {}", (after - before).as_nanos(), library.counts[0] + library.counts[1]);
        if after - start > Duration::from_secs(1) {
            break;
        }
    }
}

/// A time, and how the run ended: its facts, or that they are more than the budget.
fn worst_cells(book: &Book, budget: usize, options: &Options) -> [String; 2] {
    let words = ["ours".into(), options.runs.to_string(), budget.to_string()];
    let runs = lines(&words, std::slice::from_ref(book), options);
    let Some(run) = runs.last() else {
        return ["–".into(), format!("> {}", milliseconds(options.limit))];
    };
    let end = if run[1] == 2 { "spent".into() } else { thousands(run[2]) };
    [end, milliseconds(median(runs.iter().map(|run| Duration::from_nanos(run[0])).collect()))]
}

fn worst_tables(options: &Options) {
    println!(
        "Milliseconds of processor time, each the median of up to {} runs; limit of a run {} s.",
        options.runs,
        options.limit.as_secs()
    );
    let budgets = BUDGETS.map(|budget| thousands(budget as u64));
    let columns = ["bytes", "facts", &budgets[0], "facts", &budgets[1]];
    head("worst books, by budget", &columns.map(String::from));
    for named in worst::all() {
        let book = &named.books[0];
        let bytes = book.bytes();
        assert!(Book::read(&bytes).is_ok() && bytes.len() <= 65536, "{} is a book", named.name);
        let cells = BUDGETS.map(|budget| worst_cells(book, budget, options).join(" | "));
        println!("| {} | {} | {} |", named.name, thousands(bytes.len() as u64), cells.join(" | "));
    }
    let sizes = [64, 128, 256, 512];
    head(&format!("at {}, by individuals", budgets[1]), &sizes.map(|n: u16| thousands(n.into())));
    let shapes: [(&str, fn(u16) -> Book); 8] = [
        ("dense, joins", worst::dense_all),
        ("linked, half of them dense", worst::linked_half),
        ("one link a round", worst::line),
        ("chains over loops of half", worst::loops_of_half),
        ("255 classes each under all, of half", worst::classes_of_half),
        ("inclusions, a fifth dense", worst::inclusions_of_fifth),
        ("one class that grows", worst::growing_class),
        ("ten rounds for each, 3,000 chains beside", worst::odometer_of),
    ];
    for (name, shape) in shapes {
        let cells = sizes.map(|n| worst_cells(&shape(n), BUDGETS[1], options)[1].clone());
        println!("| {name} | {} |", cells.join(" | "));
    }
}

/// A line for each row of a table: its name, and for each of its books the bound, the individuals and the bytes.
fn write_books(all: Vec<books::Named>) {
    for named in all {
        let cell = |b: &Book| format!("{} {} {}", b.bound(), b.counts[INDIVIDUALS], hex(&b.bytes()));
        println!("{}\t{}", named.name, named.books.iter().map(cell).collect::<Vec<_>>().join("\t"));
    }
}

fn milliseconds(time: Duration) -> String {
    let ms = time.as_secs_f64() * 1000.0;
    match ms {
        _ if ms >= 100.0 => format!("{ms:.0}"),
        _ if ms >= 1.0 => format!("{ms:.2}"),
        _ => format!("{ms:.4}"),
    }
}

fn thousands(n: u64) -> String {
    let digits = n.to_string();
    let groups: Vec<&str> =
        digits.as_bytes().rchunks(3).rev().map(|g| std::str::from_utf8(g).expect("digits")).collect();
    groups.join(",")
}

const COLUMNS: [&str; 6] = ["facts", "ours", "the Rust", "ratio", "from bytes", "ratio"];

/// A row of the first table.
fn row(name: &str, books: &[Book], options: &Options) {
    let (ours, rust) = (ours(books, options.runs), rust(books, options));
    let facts = match (&ours, &rust) {
        // types that the Rust merges without their consequences leave it with fewer facts
        (Some((_, all)), Some(rust)) if *all != rust.facts => {
            format!("{} (the Rust {})", thousands(*all), thousands(rust.facts))
        }
        (Some((_, all)), _) => thousands(*all),
        (None, rust) => rust.as_ref().map_or("?".into(), |rust| thousands(rust.facts)),
    };
    let our_time = ours.map(|(time, _)| time);
    let mut cells = vec![facts, our_time.map_or("–".into(), milliseconds)];
    for time in [rust.as_ref().map(|rust| rust.alone), rust.as_ref().map(|rust| rust.whole)] {
        let above = if time.is_none() { "> " } else { "" };
        let time = time.unwrap_or(options.limit);
        cells.push(format!("{above}{}", milliseconds(time)));
        let ratio = our_time.map(|ours| time.as_secs_f64() / ours.as_secs_f64());
        cells.push(ratio.map_or("–".into(), |ratio| format!("{above}{ratio:.1}")));
    }
    println!("| {name} | {} |", cells.join(" | "));
}

/// Our times of one shape over growing sizes.
fn growth(name: &str, sizes: &[u16], runs: usize, shape: impl Fn(u16) -> Book) {
    let cells = sizes.iter().map(|&n| ours(&[shape(n)], runs).map_or("–".into(), |(time, _)| milliseconds(time)));
    println!("| {name} | {} |", cells.collect::<Vec<_>>().join(" | "));
}

fn head(first: &str, columns: &[String]) {
    println!("\n| {first} | {} |", columns.join(" | "));
    println!("|---|{}", "---|".repeat(columns.len()));
}

fn tables(options: &Options) {
    println!(
        "Milliseconds of processor time, each the median of {} runs or more; limit of a Rust run {} s.",
        options.runs,
        options.limit.as_secs()
    );
    head("book", &COLUMNS.map(String::from));
    for named in books::all() {
        row(&named.name, &named.books, options);
    }
    let numbers = |sizes: &[u16]| sizes.iter().map(|&n| thousands(n.into())).collect::<Vec<_>>();

    let sizes = [64, 128, 256, 512];
    head("ours, by individuals", &numbers(&sizes));
    growth("transitive path", &sizes, options.runs, books::path);
    growth("dense chains of two", &sizes, options.runs, books::chains_of_two);
    growth("one told-same class", &sizes, options.runs, books::same_class);
    growth("merge, 256 classes", &sizes, options.runs, |n| books::merge_heavy(n, 256));
    growth("3,584 subclass statements", &sizes, options.runs, |n| books::subclasses(3584 + n, n));

    let sizes = [256, 512, 1024, 2048, 4096];
    head("ours, by statements", &numbers(&sizes));
    growth("subclasses, 64 individuals", &sizes, options.runs, |n| books::subclasses(n, 64));
    growth("role assertions, 512 individuals", &sizes, options.runs, books::assertions);
    growth("paths of two, 64 roles, 64 individuals", &sizes, options.runs, books::paths_of_two);
}

fn main() -> ExitCode {
    let words: Vec<String> = std::env::args().skip(1).collect();
    // The engine's tables are local arrays of some megabytes, and the Rust walks nested conjunctions by recursion.
    let thread = std::thread::Builder::new().stack_size(256 << 20);
    let work = move || match words.first().map(String::as_str) {
        Some("child") => {
            child(words[1].parse().expect("a number"));
            Ok(())
        }
        Some("ours") => {
            our_child(words[1].parse().expect("a number"), words[2].parse().expect("a number"));
            Ok(())
        }
        Some("books") => {
            write_books(if words.len() > 1 { worst::all() } else { books::all() });
            Ok(())
        }
        _ => options().map(|options| if options.worst { worst_tables(&options) } else { tables(&options) }),
    };
    match thread.spawn(work).expect("a thread").join() {
        Ok(Ok(())) => ExitCode::SUCCESS,
        Ok(Err(error)) => {
            eprintln!("bench: {error}");
            ExitCode::from(2)
        }
        Err(_) => ExitCode::FAILURE,
    }
}
