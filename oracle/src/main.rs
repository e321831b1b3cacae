//! The Rust beside ours.
//!
//!     oracle compare [--books N] [--seed S] [--profile NAME] [--server COMMAND ..]
//!         random books through both sides; the last line counts how many were compared fully, partly and not, and
//!         the disagreements; column `turned` counts the books with a statement that is turned round for the Rust (see
//!         rust.rs), column `signed` those with a source or days, of which the Rust is told nothing. Ours is the linked library, or the process that COMMAND starts (see ours.rs).
//!     oracle small [--server COMMAND ..]
//!         the same for every small book (see small.rs)
//!     oracle book PROFILE SEED PLACE
//!         one random book in hexadecimal
//!     oracle answer BOOK [RUNS]
//!         the book in words and the Rust's answer, over RUNS runs of the process if given; BOOK is a file or hexadecimal
//!     oracle as-written BOOK
//!         the same, where nothing is turned round or flattened for the Rust
//!     oracle rule BOOK
//!         the rule of comparison under which the book falls
//!     oracle record FILE
//!         writes the recorded answers (see record.rs)
//!     oracle record-small FILE
//!         writes those to the small books (see small.rs)
//!     oracle replay FILE [--server COMMAND ..]
//!         runs our side on the recorded books and compares

use oracle::book::Book;
use oracle::compare::{self, compare, Rule, Verdict, RULES};
use oracle::generate;
use oracle::ours::{Library, Server, Side};
use oracle::profile::{Profile, PROFILES};
use oracle::record::{self, Record};
use oracle::words::{hex, unhex};
use oracle::{rust, shrink, small};
use std::collections::BTreeMap;
use std::process::{Command, ExitCode};
use std::time::Instant;

/// Disagreements that are shown; further ones are only counted.
const SHOWN: u64 = 5;

struct Options {
    books: u64,
    seed: u64,
    profile: Option<Profile>,
    server: Vec<String>,
}

fn options(words: &[String]) -> Result<Options, String> {
    let mut options = Options { books: 200_000, seed: 1, profile: None, server: vec![] };
    let mut words = words.iter();
    while let Some(word) = words.next() {
        if word == "--server" {
            options.server = words.by_ref().cloned().collect();
            break;
        }
        let value = words.next().ok_or_else(|| format!("{word} needs a value"))?;
        let number = || value.replace('_', "").parse().map_err(|_| format!("{value} is no number"));
        match word.as_str() {
            "--books" => options.books = number()?,
            "--seed" => options.seed = number()?,
            "--profile" => options.profile = Some(Profile::named(value).ok_or(format!("no profile {value}"))?),
            _ => return Err(format!("unknown word {word}")),
        }
    }
    Ok(options)
}

#[derive(Default, Clone)]
struct Tally {
    books: u64,
    fully: u64,
    partly: u64,
    alike: u64,
    not: u64,
    clashes: u64,
    turned: u64,
    signed: u64,
    disagreements: u64,
}

impl Tally {
    fn add(&mut self, other: &Self) {
        self.books += other.books;
        self.fully += other.fully;
        self.partly += other.partly;
        self.alike += other.alike;
        self.not += other.not;
        self.clashes += other.clashes;
        self.turned += other.turned;
        self.signed += other.signed;
        self.disagreements += other.disagreements;
    }

    /// Runs the book on both sides and counts it; where they disagree, why.
    fn judge(&mut self, book: &Book, side: &mut dyn Side) -> Option<String> {
        let ours = side.run(book);
        self.books += 1;
        self.clashes += u64::from(matches!(ours, oracle::ours::End::Clash { .. }));
        self.turned += u64::from(rust::turns(book));
        self.signed += u64::from(book.statements.iter().any(|s| s.marked()));
        match compare(book, &ours) {
            Verdict::Fully => self.fully += 1,
            Verdict::Partly { alike } => {
                self.partly += 1;
                self.alike += u64::from(alike);
            }
            Verdict::Not => self.not += 1,
            Verdict::Disagreement(why) => {
                self.disagreements += 1;
                return Some(why);
            }
        }
        None
    }

    fn summary(&self, start: Instant) -> String {
        format!(
            "{} accepted books in {:.0} s: {} compared fully, {} partly, {} not; {} disagreements",
            self.books,
            start.elapsed().as_secs_f64(),
            self.fully,
            self.partly,
            self.not,
            self.disagreements
        )
    }

    fn line(&self, name: &str) -> String {
        format!(
            "{name:>8} {:>8} {:>8} {:>8} {:>8} {:>6} {:>8} {:>6} {:>6} {:>6}",
            self.books,
            self.fully,
            self.partly,
            self.alike,
            self.not,
            self.clashes,
            self.turned,
            self.signed,
            self.disagreements
        )
    }
}

fn show(book: &Book, why: &str, side: &mut dyn Side) {
    // Where the Rust depends on the run, one try may miss the disagreement.
    let small = shrink::smallest(book, |less| {
        let ours = side.run(less);
        (0..4).any(|_| matches!(compare(less, &ours), Verdict::Disagreement(_)))
    });
    println!("DISAGREEMENT: {why}");
    println!("the smallest book found:\n{}\n{}", hex(&small.bytes()), small.words());
    println!("ours: {}\nthe Rust: {}\n", side.run(&small), rust::run(&small));
}

fn print_head() {
    println!("         {:>8} {:>26}", "", "compared");
    println!(
        " profile {:>8} {:>8} {:>8} {:>8} {:>6} {:>8} {:>6} {:>6} {:>6}",
        "books", "fully", "partly", "alike", "not", "clashes", "turned", "signed", "disagr"
    );
}

fn compare_books(options: &Options, side: &mut dyn Side) -> Tally {
    let start = Instant::now();
    let profiles: Vec<Profile> =
        PROFILES.into_iter().filter(|p| options.profile.is_none_or(|only| only == *p)).collect();
    let whole: u64 = profiles.iter().map(|p| p.share() as u64).sum();
    let mut all = Tally::default();
    print_head();
    for (at, profile) in profiles.iter().enumerate() {
        let mut tally = Tally::default();
        let last = at + 1 == profiles.len();
        let books = if last { options.books - all.books } else { options.books * profile.share() as u64 / whole };
        for place in 0..books {
            let book = generate::book(*profile, options.seed, place);
            assert_eq!(
                Book::read(&book.bytes()).as_ref(),
                Ok(&book),
                "a random book is accepted, and read as it was written"
            );
            if let Some(why) = tally.judge(&book, side) {
                if all.disagreements + tally.disagreements <= SHOWN {
                    show(&book, &format!("{} {} {place}: {why}", profile.name(), options.seed), side);
                }
            }
        }
        println!("{}", tally.line(profile.name()));
        all.add(&tally);
    }
    println!("{}", all.line("all"));
    println!("{}", all.summary(start));
    all
}

/// Our side: the server if a command names one, else the library.
fn side(server: &[String]) -> Result<Box<dyn Side>, String> {
    if let Some(program) = server.first() {
        return Ok(Box::new(Server::start(server).map_err(|e| format!("{program}: {e}"))?));
    }
    Ok(Box::new(Library::new().ok_or("built without libzamoluvel.a; build it, or name a --server")?))
}

fn code(disagreements: u64) -> ExitCode {
    if disagreements == 0 {
        ExitCode::SUCCESS
    } else {
        ExitCode::FAILURE
    }
}

fn run_compare(words: &[String]) -> Result<ExitCode, String> {
    let options = options(words)?;
    let tally = compare_books(&options, side(&options.server)?.as_mut());
    Ok(code(tally.disagreements))
}

fn run_small(words: &[String]) -> Result<ExitCode, String> {
    let (start, mut tally, mut side) = (Instant::now(), Tally::default(), side(&options(words)?.server)?);
    print_head();
    for (place, book) in small::books().iter().enumerate() {
        if let Some(why) = tally.judge(book, side.as_mut()) {
            if tally.disagreements <= SHOWN {
                show(book, &format!("small {place}: {why}"), side.as_mut());
            }
        }
    }
    println!("{}\n{}", tally.line("small"), tally.summary(start));
    Ok(code(tally.disagreements))
}

fn run_record_small(file: &str) -> Result<ExitCode, String> {
    let records = small::records();
    let bytes = |record: &Option<(Rule, u8)>| record.map_or([0, 0], |(rule, answer)| [rule as u8 + 1, answer]);
    let data: Vec<u8> = records.iter().flat_map(bytes).collect();
    std::fs::write(file, &data).map_err(|e| format!("{file}: {e}"))?;
    println!("{} records, {} bytes", records.len(), data.len());
    Ok(ExitCode::SUCCESS)
}

fn run_record(file: &str) -> Result<ExitCode, String> {
    let records = record::records();
    let data: Vec<u8> = records.iter().flat_map(Record::bytes).collect();
    std::fs::write(file, &data).map_err(|e| format!("{file}: {e}"))?;
    println!("{} records, {} bytes", records.len(), data.len());
    for rule in RULES {
        let of_rule = || records.iter().filter(|r| r.rule == rule);
        let clashes = of_rule().filter(|r| r.answer.clash).count();
        println!("{rule:?}: {} finished, {clashes} clash", of_rule().count() - clashes);
    }
    Ok(ExitCode::SUCCESS)
}

fn run_replay(file: &str, words: &[String]) -> Result<ExitCode, String> {
    let data = std::fs::read(file).map_err(|e| format!("{file}: {e}"))?;
    let mut side = side(&options(words)?.server)?;
    let (mut records, mut disagreements, mut rest) = (0, 0, &data[..]);
    while !rest.is_empty() {
        let (record, behind) = Record::read(rest).ok_or("a record is cut off")?;
        let book = Book::read(&record.book)?;
        if let Err(why) = record.agrees(&side.run(&book)) {
            disagreements += 1;
            println!("record {records}: {why}\n{}\n{}", hex(&record.book), book.words());
        }
        records += 1;
        rest = behind;
    }
    println!("{records} records, {disagreements} disagreements");
    Ok(code(disagreements))
}

fn named_book(word: &str) -> Result<Book, String> {
    let data =
        std::fs::read(word).ok().or_else(|| unhex(word)).ok_or(format!("{word} is no file and no hexadecimal"))?;
    Book::read(&data)
}

/// The different answers over so many runs of this program, each with how often it came.
fn answers(word: &str, runs: usize) -> Result<BTreeMap<String, usize>, String> {
    let program = std::env::current_exe().map_err(|e| e.to_string())?;
    let mut out = BTreeMap::new();
    for _ in 0..runs {
        let one = Command::new(&program).args(["answer", word]).output().map_err(|e| e.to_string())?;
        let text = String::from_utf8_lossy(&one.stdout).into_owned();
        *out.entry(text.split_once("\n\n").map_or(text.clone(), |(_, answer)| answer.to_string())).or_insert(0) += 1;
    }
    Ok(out)
}

fn run_answer(words: &[String]) -> Result<ExitCode, String> {
    let book = named_book(&words[0])?;
    println!("{}\n{}", hex(&book.bytes()), book.words());
    match words.get(1) {
        None => println!("{}", rust::run(&book)),
        Some(runs) => {
            let runs = runs.parse().map_err(|_| format!("{runs} is no number"))?;
            for (answer, often) in answers(&words[0], runs)? {
                println!("in {often} of {runs} runs:\n{answer}");
            }
        }
    }
    Ok(ExitCode::SUCCESS)
}

fn run(words: &[String]) -> Result<ExitCode, String> {
    match words.first().map(String::as_str) {
        Some("compare") => run_compare(&words[1..]),
        Some("answer") if words.len() > 1 => run_answer(&words[1..]),
        Some("record") if words.len() == 2 => run_record(&words[1]),
        Some("small") => run_small(&words[1..]),
        Some("record-small") if words.len() == 2 => run_record_small(&words[1]),
        Some("replay") if words.len() > 1 => run_replay(&words[1], &words[2..]),
        Some("as-written") if words.len() == 2 => {
            let book = named_book(&words[1])?;
            println!("{}\n{}\n{}", hex(&book.bytes()), book.words(), rust::run_as_written(&book));
            Ok(ExitCode::SUCCESS)
        }
        Some("rule") if words.len() > 1 => {
            println!("{:?}", compare::rule(&named_book(&words[1])?));
            Ok(ExitCode::SUCCESS)
        }
        Some("book") if words.len() == 4 => {
            let profile = Profile::named(&words[1]).ok_or(format!("no profile {}", words[1]))?;
            let [seed, place] = [&words[2], &words[3]].map(|n| n.parse().map_err(|_| format!("{n} is no number")));
            println!("{}", hex(&generate::book(profile, seed?, place?).bytes()));
            Ok(ExitCode::SUCCESS)
        }
        _ => Err("usage: oracle compare | small | book | answer | as-written | rule | record | record-small | replay; see oracle/src/main.rs"
            .into()),
    }
}

fn main() -> ExitCode {
    rust::forget_variables();
    let words: Vec<String> = std::env::args().skip(1).collect();
    // The engine's tables are local arrays of some megabytes, and the Rust walks nested conjunctions by recursion.
    let thread = std::thread::Builder::new().stack_size(256 << 20).spawn(move || run(&words)).expect("a thread");
    thread.join().unwrap_or_else(|_| Err("stopped by a panic".into())).unwrap_or_else(|error| {
        eprintln!("oracle: {error}");
        ExitCode::from(2)
    })
}
