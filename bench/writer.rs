//! The time of the writer beside that of the check, on the same books.
//!
//!     writer [--runs N]
//!
//! The check is timed through the writer too: a book with one byte behind it is refused by 10, after its whole check and
//! before anything else. Each time is the median of its runs, in processor time. Build and run with bench/run-writer.

#[path = "src/clock.rs"]
mod clock;

use clock::thread_time;
use std::time::Duration;

extern "C" {
    fn zamoluvel_write(book: *const u8, book_len: usize, out: *mut u8, out_len: usize, written: *mut usize) -> u32;
}

const WRITTEN: u32 = 0;
const REFUSED: u32 = 100;

/// A statement: its kind, its map and its fields.
type Statement = (u8, u16, Vec<u16>);

fn role_assertion(role: u16, first: u16, second: u16) -> Statement {
    (14, 0xC1, vec![role, first, second])
}

fn class_assertion(concept: u16, individual: u16) -> Statement {
    (13, 0x50, vec![concept, individual])
}

fn subclass(left: u16, right: u16) -> Statement {
    (1, 0x30, vec![left, right])
}

fn path_of_three(first: u16, second: u16, third: u16, above: u16) -> Statement {
    (5, 0x0F, vec![first, second, third, above])
}

/// A book of 256 classes, 64 roles, 512 individuals and so many Atomics.
fn book(concepts: u16, statements: &[Statement]) -> Vec<u8> {
    let counts = [256, 64, 512, concepts, statements.len() as u16];
    let map = (0..5).filter(|&bit| counts[bit] != 0).map(|bit| 1 << bit).sum();
    let mut bytes = vec![map];
    let two = |bytes: &mut Vec<u8>, n: u16| bytes.extend(n.to_le_bytes());
    counts.iter().filter(|&&count| count != 0).for_each(|&count| two(&mut bytes, count));
    for concept in 0..concepts {
        bytes.extend([2, 0x01]);
        two(&mut bytes, concept % 256);
    }
    for (kind, map, fields) in statements {
        bytes.push(*kind);
        two(&mut bytes, *map);
        fields.iter().for_each(|&field| two(&mut bytes, field));
    }
    bytes
}

/// Different numbers below 2 to the 25, in no order: the steps of a generator of full period.
fn scattered(n: usize) -> Vec<u32> {
    let mut x = 1u32;
    let mut next = || {
        x = x.wrapping_mul(1_664_525).wrapping_add(1_013_904_223) % (1 << 25);
        x
    };
    (0..n).map(|_| next()).collect()
}

fn different(n: usize) -> Vec<Statement> {
    scattered(n).iter().map(|x| role_assertion((x >> 18) as u16, (x >> 9 & 511) as u16, (x & 511) as u16)).collect()
}

/// Records that all lie on the way of the path of four roles 0, and differ from it as far behind as their place on the
/// way allows; then that path itself, over and over.
fn aimed() -> Vec<Statement> {
    let mut statements = vec![];
    for place in (0..4).rev() {
        for high in 1..=4 {
            let mut roles = vec![0; 4];
            roles[place] = 16 * high;
            statements.push((5, 0x0F, roles));
        }
    }
    statements.resize(4096, path_of_three(0, 0, 0, 0));
    statements
}

/// The same for a path with a source and days, the longest record: for each digit of its fields, from the last back, a record
/// that differs from it there, or at the next digit that can be another.
fn aimed_marked() -> Vec<Statement> {
    let aim: Vec<u16> = vec![0, 0, 0, 0, 0x0111, 0x1111, 0x8888];
    let mut statements: Vec<Statement> = vec![];
    for digit in 0..4 * aim.len() {
        let other = (digit..4 * aim.len()).flat_map(|d| (1..4).map(move |change| (d, change))).find_map(|(d, change)| {
            let (field, shift) = (aim.len() - 1 - d / 4, [8, 12, 0, 4][d % 4]);
            let mut fields = aim.clone();
            fields[field] ^= change << shift;
            let inside = match field {
                0..=3 => fields[field] < 128,
                4 => fields[field] < 1024,
                _ => true,
            };
            let statement = (5, 0x070F, fields);
            (inside && !statements.contains(&statement)).then_some(statement)
        });
        statements.extend(other);
    }
    statements.resize(4096, (5, 0x070F, aim));
    statements
}

/// Role assertions whose records have one value of a usual hash function: a table with that function has them all in
/// one chain.
fn one_hash() -> Vec<Statement> {
    let hash = |(kind, map, fields): &Statement| {
        let bytes = [*map].iter().chain(fields).flat_map(|n| n.to_le_bytes()).collect::<Vec<u8>>();
        bytes.iter().fold(u32::from(*kind), |h, &b| (h * 33 + u32::from(b)) % 4093)
    };
    let all = (0..1u32 << 25).map(|x| role_assertion((x >> 18) as u16, (x >> 9 & 511) as u16, (x & 511) as u16));
    all.filter(|statement| hash(statement) == 0).take(4096).collect()
}

fn write(book: &[u8], out: &mut [u8]) -> (u32, usize) {
    let mut written = 0;
    // the slices are those of Rust, and do not overlap
    let code = unsafe { zamoluvel_write(book.as_ptr(), book.len(), out.as_mut_ptr(), out.len(), &mut written) };
    (code, written)
}

fn timed(book: &[u8], out: &mut [u8], wanted: u32) -> Duration {
    let start = thread_time();
    let (code, _) = write(book, out);
    let time = thread_time() - start;
    assert_eq!(code, wanted, "a book of the benchmark is answered as it should be");
    time
}

fn median(mut times: Vec<Duration>) -> Duration {
    times.sort_unstable();
    times[times.len() / 2]
}

fn microseconds(time: Duration) -> f64 {
    time.as_secs_f64() * 1e6
}

fn row(name: &str, concepts: u16, statements: &[Statement], runs: usize) {
    let mut bytes = book(concepts, statements);
    let long = write(&bytes, &mut vec![0; bytes.len()]).1;
    let (book, mut out) = (bytes.clone(), vec![0; bytes.len()]);
    bytes.push(0);
    // one beside the other, so that both meet the machine in the same state
    let pass = |_| (timed(&book, &mut out, WRITTEN), timed(&bytes, &mut out, REFUSED + 10));
    let (writing, check): (Vec<_>, Vec<_>) = (0..runs).map(pass).unzip();
    let (writing, check) = (median(writing), median(check));
    let ratio = writing.as_secs_f64() / check.as_secs_f64();
    println!(
        "| {name} | {} | {long} | {:.1} | {:.1} | {ratio:.1} |",
        bytes.len() - 1,
        microseconds(check),
        microseconds(writing)
    );
}

fn main() {
    let words: Vec<String> = std::env::args().skip(1).collect();
    let runs = match words.as_slice() {
        [] => 201,
        [word, n] if word == "--runs" => n.parse().expect("a number"),
        _ => panic!("usage: writer [--runs N]"),
    };
    println!("Microseconds of processor time, each the median of {runs} runs.\n");
    println!("| book | bytes | written | check | write | ratio |\n|---|---|---|---|---|---|");
    let edges = different(4096);
    let pairs: Vec<Statement> = edges[..2048].iter().flat_map(|s| [s.clone(), s.clone()]).collect();
    let far = [&edges[..2048], &edges[..2048]].concat();
    let types: Vec<Statement> =
        scattered(4096).iter().map(|x| class_assertion((x >> 9 & 4095) as u16, (x & 511) as u16)).collect();
    let classes: Vec<Statement> =
        scattered(4096).iter().map(|x| subclass((x >> 12 & 4095) as u16, (x & 4095) as u16)).collect();
    let deep: Vec<Statement> = (0..4096).map(|n| path_of_three(n % 128, n / 128, 0, 0)).collect();
    let signed = |(n, (kind, map, fields)): (usize, &Statement)| {
        (*kind, map | 0x0100, [&fields[..], &[1 + (n % 1023) as u16]].concat())
    };
    let sources: Vec<Statement> = edges.iter().enumerate().map(signed).collect();
    let shared: Vec<Statement> = edges[..4].iter().cycle().take(4092).enumerate().map(signed).collect();
    let dated = |(n, (kind, map, fields)): (usize, &Statement)| {
        (*kind, map | 0x0700, [&fields[..], &[1 + (n % 1023) as u16, 1 + (n % 7) as u16, 9000 + (n % 5) as u16]].concat())
    };
    let periods: Vec<Statement> = edges.iter().enumerate().map(dated).collect();
    let marked: Vec<Statement> = deep.iter().map(|(kind, map, fields)| (*kind, map | 0x0700, [&fields[..], &[1, 1, 2]].concat())).collect();
    row("4,096 different role assertions", 0, &edges, runs);
    row("4,096 different role assertions of 1,023 sources", 0, &sources, runs);
    row("four role assertions, each by 1,023 sources", 0, &shared, runs);
    row("4,096 different role assertions with sources and days", 0, &periods, runs);
    row("4,096 different class assertions", 4096, &types, runs);
    row("4,096 different subclass statements", 4096, &classes, runs);
    row("4,096 equal statements", 0, &vec![edges[0].clone(); 4096], runs);
    row("2,048 pairs of repeats, side by side", 0, &pairs, runs);
    row("2,048 pairs of repeats, 2,048 apart", 0, &far, runs);
    row("4,096 different paths that agree in their last roles", 0, &deep, runs);
    row("the same of one source in one period", 0, &marked, runs);
    row("4,096 role assertions under one value of a hash", 0, &one_hash(), runs);
    row("one statement at the end of the longest way", 0, &aimed(), runs);
    row("one statement with source and days at the end of the longest way", 0, &aimed_marked(), runs);
    for n in [0, 256, 512, 1024, 2048] {
        row(&format!("{n} different role assertions"), 0, &edges[..n], runs);
    }
}
