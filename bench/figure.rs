//! The time of the figure beside that of the check, on the same books.
//!
//!     figure [--runs N]
//!
//! The check is timed through the figure too: a book with one byte behind it is refused by 10, after its whole check and
//! before anything else. Each time is the median of its runs, in processor time. Build and run with bench/run-figure.

#[path = "src/clock.rs"]
mod clock;

use clock::thread_time;
use std::time::Duration;

extern "C" {
    fn zamoluvel_figure(book: *const u8, book_len: usize, needed: *mut u32) -> u32;
}

const FIGURE: u32 = 0;
const REFUSED: u32 = 100;

/// A statement: its kind, its map and its fields.
type Statement = (u8, u16, Vec<u16>);

/// A concept: its kind, its map, its fields, and for an And its parts.
type Concept = (u8, u8, Vec<u16>, Option<Vec<u16>>);

fn atomic(class: u16) -> Concept {
    (2, 0x01, vec![class], None)
}

fn nominal(individual: u16) -> Concept {
    (3, 0x02, vec![individual], None)
}

fn and(parts: Vec<u16>) -> Concept {
    (6, 0x10, vec![], Some(parts))
}

/// Some(r, inner), by the field of the role.
fn some(role: u16, inner: u16) -> Concept {
    (8, 0x0C, vec![role, inner], None)
}

fn subclass(left: u16, right: u16) -> Statement {
    (1, 0x30, vec![left, right])
}

fn equivalent(left: u16, right: u16) -> Statement {
    (2, 0x30, vec![left, right])
}

fn disjoint(left: u16, right: u16) -> Statement {
    (3, 0x30, vec![left, right])
}

fn inverse(role: u16, other: u16) -> Statement {
    (4, 0x03, vec![2 * role, 2 * other])
}

fn path(roles: &[u16], above: u16) -> Statement {
    let map = [0x09, 0x0B, 0x0F][roles.len() - 1];
    (5, map, roles.iter().chain([&above]).map(|role| 2 * role).collect())
}

fn transitive(role: u16) -> Statement {
    (6, 0x01, vec![2 * role])
}

fn domain(role: u16, concept: u16) -> Statement {
    (10, 0x11, vec![2 * role, concept])
}

fn range(role: u16, concept: u16) -> Statement {
    (11, 0x11, vec![2 * role, concept])
}

fn class_assertion(concept: u16, individual: u16) -> Statement {
    (13, 0x50, vec![concept, individual])
}

fn role_assertion(role: u16, first: u16, second: u16) -> Statement {
    (14, 0xC1, vec![2 * role, first, second])
}

/// The same statement, told by a source.
fn sourced((kind, map, mut fields): Statement) -> Statement {
    fields.push(7);
    (kind, map | 0x100, fields)
}

/// A book of 256 classes, 64 roles and 512 individuals.
fn book(concepts: &[Concept], statements: &[Statement]) -> Vec<u8> {
    let counts = [256, 64, 512, concepts.len() as u16, statements.len() as u16];
    let map = (0..5).filter(|&bit| counts[bit] != 0).map(|bit| 1 << bit).sum();
    let mut bytes = vec![map];
    let two = |bytes: &mut Vec<u8>, n: u16| bytes.extend(n.to_le_bytes());
    counts.iter().filter(|&&count| count != 0).for_each(|&count| two(&mut bytes, count));
    for (kind, map, fields, parts) in concepts {
        bytes.extend([*kind, *map]);
        fields.iter().for_each(|&field| two(&mut bytes, field));
        if let Some(parts) = parts {
            bytes.push(parts.len() as u8);
            parts.iter().for_each(|&part| two(&mut bytes, part));
        }
    }
    for (kind, map, fields) in statements {
        bytes.push(*kind);
        two(&mut bytes, *map);
        fields.iter().for_each(|&field| two(&mut bytes, field));
    }
    bytes
}

/// Each statement so often, and in this order, that there are 4,096.
fn filled(statements: Vec<Statement>) -> Vec<Statement> {
    statements.iter().cycle().take(4096).cloned().collect()
}

fn classes() -> Vec<Concept> {
    (0..256).map(atomic).collect()
}

/// Classes 0 to 255, then as many conjunctions of 255 parts as there is room for, each of the 255 concepts before it.
fn conjunctions() -> Vec<Concept> {
    let wide = |k: u16| and((k - 255..k).collect());
    classes().into_iter().chain((256..4096).map(wide)).collect()
}

/// Numbers that look random, the same in each run.
struct Numbers(u64);

impl Numbers {
    fn below(&mut self, n: u16) -> u16 {
        self.0 = self.0.wrapping_mul(6364136223846793005).wrapping_add(1442695040888963407);
        ((self.0 >> 33) % u64::from(n)) as u16
    }
}

/// The same with 255 parts anywhere below each conjunction.
fn scattered() -> Vec<Concept> {
    let mut numbers = Numbers(1);
    let mut wide = |k: u16| and((0..255).map(|_| numbers.below(k)).collect());
    classes().into_iter().chain((256..4096).map(&mut wide)).collect()
}

/// Class 0, and 4,095 conjunctions of one part, each of the one before it.
fn nested() -> Vec<Concept> {
    [atomic(0)].into_iter().chain((1..4096).map(|k| and(vec![k - 1]))).collect()
}

/// Classes 0 to 255, Nominal 0, and has-values of all roles in both polarities.
fn has_values() -> Vec<Concept> {
    classes().into_iter().chain([nominal(0)]).chain((257..4096).map(|k| some(k % 128, 256))).collect()
}

/// Statements of all kinds that say something of classes and roles, in any order.
fn mixed() -> Vec<Statement> {
    let mut numbers = Numbers(2);
    let mut one = |_| {
        let (c, d) = (numbers.below(4096), numbers.below(4096));
        let (r, s, t, u) = (numbers.below(64), numbers.below(64), numbers.below(64), numbers.below(64));
        match numbers.below(10) {
            0 => subclass(c, d),
            1 => equivalent(c, d),
            2 => inverse(r, s),
            3 => path(&[r], s),
            4 => path(&[r, s], t),
            5 => path(&[r, s, t], u),
            6 => domain(r, c),
            7 => range(r, c),
            8 => class_assertion(c, d % 512),
            _ => role_assertion(r, c % 512, d % 512),
        }
    };
    (0..4096).map(&mut one).collect()
}

/// The next class from each class, the last first: whoever goes over the statements in their order finds one more class
/// each time.
fn ladder() -> Vec<Statement> {
    let steps = (0..255).rev().map(|class| subclass(class, class + 1));
    filled(steps.chain([class_assertion(0, 0)]).collect())
}

/// A path of three roles to each next one, the last first.
fn chains() -> Vec<Statement> {
    let steps = (0..61).rev().map(|role| path(&[role, role + 1, role + 2], role + 3));
    filled(steps.chain((0..3).map(|role| role_assertion(role, 0, 0))).collect())
}

/// Classes and roles in turn: a class brings a has-value, whose role brings the next class.
fn turns() -> (Vec<Concept>, Vec<Statement>) {
    let mut concepts = classes();
    concepts.push(nominal(0));
    (0..64).for_each(|role| concepts.push(some(2 * role, 256)));
    let steps = (0..64).rev().flat_map(|n| [range(n, n + 1), subclass(n, 257 + n)]);
    (concepts, filled(steps.chain([class_assertion(0, 0)]).collect()))
}

fn figure(book: &[u8]) -> (u32, u32) {
    let mut needed = 0;
    // the slice is one of Rust
    let code = unsafe { zamoluvel_figure(book.as_ptr(), book.len(), &mut needed) };
    (code, needed)
}

fn timed(book: &[u8], wanted: u32) -> Duration {
    let start = thread_time();
    let (code, _) = figure(book);
    let time = thread_time() - start;
    assert_eq!(code, wanted, "a book of the benchmark is answered as it should be");
    time
}

fn median(mut times: Vec<Duration>) -> Duration {
    times.sort_unstable();
    times[times.len() / 2]
}

fn microseconds(time: Duration) -> f64 {
    time.as_secs_f64() * 1e6
}

fn row(name: &str, concepts: &[Concept], statements: &[Statement], runs: usize) {
    let book = book(concepts, statements);
    let needed = figure(&book).1;
    let mut longer = book.clone();
    longer.push(0);
    // one beside the other, so that both meet the machine in the same state
    let pass = |_| (timed(&book, FIGURE), timed(&longer, REFUSED + 10));
    let (working, check): (Vec<_>, Vec<_>) = (0..runs).map(pass).unzip();
    let (working, check) = (median(working), median(check));
    let ratio = working.as_secs_f64() / check.as_secs_f64();
    println!("| {name} | {} | {needed} | {:.1} | {:.1} | {ratio:.1} |", book.len(), microseconds(check), microseconds(working));
}

fn main() {
    let words: Vec<String> = std::env::args().skip(1).collect();
    let runs = match words.as_slice() {
        [] => 201,
        [word, n] if word == "--runs" => n.parse().expect("a number"),
        _ => panic!("usage: figure [--runs N]"),
    };
    println!("Microseconds of processor time, each the median of {runs} runs.\n");
    println!("| book | bytes | figure | check | with the figure | ratio |\n|---|---|---|---|---|---|");
    let classes = classes();
    let told = |concept| vec![class_assertion(concept, 0)];
    let backward = |statements: &[Statement]| statements.iter().rev().cloned().collect::<Vec<_>>();
    let both_orders = |name: &str, concepts: &[Concept], statements: &[Statement]| {
        row(&format!("{name}, the last first"), concepts, statements, runs);
        row("the same, the first first", concepts, &backward(statements), runs);
    };
    both_orders("a ladder of subclasses", &classes, &ladder());
    let pairs = filled((0..255).rev().map(|class| equivalent(class, class + 1)).chain(told(0)).collect());
    both_orders("a ladder of equivalent classes", &classes, &pairs);
    both_orders("paths of three roles", &classes, &chains());
    let inverses = filled((0..63).rev().map(|role| inverse(role, role + 1)).chain([role_assertion(0, 0, 0)]).collect());
    both_orders("a ladder of inverse roles", &classes, &inverses);
    row("the same, each statement with a source", &classes, &inverses.iter().cloned().map(sourced).collect::<Vec<_>>(), runs);
    let (concepts, statements) = turns();
    both_orders("classes and roles in turn", &concepts, &statements);
    let told_roles = (0..64).map(|role| role_assertion(role, 0, 0));
    let reached = filled(told_roles.chain((0..64).flat_map(|role| (0..64).map(move |k| domain(role, 4 * k)))).collect());
    row("domains", &classes, &reached, runs);
    row("4,096 class assertions", &classes, &filled((0..4096).map(|n| class_assertion(n % 256, n % 512)).collect()), runs);
    row("4,096 role assertions", &classes, &filled((0..4096).map(|n| role_assertion(n % 64, n % 512, n / 8)).collect()), runs);
    row("4,096 disjoint classes", &classes, &filled((0..255).map(|class| disjoint(class, class + 1)).collect()), runs);
    row("4,096 transitive roles", &[], &filled((0..64).map(transitive).collect()), runs);
    let atomics: Vec<_> = (0..4096).map(|k| atomic(k % 256)).collect();
    let far = (0..4095).map(|k: u16| equivalent(k, ((u32::from(k) * 1777 + 5) % 4096) as u16)).chain(told(0)).collect::<Vec<_>>();
    row("4,096 Atomics, equivalent to others", &atomics, &far, runs);
    let values = (0..4095).map(|k| equivalent(k % 256, k + 1)).chain(told(0)).collect::<Vec<_>>();
    row("3,839 has-values, equivalent to classes", &has_values(), &values, runs);
    let wide = conjunctions();
    let both = |concept| vec![class_assertion(concept, 0), domain(0, concept), role_assertion(0, 0, 0)];
    let late = |class, concept| vec![role_assertion(0, 0, 0), domain(0, concept), subclass(class, concept)];
    row("conjunctions of 255 parts, the last told", &wide, &told(4095), runs);
    row("the same, and the last reached", &wide, &both(4095), runs);
    row("the same, reached, and told by a class of theirs", &wide, &late(1, 4095), runs);
    row("the same, untold", &wide, &[], runs);
    let left = filled((0..4096).map(|_| subclass(4095, 0)).collect());
    row("the same on the left of 4,096 subclass statements", &wide, &left, runs);
    let takers = (0..4095).map(|n| subclass(n % 256, 4095 - n % 3840)).chain(told(0)).collect::<Vec<_>>();
    row("the same on the right of 4,095", &wide, &takers, runs);
    let scattered = scattered();
    row("conjunctions of 255 parts of any numbers, told and reached", &scattered, &both(4095), runs);
    row("the same, reached, and told by a class of theirs", &scattered, &late(1, 4095), runs);
    let nested = nested();
    row("4,095 conjunctions of one part, told and reached", &nested, &both(4095), runs);
    row("the same, reached, and told by their class", &nested, &late(0, 4095), runs);
    row("statements of all kinds over 4,096 has-values and classes", &has_values(), &mixed(), runs);
    row("no concept and no statement", &[], &[], runs);
}
