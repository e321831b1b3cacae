//! The fixed list of the Rust's answers, for a replay that needs no Rust. README.md gives the layout of the file.

use crate::book::{self, Book, Sort};
use crate::compare::{fully, partly, rule, Rule, RULES};
use crate::generate;
use crate::ours::End;
use crate::profile::{Profile, PROFILES};
use crate::rust::{self, Answer};
use crate::words::unhex;

/// Books that every list has: 01's worked book, those of docs/DIFFERENCES.md, some about markers, and some with inverse
/// roles on the left.
const FIXED: &str = include_str!("../books.txt");

/// Of each profile, so many books of each rule and verdict, as far as the places searched have them.
const EACH: usize = 8;
const SEARCHED: u64 = 1500;
const SEED: u64 = 2026;
/// Books near the limits are cut to so many statements: their numbers count here, not their size.
const STATEMENTS_AT_LIMITS: usize = 150;
/// Where an answer depends on the run, what so many runs have together is recorded.
const RUNS: usize = 64;
/// What the program of document 01 lends: a replay needs no more.
pub const BUDGET: usize = 4000;
pub const PAIRS: usize = 2000;

pub struct Record {
    pub book: Vec<u8>,
    pub rule: Rule,
    pub answer: Answer,
}

/// The Rust's answer, or, where it depends on the run, all that came in some run.
pub fn answer(book: &Book, rule: Rule) -> Answer {
    let mut all = rust::run(book);
    for _ in 1..if rule == Rule::Partly { RUNS } else { 1 } {
        let next = rust::run(book);
        all.clash |= next.clash;
        all.edges.extend(next.edges);
        all.pairs.extend(next.pairs);
    }
    if all.clash {
        (all.edges, all.pairs) = (vec![], vec![]);
    }
    all.edges.sort_unstable();
    all.edges.dedup();
    all.pairs.sort_unstable();
    all.pairs.dedup();
    // counts are compared under the full rules alone, and not beside a clash
    if all.clash || rule == Rule::Partly {
        (all.types, all.edge_additions) = (0, 0);
    }
    all
}

/// Whether a run stays within the program's lists, whatever the Rust misses.
fn fits(book: &Book, rule: Rule) -> bool {
    let individuals = book.counts[book::INDIVIDUALS];
    if rule == Rule::Partly {
        return book.bound() <= BUDGET && individuals * individuals.saturating_sub(1) / 2 <= PAIRS;
    }
    let mut open = book.clone();
    open.statements.retain(|s| s.kind != book::DISJOINT);
    let answer = rust::run(&open);
    answer.types + answer.edge_additions <= BUDGET as u64 && answer.pairs.len() <= PAIRS
}

fn cut(mut book: Book) -> Book {
    book.statements.truncate(STATEMENTS_AT_LIMITS);
    let concepts = |s: &book::Statement| {
        (0..s.fields.len()).filter(|&i| s.sort(i) == Sort::Concept).map(|i| s.fields[i] as usize + 1).max()
    };
    // a part has a lower number than its whole
    let used = book.statements.iter().filter_map(concepts).max().unwrap_or(0);
    book.concepts.truncate(used);
    book
}

fn record(book: &Book, rule: Rule) -> Record {
    Record { book: book.bytes(), rule, answer: answer(book, rule) }
}

fn fixed(line: &str) -> Record {
    let book = unhex(line).and_then(|data| Book::read(&data).ok()).expect("books.txt has accepted books");
    record(&book, rule(&book))
}

pub fn records() -> Vec<Record> {
    let mut out: Vec<Record> = FIXED.lines().filter(|line| !line.starts_with('#')).map(fixed).collect();
    for profile in PROFILES {
        let mut found = [[0; 2]; 2];
        for place in 0..SEARCHED {
            let mut book = generate::book(profile, SEED, place).shared();
            if profile == Profile::Limits {
                book = cut(book);
            }
            let first = rust::run(&book);
            if !first.clash && first.types + first.edge_additions == 0 {
                continue;
            }
            let rule = rule(&book);
            if found[rule as usize][usize::from(first.clash)] == EACH || !fits(&book, rule) {
                continue;
            }
            let record = record(&book, rule);
            found[rule as usize][usize::from(record.answer.clash)] += 1;
            out.push(record);
            if found == [[EACH; 2]; 2] {
                break;
            }
        }
    }
    out
}

impl Record {
    pub fn bytes(&self) -> Vec<u8> {
        let Answer { clash, types, edge_additions, edges, pairs } = &self.answer;
        assert!(
            self.rule == Rule::Partly || *edge_additions == edges.len() as u64,
            "the edge count is that of the list"
        );
        let head =
            [self.book.len(), self.rule as usize + 1, usize::from(*clash), *types as usize, edges.len(), pairs.len()];
        let put = |n: usize| u16::try_from(n).expect("a recorded number has two bytes").to_le_bytes();
        let mut out: Vec<u8> = head.into_iter().flat_map(put).collect();
        out.extend(&self.book);
        out.extend(edges.iter().flatten().flat_map(|&n| put(n as usize)));
        out.extend(pairs.iter().flatten().flat_map(|&n| put(n as usize)));
        out
    }

    /// The record at the front of the bytes, and those behind it.
    pub fn read(data: &[u8]) -> Option<(Self, &[u8])> {
        let number = |at: usize| data.get(at..at + 2).map(|two| u32::from(two[0]) | u32::from(two[1]) << 8);
        let head = [number(0)?, number(2)?, number(4)?, number(6)?, number(8)?, number(10)?].map(|n| n as usize);
        let [length, rule, clash, types, edges, pairs] = head;
        let from = 12 + length;
        let behind = from + 6 * edges;
        let edge = |i: usize| Some([number(from + 6 * i)?, number(from + 6 * i + 2)?, number(from + 6 * i + 4)?]);
        let pair = |i: usize| Some([number(behind + 4 * i)?, number(behind + 4 * i + 2)?]);
        let answer = Answer {
            clash: clash == 1,
            types: types as u64,
            edge_additions: edges as u64,
            edges: (0..edges).map(edge).collect::<Option<_>>()?,
            pairs: (0..pairs).map(pair).collect::<Option<_>>()?,
        };
        let rule = *RULES.get(rule.checked_sub(1)?)?;
        Some((Self { book: data.get(12..from)?.to_vec(), rule, answer }, data.get(behind + 4 * pairs..)?))
    }

    /// Whether our end agrees by the record's rule.
    pub fn agrees(&self, ours: &End) -> Result<(), String> {
        match ours {
            End::Spent | End::Refused(_) => Err(format!("ours: {ours}")),
            _ if self.rule == Rule::Partly => partly(ours, &self.answer),
            _ => fully(ours, &self.answer),
        }
    }
}
