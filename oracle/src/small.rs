//! The small books of document 02, No. 3: one class, one role, two individuals, the concept Atomic 0 and at most two
//! statements. They are made here from the tables of book.rs and put in order by their bytes, so that they say
//! something about the list of crate small; and the Rust's answers to them, in the layout that README.md gives.

use crate::book::{Book, Concept, Sort, Statement, ATOMIC, KINDS};
use crate::compare::{rule, Rule};
use crate::record::answer;
use crate::rust::Answer;

/// Classes, roles, individuals.
const COUNTS: [usize; 3] = [1, 1, 2];

/// Every way to give the statement's fields from the i-th on numbers of the small books.
fn filled(statement: &Statement, i: usize) -> Vec<Statement> {
    if i == statement.fields.len() {
        return vec![statement.clone()];
    }
    let limit = match statement.sort(i) {
        Sort::Role => 2 * COUNTS[1],
        Sort::Individual => COUNTS[2],
        Sort::Class | Sort::Concept => 1,
    };
    let with = |n: usize| {
        let mut next = statement.clone();
        next.fields[i] = n as u16;
        filled(&next, i + 1)
    };
    (0..limit).flat_map(with).collect()
}

fn statements() -> Vec<Statement> {
    let blank = |kind: u8| Statement::field_counts(kind).into_iter().map(move |n| Statement::new(kind, &vec![0; n]));
    KINDS.flat_map(blank).flat_map(|statement| filled(&statement, 0)).collect()
}

/// Fewer statements first, then by bytes.
pub fn books() -> Vec<Book> {
    let book = |statements: &[&Statement]| Book {
        counts: COUNTS,
        concepts: vec![Concept::new(ATOMIC, &[0])],
        statements: statements.iter().map(|&s| s.clone()).collect(),
    };
    let all = statements();
    let mut out = vec![book(&[])];
    out.extend(all.iter().map(|x| book(&[x])));
    out.extend(all.iter().flat_map(|x| all.iter().map(move |y| book(&[x, y]))));
    out.sort_by_cached_key(|book| (book.statements.len(), book.bytes()));
    out
}

/// The Rust's answer in one byte: edges 0(0,0), 0(0,1), 0(1,0), 0(1,1) at bits 0 to 3, the same pair 0 1 at bit 4, the
/// type count at bits 5 and 6; a clash is bit 7 alone.
fn packed(answer: &Answer) -> u8 {
    if answer.clash {
        return 0x80;
    }
    let edges = answer.edges.iter().map(|&[_, a, b]| 1 << (2 * a + b)).sum::<u8>();
    let pairs = answer.pairs.iter().map(|_| 0x10).sum::<u8>();
    edges | pairs | (answer.types as u8) << 5
}

/// The rule of comparison and the answer, a byte each, for every small book in its order; none for those with a kind that the
/// Rust has not.
pub fn records() -> Vec<Option<(Rule, u8)>> {
    let record = |book: &Book| {
        (!book.denies()).then(|| {
            let rule = rule(book);
            (rule, packed(&answer(book, rule)))
        })
    };
    books().iter().map(record).collect()
}
