//! Which rule of comparison a book falls under, and whether two answers agree by it. The rules are those of
//! document 02, No. 10.

use crate::book::{self, Book, Statement};
use crate::ours::End;
use crate::rust::{self, Answer};
use std::collections::{BTreeMap, BTreeSet};
use std::fmt::Debug;

#[derive(Clone, Copy, PartialEq, Eq, Debug)]
pub enum Rule {
    /// No told-same statement, and no subject ends with two different fillers of a functional role.
    Fully,
    /// All others: where ours finishes the Rust does, and what it has ours must have too.
    Partly,
}

pub const RULES: [Rule; 2] = [Rule::Fully, Rule::Partly];

pub enum Verdict {
    Fully,
    /// Agreed by the rule; `alike` if a full comparison would have passed as well.
    Partly {
        alike: bool,
    },
    /// Ours was spent or refused by 11, or the book has a kind that the Rust has not.
    Not,
    Disagreement(String),
}

/// The functional role fields; InverseFunctionalRole makes the opposite polarity functional.
fn functional(book: &Book) -> BTreeSet<u16> {
    let field = |s: &Statement| match s.kind {
        book::FUNCTIONAL => Some(s.fields[0]),
        book::INVERSE_FUNCTIONAL => Some(s.fields[0] ^ 1),
        _ => None,
    };
    book.statements.iter().filter_map(field).collect()
}

fn without(book: &Book, kinds: &[u8]) -> Book {
    let mut rest = book.clone();
    rest.statements.retain(|s| !kinds.contains(&s.kind));
    rest
}

/// Asked of the Rust itself, so that no answer of ours decides how it is judged. Without functional roles nothing is
/// merged and, without told-same statements, the Rust's edges are those of the smallest sets. If these have one filler everywhere, they are also
/// the smallest sets of the whole book; if not, the whole book has the two fillers as well.
fn one_filler(book: &Book) -> bool {
    let functional = functional(book);
    if functional.is_empty() {
        return true;
    }
    let answer = rust::run(&without(book, &[book::FUNCTIONAL, book::INVERSE_FUNCTIONAL, book::DISJOINT]));
    let mut fillers = BTreeMap::new();
    functional.iter().all(|field| {
        fillers.clear();
        let of_role = answer.edges.iter().filter(|edge| edge[0] == u32::from(field / 2));
        let mut ends = of_role.map(|&[_, a, b]| if field % 2 == 1 { (b, a) } else { (a, b) });
        ends.all(|(subject, filler)| *fillers.entry(subject).or_insert(filler) == filler)
    })
}

pub fn rule(book: &Book) -> Rule {
    let told_same = book.statements.iter().any(|s| s.kind == book::SAME);
    if !told_same && one_filler(book) {
        Rule::Fully
    } else {
        Rule::Partly
    }
}

fn missing<T: Ord + Debug>(what: &str, of: &[T], from: &[T]) -> Result<(), String> {
    match of.iter().find(|x| from.binary_search(x).is_err()) {
        Some(x) => Err(format!("{what} {x:?}")),
        None => Ok(()),
    }
}

fn equal<T: PartialEq + Debug>(what: &str, ours: T, rust: T) -> Result<(), String> {
    if ours == rust {
        Ok(())
    } else {
        Err(format!("{what}: ours {ours:?}, the Rust {rust:?}"))
    }
}

/// Verdict, edges as sets, same pairs, and without a clash both counts.
pub fn fully(ours: &End, rust: &Answer) -> Result<(), String> {
    equal("clash", matches!(ours, End::Clash { .. }), rust.clash)?;
    if let End::Finished { types, edges, pairs } = ours {
        missing("an edge of ours that the Rust has not:", edges, &rust.edges)?;
        missing("an edge of the Rust that ours has not:", &rust.edges, edges)?;
        equal("same pairs", pairs, &rust.pairs)?;
        equal("type count", types.len() as u64, rust.types)?;
        equal("edge count", edges.len() as u64, rust.edge_additions)?;
    }
    Ok(())
}

/// Where ours finishes the Rust does, and what it has ours has.
pub fn partly(ours: &End, rust: &Answer) -> Result<(), String> {
    if let End::Finished { edges, pairs, .. } = ours {
        equal("clash", false, rust.clash)?;
        missing("an edge of the Rust that ours has not:", &rust.edges, edges)?;
        missing("a pair of the Rust that ours has not:", &rust.pairs, pairs)?;
    }
    Ok(())
}

/// The verdict on our end of an accepted book.
pub fn compare(book: &Book, ours: &End) -> Verdict {
    match ours {
        End::Spent | End::Refused(11) => return Verdict::Not,
        End::Refused(n) => return Verdict::Disagreement(format!("ours refuses an accepted book by {n}")),
        _ => {}
    }
    if book.denies() {
        return Verdict::Not;
    }
    let answer = rust::run(book);
    let full = fully(ours, &answer);
    let rule = rule(book);
    let judged = if rule == Rule::Partly { partly(ours, &answer) } else { full.clone() };
    match (judged, rule) {
        (Err(why), _) => Verdict::Disagreement(format!("{why} ({rule:?})")),
        (Ok(()), Rule::Partly) => Verdict::Partly { alike: full.is_ok() },
        (Ok(()), Rule::Fully) => Verdict::Fully,
    }
}
