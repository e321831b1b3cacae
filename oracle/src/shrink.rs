//! A smaller book on which something still holds.

use crate::book::{Book, Sort, AND, OR};

/// Drops statements, then parts of conjunctions, in runs that halve down to one, as long as `holds` does; then what
/// no statement names.
pub fn smallest(book: &Book, mut holds: impl FnMut(&Book) -> bool) -> Book {
    let mut best = book.clone();
    loop {
        let before = best.clone();
        let length = best.statements.len();
        best = drop_runs(best, length, &mut holds, |book, from, to| {
            book.statements.drain(from..to);
        });
        for c in 0..best.concepts.len() {
            if matches!(best.concepts[c].kind, AND | OR) {
                let length = best.concepts[c].fields.len();
                best = drop_runs(best, length, &mut holds, |book, from, to| {
                    book.concepts[c].fields.drain(from..to);
                });
            }
        }
        let tight = tightened(&best);
        if holds(&tight) {
            best = tight;
        }
        if best == before {
            return best;
        }
    }
}

fn drop_runs(
    mut best: Book,
    mut length: usize,
    holds: &mut impl FnMut(&Book) -> bool,
    cut: impl Fn(&mut Book, usize, usize),
) -> Book {
    let mut run = length;
    while run > 0 {
        let mut from = 0;
        while from + run <= length {
            let mut less = best.clone();
            cut(&mut less, from, from + run);
            if holds(&less) {
                best = less;
                length -= run;
            } else {
                from += run;
            }
        }
        run /= 2;
    }
    best
}

/// The book without the concepts, classes, roles and individuals that no statement names, the others renumbered.
fn tightened(book: &Book) -> Book {
    let mut used = vec![false; book.concepts.len()];
    for s in &book.statements {
        let named = s.fields.iter().enumerate().filter(|&(i, _)| s.sort(i) == Sort::Concept);
        named.for_each(|(_, &c)| used[c as usize] = true);
    }
    for c in (0..used.len()).rev().filter(|&c| used[c]).collect::<Vec<_>>() {
        mark(book, c, &mut used);
    }
    let mut out = book.clone();
    let mut numbers = Renumbering { concepts: new_numbers(&used), seen: [vec![], vec![], vec![]] };
    let mut kept = used.iter();
    out.concepts.retain(|_| *kept.next().expect("one for each concept"));
    for concept in &mut out.concepts {
        for i in 0..concept.fields.len() {
            concept.fields[i] = numbers.of(concept.sort(i), concept.fields[i]);
        }
    }
    for s in &mut out.statements {
        for i in 0..s.fields.len() {
            s.fields[i] = numbers.of(s.sort(i), s.fields[i]);
        }
    }
    out.counts = [0, 1, 2].map(|i| numbers.seen[i].len());
    out
}

fn mark(book: &Book, c: usize, used: &mut [bool]) {
    let concept = &book.concepts[c];
    for (i, &inner) in concept.fields.iter().enumerate() {
        if concept.sort(i) == Sort::Concept && !used[inner as usize] {
            used[inner as usize] = true;
            mark(book, inner as usize, used);
        }
    }
}

fn new_numbers(used: &[bool]) -> Vec<u16> {
    let mut next = 0;
    let number = |&kept: &bool| {
        next += u16::from(kept);
        next - u16::from(kept)
    };
    used.iter().map(number).collect()
}

/// New numbers: of concepts as given, of classes, roles and individuals in the order in which they are met.
struct Renumbering {
    concepts: Vec<u16>,
    seen: [Vec<u16>; 3],
}

impl Renumbering {
    fn of(&mut self, sort: Sort, n: u16) -> u16 {
        match sort {
            Sort::Concept => self.concepts[n as usize],
            Sort::Class => Self::place(&mut self.seen[0], n),
            Sort::Role => 2 * Self::place(&mut self.seen[1], n / 2) + n % 2,
            Sort::Individual => Self::place(&mut self.seen[2], n),
        }
    }

    fn place(seen: &mut Vec<u16>, n: u16) -> u16 {
        let found = seen.iter().position(|&x| x == n);
        found.unwrap_or_else(|| {
            seen.push(n);
            seen.len() - 1
        }) as u16
    }
}
