//! The named books. In the comments p, q, s are roles 0, 1, 2.

use oracle::book::{self, Book};
use oracle::random::Random;

pub const P: u16 = 0;
pub const Q: u16 = 2;
pub const S: u16 = 4;

/// A name, and the books that one timed pass runs.
pub struct Named {
    pub name: String,
    pub books: Vec<Book>,
}

pub fn one(name: &str, book: Book) -> Named {
    Named { name: name.into(), books: vec![book] }
}

pub fn empty(classes: usize, roles: usize, individuals: usize) -> Book {
    let mut book = Book { counts: [classes, roles, individuals], ..Book::default() };
    // concept number c is Atomic c
    (0..classes).for_each(|c| {
        book.concept(book::ATOMIC, &[c as u16]);
    });
    book
}

/// p(0,1), p(1,2), .. over n individuals, p transitive.
pub fn path(n: u16) -> Book {
    let mut book = empty(0, 1, n.into());
    book.tell(book::TRANSITIVE, &[P]);
    (1..n).for_each(|a| book.tell(book::ROLE_ASSERTION, &[P, a - 1, a]));
    book
}

/// The path with its numbers and its statements in reverse.
fn reversed_path(n: u16) -> Book {
    let mut book = empty(0, 1, n.into());
    (1..n).rev().for_each(|a| book.tell(book::ROLE_ASSERTION, &[P, a, a - 1]));
    book.tell(book::TRANSITIVE, &[P]);
    book
}

/// p leads everyone to everyone: a ring, and p transitive.
pub fn everyone(book: &mut Book, n: u16) {
    book.tell(book::TRANSITIVE, &[P]);
    (0..n).for_each(|a| book.tell(book::ROLE_ASSERTION, &[P, a, (a + 1) % n]));
}

pub fn chains_of_two(n: u16) -> Book {
    let mut book = empty(0, 3, n.into());
    everyone(&mut book, n);
    book.tell(book::SUB_ROLE, &[P, P, Q]);
    book.tell(book::SUB_ROLE, &[P, Q, S]);
    book
}

fn chains_of_three(n: u16) -> Book {
    let mut book = empty(0, 3, n.into());
    everyone(&mut book, n);
    book.tell(book::SUB_ROLE, &[P, P, P, Q]);
    book.tell(book::SUB_ROLE, &[Q, P, Q, S]);
    book
}

/// So many statements, 256 classes in a ring of subclasses with random ones beside it; each individual has one class.
pub fn subclasses(statements: u16, individuals: u16) -> Book {
    let mut book = empty(256, 0, individuals.into());
    let mut random = Random::new(1);
    (0..individuals).for_each(|i| book.tell(book::CLASS_ASSERTION, &[i % 256, i]));
    for k in 0..statements.saturating_sub(individuals) {
        let next = if k < 256 { (k + 1) % 256 } else { random.below(256) as u16 };
        book.tell(book::SUB_CLASS, &[k % 256, next]);
    }
    book
}

/// 0 under 1 under 2 .., told from the top, so that a pass in the book's order moves one step; all have class 0.
fn ladder() -> Book {
    let mut book = empty(256, 0, 512);
    (0..255).rev().for_each(|c| book.tell(book::SUB_CLASS, &[c, c + 1]));
    (0..512).for_each(|i| book.tell(book::CLASS_ASSERTION, &[0, i]));
    book
}

/// One subject with n - 1 fillers under a functional role; so many classes, each told of one filler.
pub fn merge_heavy(n: u16, classes: u16) -> Book {
    let mut book = empty(classes.into(), 1, n.into());
    book.tell(book::FUNCTIONAL, &[P]);
    (1..n).for_each(|b| book.tell(book::ROLE_ASSERTION, &[P, 0, b]));
    (0..classes).for_each(|c| book.tell(book::CLASS_ASSERTION, &[c, 1 + c % (n - 1)]));
    book
}

/// 255 subjects, each with two fillers in a row of 256; all classes told of the last filler.
fn merge_deep() -> Book {
    let mut book = empty(256, 1, 512);
    book.tell(book::FUNCTIONAL, &[P]);
    for i in 0..255 {
        book.tell(book::ROLE_ASSERTION, &[P, i, 255 + i]);
        book.tell(book::ROLE_ASSERTION, &[P, i, 256 + i]);
    }
    (0..256).for_each(|c| book.tell(book::CLASS_ASSERTION, &[c, 510]));
    book
}

/// Two lines of n - 1 individuals from the first on under a functional role, whose first are the fillers of one subject under
/// another: each two that are joined share their edges, which joins the next two, lower numbers later.
pub fn joins(book: &mut Book, line: u16, start: u16, first: u16, n: u16) {
    [line, start].into_iter().for_each(|role| book.tell(book::FUNCTIONAL, &[role]));
    for i in first + 2..first + n {
        book.tell(book::ROLE_ASSERTION, &[line, i, i - 1]);
        book.tell(book::ROLE_ASSERTION, &[line, n + i, n + i - 1]);
    }
    book.tell(book::ROLE_ASSERTION, &[start, first, first + n - 1]);
    book.tell(book::ROLE_ASSERTION, &[start, first, first + 2 * n - 1]);
}

pub fn joins_in_a_row(n: u16) -> Book {
    let mut book = empty(0, 2, 2 * usize::from(n));
    joins(&mut book, P, Q, 0, n);
    book
}

/// One subject with nine fillers under each of 64 functional roles, the last of one role the first of the next.
fn joins_of_roles() -> Book {
    let mut book = empty(0, 64, 512);
    for role in 0..64 {
        book.tell(book::FUNCTIONAL, &[2 * role]);
        (0..9).filter(|k| 8 * role + k < 511).for_each(|k| book.tell(book::ROLE_ASSERTION, &[2 * role, 511, 8 * role + k]));
    }
    book
}

/// 16 blocks of 32 told-same individuals and 36 edges between them.
fn same_blocks() -> Book {
    let mut book = empty(0, 1, 512);
    (0..512).filter(|i| i % 32 > 0).for_each(|i| book.tell(book::SAME, &[i - 1, i]));
    (0..36).for_each(|k| book.tell(book::ROLE_ASSERTION, &[P, k % 16 * 32, (k / 16 * 5 + k) % 16 * 32]));
    book
}

/// n told-same individuals and one edge.
pub fn same_class(n: u16) -> Book {
    let mut book = empty(0, 1, n.into());
    (1..n).for_each(|i| book.tell(book::SAME, &[i - 1, i]));
    book.tell(book::ROLE_ASSERTION, &[P, 0, 0]);
    book
}

/// 30 roles, each the inverse of the next, and the first leads everyone to everyone.
fn inverse_web() -> Book {
    let mut book = empty(0, 30, 128);
    everyone(&mut book, 128);
    (0..29).for_each(|r| book.tell(book::INVERSE, &[2 * r, 2 * r + 2]));
    book
}

/// 30 roles, the inverse of each under the next, and the first leads everyone to everyone.
fn inverse_paths() -> Book {
    let mut book = empty(0, 30, 128);
    everyone(&mut book, 128);
    (0..29).for_each(|r| book.tell(book::SUB_ROLE, &[2 * r + 1, 2 * r + 2]));
    book
}

/// Books of one role, two individuals and one to three statements.
fn tiny() -> Vec<Book> {
    let mut random = Random::new(2);
    let book = |_| {
        let mut book = empty(0, 1, 2);
        book.tell(book::ROLE_ASSERTION, &[P, random.below(2) as u16, random.below(2) as u16]);
        for _ in 0..random.below(3) {
            let kinds = [book::TRANSITIVE, book::SYMMETRIC, book::FUNCTIONAL, book::INVERSE_FUNCTIONAL];
            book.tell(kinds[random.below(4)], &[P]);
        }
        book
    };
    (0..10_000).map(book).collect()
}

/// Ands of an Atomic and the And before, 3,840 deep, told of 64 individuals.
fn nested() -> Book {
    let mut book = empty(256, 0, 64);
    let mut inner = 0;
    (0..3840).for_each(|k| inner = book.concept(book::AND, &[k % 256, inner]));
    (0..64).for_each(|i| book.tell(book::CLASS_ASSERTION, &[inner, i]));
    book
}

/// Ands of an Atomic and the And before, 3,840 deep, from a has-value on; 256 classes are under the last, told of 64 individuals.
fn nested_sides() -> Book {
    let mut book = empty(256, 1, 64);
    let nominal = book.concept(book::NOMINAL, &[0]);
    let mut inner = book.concept(book::SOME, &[P, nominal]);
    (0..3837).for_each(|k| inner = book.concept(book::AND, &[k % 256, inner]));
    (0..256).for_each(|c| book.tell(book::SUB_CLASS, &[c, inner]));
    (0..64).for_each(|i| book.tell(book::CLASS_ASSERTION, &[i, i]));
    book
}

/// Ands as above, 2,000 deep, each of them told of an individual.
fn nested_each() -> Book {
    let mut book = empty(256, 1, 512);
    let nominal = book.concept(book::NOMINAL, &[0]);
    let mut inner = book.concept(book::SOME, &[P, nominal]);
    for k in 0..2000 {
        inner = book.concept(book::AND, &[k % 256, inner]);
        book.tell(book::CLASS_ASSERTION, &[inner, k % 512]);
    }
    book
}

/// n nested Ands of two equal parts each: 2^n parts as a tree.
fn shared(n: u16) -> Book {
    let mut book = empty(1, 0, 1);
    let mut inner = 0;
    (0..n).for_each(|_| inner = book.concept(book::AND, &[inner, inner]));
    book.tell(book::CLASS_ASSERTION, &[inner, 0]);
    book
}

/// Three full roles over 512 individuals, a transitive path of 400 in a fourth, and all of 256 classes for everyone.
fn near_a_million() -> Book {
    let mut book = empty(256, 4, 512);
    everyone(&mut book, 512);
    book.tell(book::SUB_ROLE, &[P, Q]);
    book.tell(book::SUB_ROLE, &[P, S]);
    (1..400).for_each(|a| book.tell(book::ROLE_ASSERTION, &[6, a - 1, a]));
    book.tell(book::TRANSITIVE, &[6]);
    let all = book.concept(book::AND, &(0..255).collect::<Vec<u16>>());
    book.tell(book::DOMAIN, &[P, all]);
    book.tell(book::RANGE, &[P, 255]);
    book
}

pub fn all() -> Vec<Named> {
    vec![
        one("transitive path of 400", path(400)),
        one("transitive path of 512, reversed", reversed_path(512)),
        one("dense chains of two, 128 individuals", chains_of_two(128)),
        one("dense chains of three, 64 individuals", chains_of_three(64)),
        one("4,096 subclass statements, 512 individuals", subclasses(4096, 512)),
        one("subclass ladder in the worst order", ladder()),
        one("merge-heavy: 511 fillers of one subject", merge_heavy(512, 256)),
        one("merge-deep: 255 merges in a row", merge_deep()),
        one("joins: 255 in a row, each making the next", joins_in_a_row(256)),
        one("joins: 511 individuals by 64 roles", joins_of_roles()),
        one("told-same: 16 blocks of 32", same_blocks()),
        one("told-same: one class of 512", same_class(512)),
        one("inverse web of 30 roles", inverse_web()),
        one("inverse paths through 30 roles", inverse_paths()),
        Named { name: "10,000 tiny books".into(), books: tiny() },
        one("nested conjunctions, 3,840 deep", nested()),
        one("256 left sides over one, 3,837 deep", nested_sides()),
        one("2,000 nested conjunctions, each told", nested_each()),
        one("shared conjunctions, 20 deep", shared(20)),
        one("4,096 role assertions of 1,023 sources", signed(4096)),
        one("near 1,000,000 facts", near_a_million()),
    ]
}

/// So many statements: an inverse pair, the others random edges over 512 individuals.
pub fn assertions(statements: u16) -> Book {
    let mut book = empty(0, 2, 512);
    let mut random = Random::new(3);
    book.tell(book::INVERSE, &[P, Q]);
    (1..statements)
        .for_each(|_| book.tell(book::ROLE_ASSERTION, &[P, random.below(512) as u16, random.below(512) as u16]));
    book
}

/// The same, each statement by the next of 1,023 sources.
fn signed(statements: u16) -> Book {
    let mut book = assertions(statements);
    book.statements.iter_mut().enumerate().for_each(|(n, statement)| statement.source = 1 + (n % 1023) as u16);
    book
}

/// So many statements: 128 edges over 64 roles and 64 individuals, the others random paths of two.
pub fn paths_of_two(statements: u16) -> Book {
    let mut book = empty(0, 64, 64);
    let mut random = Random::new(4);
    for _ in 0..128 {
        book.tell(
            book::ROLE_ASSERTION,
            &[2 * random.below(64) as u16, random.below(64) as u16, random.below(64) as u16],
        );
    }
    for _ in 128..statements {
        let fields = [0; 3].map(|_| random.below(128) as u16);
        book.tell(book::SUB_ROLE, &fields);
    }
    book
}
