//! The worst books known: each round something small is new (a rung of a ladder), and as much as the format has room
//! for could be tried again. In the comments p, q, s are roles 0, 1, 2.

use crate::books::{empty, everyone, joins, one, Named, P};
use oracle::book::{self, Book};
use oracle::random::Random;

/// Roles that only ladders use.
const STEP: u16 = 126;
const NEXT: u16 = 124;

/// A book of classes and individuals with all roles.
fn roles(classes: usize, individuals: u16) -> Book {
    empty(classes, 64, individuals.into())
}

/// A ladder of links: the role leads the first individual to the next ones, each round one further, up to the end.
fn links(book: &mut Book, role: u16, first: u16, end: u16) {
    book.tell(book::SUB_ROLE, &[role, STEP, role]);
    book.tell(book::ROLE_ASSERTION, &[role, first, first + 1]);
    (first + 2..end).for_each(|a| book.tell(book::ROLE_ASSERTION, &[STEP, a - 1, a]));
}

/// The first n individuals are led to each other by p and so many further roles.
fn dense(book: &mut Book, n: u16, further: u16) {
    everyone(book, n);
    (1..=further).for_each(|role| book.tell(book::SUB_ROLE, &[P, 2 * role]));
}

/// So many chains of three over these fields, in no order: all that there are, and then those again.
fn chains_of_three(book: &mut Book, fields: &[u16], count: usize) {
    let (n, all) = (fields.len(), fields.len().pow(4));
    for k in 0..count {
        // 1,009 is a prime and divides no such number
        let mut rest = k * 1009 % all;
        let chain = [0; 4].map(|_| {
            let field = fields[rest % n];
            rest /= n;
            field
        });
        book.tell(book::SUB_ROLE, &chain);
    }
}

/// The fields of the first roles, and those of them that are not inverses.
fn fields(roles: u16) -> Vec<u16> {
    (0..2 * roles).collect()
}

fn forward(roles: u16) -> Vec<u16> {
    (0..roles).map(|role| 2 * role).collect()
}

/// n individuals dense under p, q and s, 3,000 chains of three over these, and so many joins from the first on.
fn dense_joins(individuals: u16, n: u16, apart: bool, first: u16, rungs: u16) -> Book {
    let mut book = roles(0, individuals);
    dense(&mut book, n, 2);
    if apart {
        // a loop that no chain leads to from elsewhere: no subject has all that a chain could lead to
        book.tell(book::ROLE_ASSERTION, &[P, 511, 511]);
    }
    chains_of_three(&mut book, &fields(3), 3000);
    joins(&mut book, STEP, NEXT, first, rungs + 1);
    book
}

/// The dense book on n individuals with as many joins as there is room for.
pub fn dense_all(n: u16) -> Book {
    dense_joins(n, n, false, 0, n / 2 - 1)
}

/// n of so many individuals dense under seven roles, and 3,000 chains of three over these; each round p, and with it the
/// others, has one new link, which every chain reads.
fn linked(n: u16, individuals: u16) -> Book {
    let mut book = roles(0, individuals);
    dense(&mut book, n, 6);
    chains_of_three(&mut book, &forward(7), 3000);
    links(&mut book, P, n, individuals);
    book
}

pub fn linked_half(n: u16) -> Book {
    linked(n / 2, n)
}

/// One link a round along n individuals.
pub fn line(n: u16) -> Book {
    let mut book = roles(0, n);
    links(&mut book, P, 0, n);
    book
}

/// n individuals dense under p, q, s and one more role, 3,500 chains of three over some of their fields, and a ladder of
/// links.
fn many_chains(n: u16, apart: bool, fields: &[u16], end: u16) -> Book {
    let mut book = roles(0, 512);
    dense(&mut book, n, 3);
    if apart {
        book.tell(book::ROLE_ASSERTION, &[P, 511, 511]);
    }
    chains_of_three(&mut book, fields, 3500);
    links(&mut book, NEXT, n, end);
    book
}

/// Loops of n individuals under 62 roles, and 3,300 different chains of two over their 124 fields: each chain leads each
/// individual to itself alone, so that it has to be gone through; and a ladder of links.
fn loops(n: u16, end: u16) -> Book {
    let mut book = roles(0, end);
    (0..n).for_each(|a| book.tell(book::ROLE_ASSERTION, &[P, a, a]));
    (1..62).for_each(|role| book.tell(book::SUB_ROLE, &[P, 2 * role]));
    for k in 0..3300 {
        // different in their first two fields
        book.tell(book::SUB_ROLE, &[k % 124, k / 124 * 4 % 124, k * 7 % 124]);
    }
    links(&mut book, NEXT, n, end);
    book
}

pub fn loops_of_half(n: u16) -> Book {
    loops(n / 2, n)
}

/// A conjunction of has-values over these fields and the first n individuals, by nested conjunctions of at most 250 parts.
fn values(book: &mut Book, fields: &[u16], n: u16) -> u16 {
    let nominals: Vec<u16> = (0..n).map(|b| book.concept(book::NOMINAL, &[b])).collect();
    let pairs = nominals.iter().flat_map(|&nominal| fields.iter().map(move |&field| [field, nominal]));
    let parts: Vec<u16> = pairs.map(|pair| book.concept(book::SOME, &pair)).collect();
    let wholes: Vec<u16> = parts.chunks(250).map(|parts| book.concept(book::AND, parts)).collect();
    book.concept(book::AND, &wholes)
}

/// 256 classes under one conjunction of 2,880 has-values; one individual is of all classes; and a ladder of links.
fn left_sides() -> Book {
    let mut book = roles(256, 512);
    let all = values(&mut book, &forward(60), 48);
    (0..256).for_each(|c| book.tell(book::SUB_CLASS, &[c, all]));
    (0..256).for_each(|c| book.tell(book::CLASS_ASSERTION, &[c, 511]));
    links(&mut book, NEXT, 60, 440);
    book
}

/// Class c has a value under role c, and the range of that role is class c + 1, for 60 roles; beside them 195 classes under
/// one conjunction of 2,000 has-values, all of them those of one individual.
fn value_ladder() -> Book {
    let mut book = roles(256, 512);
    for c in 0..60 {
        let nominal = book.concept(book::NOMINAL, &[101 + c]);
        let value = book.concept(book::SOME, &[2 * c, nominal]);
        book.tell(book::SUB_CLASS, &[c, value]);
        book.tell(book::RANGE, &[2 * c, c + 1]);
    }
    book.tell(book::CLASS_ASSERTION, &[0, 100]);
    let all = values(&mut book, &[120, 121, 122, 123], 500);
    (61..256).for_each(|c| book.tell(book::SUB_CLASS, &[c, all]));
    (61..256).for_each(|c| book.tell(book::CLASS_ASSERTION, &[c, 511]));
    book
}

/// 255 classes, each under the conjunction of them all; n individuals are of all of them; and a ladder of links.
fn classes(n: u16, end: u16) -> Book {
    let mut book = roles(256, end);
    let all = book.concept(book::AND, &(0..255).collect::<Vec<u16>>());
    (0..255).for_each(|c| book.tell(book::SUB_CLASS, &[c, all]));
    (0..n).for_each(|i| book.tell(book::CLASS_ASSERTION, &[0, i]));
    links(&mut book, NEXT, n, end);
    book
}

pub fn classes_of_half(n: u16) -> Book {
    classes(n / 2, n)
}

/// Domain and range of 62 roles are 255 classes, and each role leads one individual to itself; and a ladder of links.
fn domains(end: u16) -> Book {
    let mut book = roles(256, end);
    let all = book.concept(book::AND, &(0..255).collect::<Vec<u16>>());
    for role in 0..62 {
        [book::DOMAIN, book::RANGE].into_iter().for_each(|kind| book.tell(kind, &[2 * role, all]));
        book.tell(book::ROLE_ASSERTION, &[2 * role, 0, 0]);
    }
    links(&mut book, NEXT, 1, end);
    book
}

/// 62 roles dense on n individuals, and 3,400 statements that one is under another; and a ladder of links.
fn inclusions(n: u16, end: u16) -> Book {
    let mut book = roles(0, end);
    dense(&mut book, n, 61);
    for k in 0..3400 {
        book.tell(book::SUB_ROLE, &[k % 124, (k / 124 * 4 + k) % 124]);
    }
    links(&mut book, NEXT, n, end);
    book
}

pub fn inclusions_of_fifth(n: u16) -> Book {
    inclusions(n / 5, n)
}

/// A told-same class of n individuals, whom each of 62 roles leads to the same k of them; and a ladder of links.
fn told_same(n: u16, k: u16, end: u16) -> Book {
    let mut book = roles(0, end);
    (1..n).for_each(|i| book.tell(book::SAME, &[i - 1, i]));
    // to individuals that are not of the class
    (0..k).for_each(|b| book.tell(book::ROLE_ASSERTION, &[P, 0, n + b]));
    (1..62).for_each(|role| book.tell(book::SUB_ROLE, &[P, 2 * role]));
    links(&mut book, NEXT, n + k, end);
    book
}

/// 62 functional roles lead n individuals to two that are told to be the same; and so many joins, one a round.
fn functional(n: u16, rungs: u16) -> Book {
    let mut book = roles(0, 512);
    (0..62).for_each(|role| book.tell(book::FUNCTIONAL, &[2 * role]));
    (1..62).for_each(|role| book.tell(book::SUB_ROLE, &[P, 2 * role]));
    book.tell(book::SAME, &[0, 1]);
    (2..n + 2).for_each(|a| book.tell(book::ROLE_ASSERTION, &[P, a, 0]));
    joins(&mut book, STEP, NEXT, n + 2, rungs + 1);
    book
}

/// A line of n individuals under a functional role, of which the first two are told to be the same: their class grows by
/// one a round. The book has so many individuals.
fn growing(n: u16, individuals: u16) -> Book {
    let mut book = roles(0, individuals);
    book.tell(book::FUNCTIONAL, &[P]);
    book.tell(book::SAME, &[0, 1]);
    (1..n).for_each(|a| book.tell(book::ROLE_ASSERTION, &[P, a - 1, a]));
    book
}

pub fn growing_class(n: u16) -> Book {
    growing(n, n)
}

/// The same with the first told last, so that each one that joins comes before all that have.
fn growing_down(n: u16) -> Book {
    let mut book = roles(0, n);
    book.tell(book::FUNCTIONAL, &[P]);
    book.tell(book::SAME, &[n - 1, n - 2]);
    (1..n).for_each(|a| book.tell(book::ROLE_ASSERTION, &[P, a, a - 1]));
    book
}

/// The first n individuals are led by 60 roles to the last two, which are told to be the same.
fn beside(book: &mut Book, n: u16) {
    (2..=60).for_each(|role| book.tell(book::SUB_ROLE, &[2, 2 * role]));
    book.tell(book::SAME, &[510, 511]);
    (0..n).for_each(|a| book.tell(book::ROLE_ASSERTION, &[2, a, 510]));
}

/// A class that grows, each of whose members has two fillers under 60 further functional roles.
fn growing_beside() -> Book {
    let mut book = growing(510, 512);
    (1..=60).for_each(|role| book.tell(book::FUNCTIONAL, &[2 * role]));
    beside(&mut book, 510);
    book
}

/// A class that grows, each of whose members 60 roles lead to and fro.
fn growing_to_and_fro() -> Book {
    let mut book = growing(510, 512);
    book.tell(book::SYMMETRIC, &[2]);
    beside(&mut book, 510);
    book
}

/// The same, where a pair that is told to be the same comes to it in each round.
fn growing_by_pairs() -> Book {
    let mut book = roles(0, 512);
    book.tell(book::FUNCTIONAL, &[P]);
    book.tell(book::SAME, &[0, 2]);
    (0..254).for_each(|i| book.tell(book::SAME, &[2 * i, 2 * i + 1]));
    (1..254).for_each(|i| book.tell(book::ROLE_ASSERTION, &[P, 2 * i - 2, 2 * i]));
    book.tell(book::SYMMETRIC, &[2]);
    beside(&mut book, 508);
    book
}

/// 200 joins in a row, and beside them 3,200 statements of several kinds over other individuals and roles.
fn joins_beside() -> Book {
    let mut book = roles(256, 512);
    let mut random = Random::new(5);
    joins(&mut book, STEP, NEXT, 0, 201);
    for k in 0..3200 {
        let [role, above, sup] = [0; 3].map(|_| random.below(20) as u16);
        let [a, b] = [0; 2].map(|_| 402 + random.below(110) as u16);
        let [c, d] = [0; 2].map(|_| random.below(200) as u16);
        match k % 5 {
            0 => book.tell(book::SUB_CLASS, &[c, d.max(c)]),
            1 => book.tell(book::SUB_ROLE, &[40 + role, 80 + above, 40 + sup]),
            2 => book.tell(book::CLASS_ASSERTION, &[200 + c % 56, a]),
            3 if k < 400 => book.tell(book::ROLE_ASSERTION, &[40 + role, a, b]),
            3 => book.tell(book::SUB_ROLE, &[40 + role, 80 + above, 81 + above, 40 + sup]),
            _ => book.tell(book::DOMAIN, &[40 + role, c]),
        }
    }
    book
}

/// Many rounds of one new fact each: a role leads a subject along a line of n individuals, one further each round; from the
/// end of the line the next role does so from its start, and after the last role the next subject has the first. Beside
/// them 3,000 chains over three roles that are dense on eight individuals, if there are to be any.
fn odometer(n: u16, roles_in_turn: u16, subjects: u16, beside: bool) -> Book {
    let mut book = roles(0, n);
    if beside {
        dense(&mut book, 8, 2);
        chains_of_three(&mut book, &fields(3), 3000);
    }
    in_turn(book, n, roles_in_turn, subjects)
}

fn in_turn(mut book: Book, n: u16, roles_in_turn: u16, subjects: u16) -> Book {
    let (first, back) = (6, 122);
    let last = first + 2 * (roles_in_turn - 1);
    (1..n).for_each(|a| book.tell(book::ROLE_ASSERTION, &[STEP, a - 1, a]));
    book.tell(book::ROLE_ASSERTION, &[NEXT, n - 1, 0]);
    for role in (first..=last).step_by(2) {
        book.tell(book::SUB_ROLE, &[role, STEP, role]);
        if role < last {
            book.tell(book::SUB_ROLE, &[role, NEXT, role + 2]);
        }
    }
    book.tell(book::SUB_ROLE, &[back, last, NEXT, first]);
    (1..subjects).for_each(|a| book.tell(book::ROLE_ASSERTION, &[back, a, a - 1]));
    book.tell(book::ROLE_ASSERTION, &[first, 0, 0]);
    book
}

/// The same where two roles take turns along the line, and so no chain leads where its first role does.
fn odometer_of_pairs(n: u16, pairs: u16, subjects: u16, beside: bool) -> Book {
    let mut book = roles(0, n);
    let (first, back) = (6, 122);
    if beside {
        dense(&mut book, 8, 2);
        chains_of_three(&mut book, &fields(3), 3000);
    }
    (1..n).for_each(|a| book.tell(book::ROLE_ASSERTION, &[STEP, a - 1, a]));
    // whichever of the two comes to the end
    book.tell(book::ROLE_ASSERTION, &[NEXT, n - 1, 0]);
    for pair in 0..pairs {
        let [one, other] = [first + 4 * pair, first + 4 * pair + 2];
        book.tell(book::SUB_ROLE, &[one, STEP, other]);
        book.tell(book::SUB_ROLE, &[other, STEP, one]);
        for end in [one, other] {
            if pair + 1 < pairs {
                book.tell(book::SUB_ROLE, &[end, NEXT, one + 4]);
            } else {
                book.tell(book::SUB_ROLE, &[back, end, NEXT, first]);
            }
        }
    }
    (1..subjects).for_each(|a| book.tell(book::ROLE_ASSERTION, &[back, a, a - 1]));
    book.tell(book::ROLE_ASSERTION, &[first, 0, 0]);
    book
}

/// A link goes up through 60 roles, one above the other and told the last first, a role a round; at the top it is carried to the
/// next individual of a line of n, under the first role; and the next subject has it where the line ends.
fn inclusions_in_turn(n: u16, subjects: u16, beside: bool) -> Book {
    let mut book = roles(0, n);
    let (first, last, back) = (0, 118, 122);
    if beside {
        chains_of_three(&mut book, &[120, 121], 3000);
        (0..8).for_each(|a| book.tell(book::ROLE_ASSERTION, &[120, a, (a + 1) % 8]));
        book.tell(book::TRANSITIVE, &[120]);
    }
    (first + 2..=last).step_by(2).rev().for_each(|role| book.tell(book::SUB_ROLE, &[role - 2, role]));
    (1..n).for_each(|a| book.tell(book::ROLE_ASSERTION, &[STEP, a - 1, a]));
    book.tell(book::SUB_ROLE, &[last, STEP, first]);
    book.tell(book::ROLE_ASSERTION, &[NEXT, n - 1, 0]);
    book.tell(book::SUB_ROLE, &[back, last, NEXT, first]);
    (1..subjects).for_each(|a| book.tell(book::ROLE_ASSERTION, &[back, a, a - 1]));
    book.tell(book::ROLE_ASSERTION, &[first, 0, 0]);
    book
}

/// Types go round by round from one individual to the next: class c has as value the next individual under a role whose range is class
/// c + 1; so for 250 classes; beside them 2,000 has-values that no one of these classes has.
fn types_in_turn(beside: bool) -> Book {
    let mut book = roles(256, 512);
    for c in 0..250u16 {
        let nominal = book.concept(book::NOMINAL, &[c + 1]);
        let value = book.concept(book::SOME, &[2 * (c % 60), nominal]);
        book.tell(book::SUB_CLASS, &[c, value]);
        if c < 60 {
            let all: Vec<u16> = (0..250 / 60 + 1).map(|k| c + 60 * k + 1).filter(|&d| d < 251).collect();
            let both = book.concept(book::AND, &all);
            book.tell(book::RANGE, &[2 * c, both]);
        }
    }
    book.tell(book::CLASS_ASSERTION, &[0, 0]);
    if beside {
        let all = values(&mut book, &[120, 121, 122, 123], 480);
        book.tell(book::SUB_CLASS, &[255, all]);
        book.tell(book::CLASS_ASSERTION, &[255, 511]);
    }
    book
}

/// A line of n individuals by 62 roles in turn, each of which carries p on: p leads a subject one further each round.
fn steps_in_turn(n: u16, subjects: u16) -> Book {
    let mut book = roles(0, n);
    (1..62).rev().for_each(|role| book.tell(book::SUB_ROLE, &[P, 2 * role, P]));
    (1..n).for_each(|a| book.tell(book::ROLE_ASSERTION, &[2 * (1 + a % 61), a - 1, a]));
    (0..subjects).for_each(|a| book.tell(book::ROLE_ASSERTION, &[P, a, 0]));
    book
}

/// Many rounds of one new link each, of roles whose domain is 255 classes.
fn odometer_of_domains(n: u16, roles_in_turn: u16, subjects: u16) -> Book {
    let mut book = roles(256, n);
    let all = book.concept(book::AND, &(0..255).collect::<Vec<u16>>());
    (0..roles_in_turn).for_each(|role| book.tell(book::DOMAIN, &[6 + 2 * role, all]));
    in_turn(book, n, roles_in_turn, subjects)
}

pub fn odometer_of(n: u16) -> Book {
    odometer(n, 10, 1, true)
}

pub fn all() -> Vec<Named> {
    vec![
        one("dense: 32 individuals, 3,000 chains, 220 joins", dense_joins(512, 32, false, 32, 220)),
        one("dense: 512 individuals, 3,000 chains, 255 joins", dense_all(512)),
        one("dense, one loop apart: 32 individuals", dense_joins(512, 32, true, 32, 220)),
        one("dense, one loop apart: 250 individuals", dense_joins(512, 250, true, 250, 120)),
        one("linked: 16 dense, 259 rungs that every chain reads", linked(16, 276)),
        one("linked: 256 dense, 255 rungs that every chain reads", linked(256, 512)),
        one("one link a round along 512", line(512)),
        one("3,500 equal chains, 24 dense", many_chains(24, false, &[P], 512)),
        one("3,500 equal chains, 400 dense", many_chains(400, false, &[P], 512)),
        one("3,500 different chains, 24 dense", many_chains(24, false, &fields(4), 512)),
        one("3,500 different chains, 400 dense", many_chains(400, false, &fields(4), 512)),
        one("3,500 different chains, 24 dense, a loop apart", many_chains(24, true, &fields(4), 511)),
        one("3,500 different chains, 400 dense, a loop apart", many_chains(400, true, &fields(4), 511)),
        one("3,300 chains over loops of 50", loops(50, 450)),
        one("3,300 chains over loops of 256", loops(256, 512)),
        one("256 left sides over 2,880 has-values", left_sides()),
        one("has-value and range ladder, 60 roles", value_ladder()),
        one("255 classes each under all, 12 individuals", classes(12, 400)),
        one("255 classes each under all, 256 individuals", classes(256, 512)),
        one("domains: 62 roles, 255 classes", domains(512)),
        one("3,400 inclusions of 62 roles, 7 dense", inclusions(7, 400)),
        one("3,400 inclusions of 62 roles, 120 dense", inclusions(120, 512)),
        one("told-same: 50 under 62 roles", told_same(50, 1, 400)),
        one("told-same: 300 under 62 roles", told_same(300, 40, 512)),
        one("functional: 62 roles of 20", functional(20, 200)),
        one("functional: 62 roles of 200", functional(200, 150)),
        one("one class that grows, 511 joins", growing_class(512)),
        one("the same, from the other end", growing_down(512)),
        one("the same, 60 functional roles beside", growing_beside()),
        one("the same, 60 roles to and fro beside", growing_to_and_fro()),
        one("the same, by pairs", growing_by_pairs()),
        one("200 joins, 3,200 statements beside them", joins_beside()),
        one("3,072 rounds of one link, 3,000 chains beside", odometer(512, 6, 1, true)),
        one("20,480 rounds of one link, 3,000 chains beside", odometer(512, 40, 1, true)),
        one("819,200 rounds of one link", odometer(512, 40, 40, false)),
        one("two roles in turn along 512, 3,000 chains beside", odometer_of_pairs(512, 4, 3, true)),
        one("860,160 rounds of one link, two roles in turn", odometer_of_pairs(512, 28, 60, false)),
        one("a link up through 60 roles, 3,000 chains beside", inclusions_in_turn(300, 1, true)),
        one("a link up through 60 roles, 50 subjects", inclusions_in_turn(300, 50, false)),
        one("types in turn by has-values and ranges", types_in_turn(false)),
        one("the same, 1,920 has-values beside", types_in_turn(true)),
        one("62 steps in turn along 512, one subject", steps_in_turn(512, 1)),
        one("62 steps in turn along 512, 500 subjects", steps_in_turn(512, 500)),
        one("one link a round, of domains of 255 classes", odometer_of_domains(512, 40, 40)),
    ]
}
