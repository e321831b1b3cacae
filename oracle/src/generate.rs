//! Random books: each is fixed by its profile, a seed and its place in the run.

use crate::book::{self, Book, Concept, Statement, CLASSES, INDIVIDUALS, LAST_OF_ALL, LIMITS, ROLES, SOURCES};
use crate::profile::{Mix, Profile, PATH_OF_THREE, PATH_OF_TWO};
use crate::random::Random;

/// Ands as a tree have at most this many nodes: the Rust walks the tree, shared parts again and again.
const TREE: usize = 3000;

struct Draft {
    random: Random,
    mix: Mix,
    book: Book,
    /// Of each concept, the nodes of its And tree.
    trees: Vec<usize>,
}

impl Draft {
    fn new(profile: Profile, seed: u64, place: u64) -> Self {
        let mut random = Random::new(seed ^ place.wrapping_mul(0x2545_F491_4F6C_DD1D) ^ (profile as u64) << 56);
        let mix = profile.mix();
        let mut counts = [&mix.classes, &mix.roles, &mix.individuals].map(|range| random.within(range));
        if profile == Profile::Limits {
            for (count, limit) in counts.iter_mut().zip(LIMITS) {
                if random.percent(50) {
                    *count = limit;
                }
            }
        }
        Self { random, mix, book: Book { counts, ..Book::default() }, trees: vec![] }
    }

    fn role(&mut self) -> u16 {
        let named = 2 * self.random.below(self.book.counts[ROLES]);
        (named + usize::from(self.random.percent(self.mix.inverse))) as u16
    }

    fn individual(&mut self) -> u16 {
        self.random.below(self.book.counts[INDIVIDUALS]) as u16
    }

    /// The concept's number: an equal one that stands already, mostly, or a new record; any one at the limit.
    fn concept(&mut self, concept: Concept) -> u16 {
        let found = self.book.concepts.iter().position(|x| *x == concept);
        if let Some(c) = found.filter(|_| self.random.percent(90)) {
            return c as u16;
        }
        if self.book.concepts.len() == LIMITS[3] {
            return self.random.below(LIMITS[3]) as u16;
        }
        let parts = if concept.kind == book::AND { &concept.fields[..] } else { &[] };
        self.trees.push(1 + parts.iter().map(|&p| self.trees[p as usize]).sum::<usize>());
        self.book.concepts.push(concept);
        (self.trees.len() - 1) as u16
    }

    fn class(&mut self, upper: bool) -> u16 {
        let classes = self.book.counts[CLASSES];
        let half = classes / 2;
        let class = match self.mix.apart && half > 0 && self.random.percent(85) {
            true if upper => half + self.random.below(classes - half),
            true => self.random.below(half),
            false => self.random.below(classes),
        };
        self.concept(Concept::new(book::ATOMIC, &[class as u16]))
    }

    fn atomic(&mut self) -> u16 {
        self.class(false)
    }

    fn nominal(&mut self) -> u16 {
        let individual = self.individual();
        self.concept(Concept::new(book::NOMINAL, &[individual]))
    }

    fn conjunction(&mut self, depth: usize) -> u16 {
        let mut parts = vec![];
        let mut nodes = 1;
        for _ in 0..self.random.below(self.mix.parts + 1) {
            // parts that stand already are shared
            let shared = !self.trees.is_empty() && self.random.percent(20);
            let part = if shared { self.random.below(self.trees.len()) as u16 } else { self.right(depth + 1) };
            nodes += self.trees[part as usize];
            if nodes > TREE {
                break;
            }
            parts.push(part);
        }
        self.concept(Concept::new(book::AND, &parts))
    }

    fn anything(&mut self, depth: usize) -> u16 {
        let kind = [book::TOP, book::BOT, book::NOMINAL, book::SELF_RESTRICTION, book::NOT, book::OR, book::SOME]
            .into_iter()
            .chain([book::ALL, book::MIN, book::MAX])
            .nth(self.random.below(10))
            .expect("one of ten");
        let mut concept = match kind {
            book::TOP | book::BOT => Concept::new(kind, &[]),
            book::NOMINAL => return self.nominal(),
            book::SELF_RESTRICTION => Concept::new(kind, &[self.role()]),
            book::NOT => Concept::new(kind, &[self.right(depth + 1)]),
            book::OR => Concept::new(kind, &[self.right(depth + 1), self.right(depth + 1)]),
            _ => Concept::new(kind, &[self.role(), self.right(depth + 1)]),
        };
        if matches!(kind, book::MIN | book::MAX) {
            concept.bound = [0, 1, 2, u32::MAX][self.random.below(4)];
        }
        self.concept(concept)
    }

    /// A concept for a right side or an assertion.
    fn right(&mut self, depth: usize) -> u16 {
        let mut rights = self.mix.rights;
        if depth > 3 {
            (rights[1], rights[4]) = (0, 0);
        }
        let form = self.random.weighted(&rights);
        match form {
            0 => self.atomic(),
            1 => self.conjunction(depth),
            2 => {
                let fields = [self.role(), self.nominal()];
                self.concept(Concept::new(book::SOME, &fields))
            }
            3 => {
                let fields = [self.role(), self.class(true)];
                self.concept(Concept::new(book::SOME, &fields))
            }
            _ => self.anything(depth),
        }
    }

    /// Mostly an Atomic.
    fn left(&mut self) -> u16 {
        if self.random.percent(92) {
            self.atomic()
        } else {
            self.right(0)
        }
    }

    fn statement(&mut self) -> Statement {
        let place = self.random.weighted(&self.mix.kinds);
        let kind = if place >= PATH_OF_TWO { book::SUB_ROLE } else { place as u8 };
        let fields = match kind {
            book::SUB_CLASS => vec![self.left(), self.right(0)],
            book::EQUIVALENT if self.random.percent(50) => vec![self.right(0), self.left()],
            book::EQUIVALENT => vec![self.left(), self.right(0)],
            book::DISJOINT if self.random.percent(95) => vec![self.class(true), self.class(true)],
            book::DISJOINT => vec![self.left(), self.left()],
            book::INVERSE => vec![self.role(), self.role()],
            book::SUB_ROLE => {
                let roles = match place {
                    PATH_OF_TWO => 3,
                    PATH_OF_THREE => 4,
                    _ => 2,
                };
                (0..roles).map(|_| self.role()).collect()
            }
            book::TRANSITIVE | book::SYMMETRIC | book::FUNCTIONAL | book::INVERSE_FUNCTIONAL => vec![self.role()],
            book::DOMAIN | book::RANGE => vec![self.role(), self.right(0)],
            book::SAME => vec![self.individual(), self.individual()],
            book::CLASS_ASSERTION => vec![self.right(0), self.individual()],
            _ => vec![self.role(), self.individual(), self.individual()],
        };
        Statement::new(kind, &fields)
    }
}

pub fn book(profile: Profile, seed: u64, place: u64) -> Book {
    let mut draft = Draft::new(profile, seed, place);
    // Half of the books bring types alone, and half have no told-same individuals, so that each rule of comparison
    // meets merges. Half cannot clash: beside a clash only the verdict is compared.
    if profile != Profile::Markers && draft.random.percent(50) {
        (draft.mix.rights[2], draft.mix.rights[3]) = (0, 0);
    }
    if profile != Profile::Same && draft.random.percent(50) {
        draft.mix.kinds[book::SAME as usize] = 0;
    }
    if profile != Profile::Markers && draft.random.percent(50) {
        draft.mix.kinds[book::DISJOINT as usize] = 0;
    }
    if profile == Profile::Limits && draft.random.percent(50) {
        draft.mix.kinds[book::FUNCTIONAL as usize] = 0;
        draft.mix.kinds[book::INVERSE_FUNCTIONAL as usize] = 0;
    }
    let statements = draft.mix.statements.clone();
    let count = draft.random.within(&statements).min(LIMITS[4]);
    for _ in 0..count {
        let statement = draft.statement();
        draft.book.statements.push(statement);
    }
    sign(&mut draft.book, &mut Random::new(draft.random.below(usize::MAX) as u64));
    draft.book
}

/// Gives statements sources and days: none in half of the books, else from a few numbers or from all. What a book says was
/// drawn before, so it does not depend on this.
fn sign(book: &mut Book, random: &mut Random) {
    if random.percent(50) {
        return;
    }
    let most = [3, SOURCES][random.below(2)];
    for statement in &mut book.statements {
        if random.percent(70) {
            statement.source = random.below(most) as u16;
        }
        if random.percent(40) {
            let days = [random.below(9), random.below(1 << 16)];
            let day = days[random.below(2)] as u16;
            (statement.first, statement.last) = [(day, LAST_OF_ALL), (0, day), (day, day.saturating_add(7))][random.below(3)];
        }
    }
}
