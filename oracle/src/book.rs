//! A book as records, and its bytes. The reading is for accepted books: of a faulty one it says only that it is
//! faulty.

pub const CLASSES: usize = 0;
pub const ROLES: usize = 1;
pub const INDIVIDUALS: usize = 2;

/// Limits of classes, roles, individuals, concepts, statements.
pub const LIMITS: [usize; 5] = [256, 64, 512, 4096, 4096];

pub const TOP: u8 = 0;
pub const BOT: u8 = 1;
pub const ATOMIC: u8 = 2;
pub const NOMINAL: u8 = 3;
pub const SELF_RESTRICTION: u8 = 4;
pub const NOT: u8 = 5;
pub const AND: u8 = 6;
pub const OR: u8 = 7;
pub const SOME: u8 = 8;
pub const ALL: u8 = 9;
pub const MIN: u8 = 10;
pub const MAX: u8 = 11;
const CONCEPT_MAPS: [u8; 12] = [0x00, 0x00, 0x01, 0x02, 0x04, 0x08, 0x10, 0x10, 0x0C, 0x0C, 0x2C, 0x2C];

pub const SUB_CLASS: u8 = 1;
pub const EQUIVALENT: u8 = 2;
pub const DISJOINT: u8 = 3;
pub const INVERSE: u8 = 4;
pub const SUB_ROLE: u8 = 5;
pub const TRANSITIVE: u8 = 6;
pub const SYMMETRIC: u8 = 7;
pub const FUNCTIONAL: u8 = 8;
pub const INVERSE_FUNCTIONAL: u8 = 9;
pub const DOMAIN: u8 = 10;
pub const RANGE: u8 = 11;
pub const SAME: u8 = 12;
pub const CLASS_ASSERTION: u8 = 13;
pub const ROLE_ASSERTION: u8 = 14;
pub const DIFFERENT: u8 = 15;
pub const DENIAL: u8 = 16;
/// The kinds of statements; the Rust has none beyond the assertion of a role.
pub const KINDS: std::ops::RangeInclusive<u8> = SUB_CLASS..=DENIAL;
/// Of each kind of statement, the first of its maps; a path's further maps are 0B and 0F.
const STATEMENT_MAPS: [u16; 17] =
    [0, 0x30, 0x30, 0x30, 0x03, 0x09, 0x01, 0x01, 0x01, 0x01, 0x11, 0x11, 0xC0, 0x50, 0xC1, 0xC0, 0xC1];

/// The fields stand in the order of their bits; those of an And or Or are its parts.
#[derive(Clone, PartialEq, Eq, Debug)]
pub struct Concept {
    pub kind: u8,
    pub fields: Vec<u16>,
    pub bound: u32,
}

/// The bits of a statement's map that say that it has a source, a first day and a last day; the limit of the first, and the
/// last day of all, which an absent one has.
const SOURCE: u16 = 0x0100;
const FIRST: u16 = 0x0200;
const LAST: u16 = 0x0400;
pub const SOURCES: usize = 1024;
pub const LAST_OF_ALL: u16 = 65535;

/// The fields stand in the order of their bits. A role field is twice the role's number, plus 1 for the inverse. The
/// source is 0 for the shared book; both days belong to the period.
#[derive(Clone, PartialEq, Eq, Debug)]
pub struct Statement {
    pub kind: u8,
    pub fields: Vec<u16>,
    pub source: u16,
    pub first: u16,
    pub last: u16,
}

#[derive(Clone, PartialEq, Eq, Debug, Default)]
pub struct Book {
    /// Classes, roles, individuals.
    pub counts: [usize; 3],
    pub concepts: Vec<Concept>,
    pub statements: Vec<Statement>,
}

/// What a field names.
#[derive(Clone, Copy, PartialEq, Eq, Debug)]
pub enum Sort {
    Class,
    Role,
    Individual,
    Concept,
}

impl Concept {
    pub fn new(kind: u8, fields: &[u16]) -> Self {
        Self { kind, fields: fields.to_vec(), bound: 0 }
    }

    /// What the record's i-th field names.
    pub fn sort(&self, i: usize) -> Sort {
        let sorts = [Sort::Class, Sort::Individual, Sort::Role, Sort::Concept];
        let mut set = sorts.iter().enumerate().filter(|(bit, _)| CONCEPT_MAPS[self.kind as usize] >> bit & 1 == 1);
        set.nth(i).map_or(Sort::Concept, |(_, sort)| *sort)
    }
}

impl Statement {
    pub fn new(kind: u8, fields: &[u16]) -> Self {
        Self { kind, fields: fields.to_vec(), source: 0, first: 0, last: LAST_OF_ALL }
    }

    /// How many fields a statement of the kind may have.
    pub fn field_counts(kind: u8) -> Vec<usize> {
        match kind {
            SUB_ROLE => vec![2, 3, 4],
            _ => vec![STATEMENT_MAPS[kind as usize].count_ones() as usize],
        }
    }

    /// Source and days, as far as the statement has them, each with its bit.
    fn marks(&self) -> Vec<(u16, u16)> {
        let all = [(SOURCE, self.source, 0), (FIRST, self.first, 0), (LAST, self.last, LAST_OF_ALL)];
        all.into_iter().filter(|&(_, n, absent)| n != absent).map(|(bit, n, _)| (bit, n)).collect()
    }

    /// Whether it has a source or days.
    pub fn marked(&self) -> bool {
        !self.marks().is_empty()
    }

    /// The bits of the kind's own fields.
    fn map(&self) -> u16 {
        match (self.kind, self.fields.len()) {
            (SUB_ROLE, 3) => 0x0B,
            (SUB_ROLE, 4) => 0x0F,
            _ => STATEMENT_MAPS[self.kind as usize],
        }
    }

    /// What the record's i-th field names.
    pub fn sort(&self, i: usize) -> Sort {
        let bit = (0..8).filter(|bit| self.map() >> bit & 1 == 1).nth(i).expect("a field of the record");
        [Sort::Role, Sort::Concept, Sort::Individual][[0, 0, 0, 0, 1, 1, 2, 2][bit]]
    }
}

struct Cursor<'a> {
    data: &'a [u8],
    at: usize,
}

impl Cursor<'_> {
    fn number(&mut self, size: usize) -> Result<u32, String> {
        let bytes =
            self.data.get(self.at..self.at + size).ok_or_else(|| format!("ends within a field at {}", self.at))?;
        self.at += size;
        Ok(bytes.iter().rev().fold(0, |n, &byte| n << 8 | u32::from(byte)))
    }

    fn below(&mut self, limit: usize) -> Result<u16, String> {
        let n = self.number(2)?;
        if n as usize >= limit {
            return Err(format!("number {n} out of range before {}", self.at));
        }
        Ok(n as u16)
    }
}

impl Book {
    pub fn read(data: &[u8]) -> Result<Self, String> {
        let mut cursor = Cursor { data, at: 0 };
        let header = cursor.number(1)?;
        let mut counts = [0; 5];
        for (bit, count) in counts.iter_mut().enumerate() {
            if header >> bit & 1 == 1 {
                *count = cursor.number(2)? as usize;
                if *count == 0 || *count > LIMITS[bit] {
                    return Err(format!("count {count} in the header"));
                }
            }
        }
        let mut book = Self { counts: [counts[0], counts[1], counts[2]], ..Self::default() };
        for k in 0..counts[3] {
            book.concepts.push(book.read_concept(&mut cursor, k)?);
        }
        for _ in 0..counts[4] {
            book.statements.push(book.read_statement(&mut cursor, counts[3])?);
        }
        if header >> 5 != 0 || cursor.at < data.len() {
            return Err("unused header bits, or bytes behind the last statement".into());
        }
        Ok(book)
    }

    fn limit(&self, sort: Sort, concepts: usize) -> usize {
        match sort {
            Sort::Class => self.counts[CLASSES],
            Sort::Role => 2 * self.counts[ROLES],
            Sort::Individual => self.counts[INDIVIDUALS],
            Sort::Concept => concepts,
        }
    }

    fn read_concept(&self, cursor: &mut Cursor, k: usize) -> Result<Concept, String> {
        let (kind, map) = (cursor.number(1)? as u8, cursor.number(1)? as u8);
        if CONCEPT_MAPS.get(kind as usize) != Some(&map) {
            return Err(format!("concept {k} has kind {kind} with map {map:02x}"));
        }
        let mut concept = Concept::new(kind, &[]);
        let fields = match map {
            0x10 => cursor.number(1)? as usize,
            _ => (map & 0x0F).count_ones() as usize,
        };
        for i in 0..fields {
            let limit = self.limit(concept.sort(i), k);
            concept.fields.push(cursor.below(limit)?);
        }
        if map >> 5 & 1 == 1 {
            concept.bound = cursor.number(4)?;
        }
        Ok(concept)
    }

    fn read_statement(&self, cursor: &mut Cursor, concepts: usize) -> Result<Statement, String> {
        let (kind, map) = (cursor.number(1)? as u8, cursor.number(2)? as u16);
        let own = map & !(SOURCE | FIRST | LAST);
        let mut statement = Statement::new(kind, &vec![0; own.count_ones() as usize]);
        if !KINDS.contains(&kind) || statement.map() != own {
            return Err(format!("a statement has kind {kind} with map {map:02x}"));
        }
        for i in 0..statement.fields.len() {
            let limit = self.limit(statement.sort(i), concepts);
            statement.fields[i] = cursor.below(limit)?;
        }
        if map & SOURCE != 0 {
            statement.source = cursor.below(SOURCES)?;
            if statement.source == 0 {
                return Err("a written source 0".into());
            }
        }
        if map & FIRST != 0 {
            statement.first = cursor.number(2)? as u16;
            if statement.first == 0 {
                return Err("a written first day 0".into());
            }
        }
        if map & LAST != 0 {
            statement.last = cursor.number(2)? as u16;
            if statement.last == LAST_OF_ALL {
                return Err("a written last day 65,535".into());
            }
        }
        if statement.last < statement.first {
            return Err("a last day before the first".into());
        }
        Ok(statement)
    }

    pub fn bytes(&self) -> Vec<u8> {
        let [classes, roles, individuals] = self.counts;
        let counts = [classes, roles, individuals, self.concepts.len(), self.statements.len()];
        let mut out = vec![(0..5).filter(|&bit| counts[bit] > 0).map(|bit| 1 << bit).sum()];
        let put = |out: &mut Vec<u8>, n: u16| out.extend(n.to_le_bytes());
        counts.iter().filter(|&&n| n > 0).for_each(|&n| put(&mut out, n as u16));
        for concept in &self.concepts {
            out.extend([concept.kind, CONCEPT_MAPS[concept.kind as usize]]);
            if matches!(concept.kind, AND | OR) {
                out.push(concept.fields.len() as u8);
            }
            concept.fields.iter().for_each(|&n| put(&mut out, n));
            if matches!(concept.kind, MIN | MAX) {
                out.extend(concept.bound.to_le_bytes());
            }
        }
        for statement in &self.statements {
            out.push(statement.kind);
            let marks = statement.marks();
            put(&mut out, statement.map() | marks.iter().map(|&(bit, _)| bit).sum::<u16>());
            statement.fields.iter().for_each(|&n| put(&mut out, n));
            marks.iter().for_each(|&(_, n)| put(&mut out, n));
        }
        out
    }

    /// A number of facts that no run on the book exceeds, and at most the highest budget.
    pub fn bound(&self) -> usize {
        let [classes, roles, individuals] = self.counts;
        (individuals * classes + roles * individuals * individuals).min(1_000_000)
    }

    /// Whether it has a statement of a kind that the Rust has not.
    pub fn denies(&self) -> bool {
        self.statements.iter().any(|s| s.kind > ROLE_ASSERTION)
    }

    /// Adds the concept, or finds it.
    pub fn concept(&mut self, kind: u8, fields: &[u16]) -> u16 {
        let concept = Concept::new(kind, fields);
        let found = self.concepts.iter().position(|x| *x == concept);
        found.unwrap_or_else(|| {
            self.concepts.push(concept);
            self.concepts.len() - 1
        }) as u16
    }

    pub fn tell(&mut self, kind: u8, fields: &[u16]) {
        self.statements.push(Statement::new(kind, fields));
    }

    /// The book with every statement in the shared book and in force every day.
    pub fn shared(mut self) -> Self {
        for statement in &mut self.statements {
            (statement.source, statement.first, statement.last) = (0, 0, LAST_OF_ALL);
        }
        self
    }

    /// The class of an Atomic.
    pub fn atomic(&self, c: u16) -> Option<u16> {
        let concept = &self.concepts[c as usize];
        (concept.kind == ATOMIC).then(|| concept.fields[0])
    }
}
