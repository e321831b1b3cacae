//! The Rust's answer to a book.

use crate::abox_saturation::{saturate_with, ChainDedupe};
use crate::book::{self, Book, Concept, Sort, Statement};
use crate::ir::{ClassId, ConceptExpr, ConceptId, ConceptPool, IndividualId, Role, RoleId};
use crate::ontology::{Axiom, InternalOntology, SubRolePath, Vocabulary};
use std::fmt;

/// What `saturate_with` returns, as far as it is compared; lists ascend.
#[derive(Clone, PartialEq, Eq, PartialOrd, Ord, Debug)]
pub struct Answer {
    pub clash: bool,
    pub types: u64,
    pub edge_additions: u64,
    pub edges: Vec<[u32; 3]>,
    pub pairs: Vec<[u32; 2]>,
}

fn class(n: u16) -> ClassId {
    ClassId::new(n.into())
}

fn individual(n: u16) -> IndividualId {
    IndividualId::new(n.into())
}

fn role(field: u16) -> Role {
    let id = RoleId::new(u32::from(field / 2));
    if field % 2 == 1 {
        Role::inverse(id)
    } else {
        Role::named(id)
    }
}

/// Of an inverse role on the left the Rust draws nothing where the path has one role, nor by its domain or range. Such
/// a statement is turned round to the named role, and says the same: the inverse of p under q becomes p under the
/// inverse of q, a domain of the inverse of p a range of p, and a range of it a domain.
fn turn(statement: &mut Statement) {
    let Statement { kind, fields, .. } = statement;
    match *kind {
        book::SUB_ROLE if fields.len() == 2 && fields[0] % 2 == 1 => fields.iter_mut().for_each(|role| *role ^= 1),
        book::DOMAIN | book::RANGE if fields[0] % 2 == 1 => {
            *kind = if *kind == book::DOMAIN { book::RANGE } else { book::DOMAIN };
            fields[0] ^= 1;
        }
        _ => {}
    }
}

/// Whether a statement of the book is turned round.
pub fn turns(book: &Book) -> bool {
    book.statements.iter().any(|statement| {
        let mut turned = statement.clone();
        turn(&mut turned);
        turned != *statement
    })
}

/// The parts of an And and of the Ands among them, each once. A part has a lower number than its whole.
fn leaves(concepts: &[Concept], and: u16) -> Vec<u16> {
    let (mut due, mut seen, mut out) = (vec![and], vec![false; and as usize + 1], vec![]);
    while let Some(c) = due.pop() {
        if concepts[c as usize].kind != book::AND {
            out.push(c);
            continue;
        }
        for &part in concepts[c as usize].fields.iter().rev() {
            if !std::mem::replace(&mut seen[part as usize], true) {
                due.push(part);
            }
        }
    }
    out
}

/// Of a right side, a domain and a range the Rust reads the direct parts alone. Each And that a statement names is
/// flattened.
fn flatten(book: &mut Book) {
    let named = |s: &Statement| -> Vec<u16> {
        (0..s.fields.len()).filter(|&i| s.sort(i) == Sort::Concept).map(|i| s.fields[i]).collect()
    };
    let mut due: Vec<u16> = book.statements.iter().flat_map(named).collect();
    due.sort_unstable();
    due.dedup();
    due.retain(|&c| book.concepts[c as usize].kind == book::AND);
    for c in due {
        book.concepts[c as usize].fields = leaves(&book.concepts, c);
    }
}

/// The book as the Rust is handed it, with inverse roles on the left turned round and conjunctions flattened.
pub fn ontology(mut book: Book) -> InternalOntology {
    book.statements.iter_mut().for_each(turn);
    flatten(&mut book);
    as_written(&book)
}

/// The book as the Rust takes it. Numbers stay as they are; concepts and statements go in as they are written, without
/// their sources and days.
fn as_written(book: &Book) -> InternalOntology {
    let mut pool = ConceptPool::new();
    let mut ids: Vec<ConceptId> = Vec::new();
    for concept in &book.concepts {
        let f = &concept.fields;
        let parts = || f.iter().map(|&p| ids[p as usize]).collect();
        let expr = match concept.kind {
            book::TOP => ConceptExpr::Top,
            book::BOT => ConceptExpr::Bot,
            book::ATOMIC => ConceptExpr::Atomic(class(f[0])),
            book::NOMINAL => ConceptExpr::Nominal(individual(f[0])),
            book::SELF_RESTRICTION => ConceptExpr::SelfRestriction(role(f[0])),
            book::NOT => ConceptExpr::Not(ids[f[0] as usize]),
            book::AND => ConceptExpr::And(parts()),
            book::OR => ConceptExpr::Or(parts()),
            book::SOME => ConceptExpr::Some(role(f[0]), ids[f[1] as usize]),
            book::ALL => ConceptExpr::All(role(f[0]), ids[f[1] as usize]),
            book::MIN => ConceptExpr::Min(concept.bound, role(f[0]), ids[f[1] as usize]),
            _ => ConceptExpr::Max(concept.bound, role(f[0]), ids[f[1] as usize]),
        };
        ids.push(pool.as_written(expr));
    }
    let id = |c: u16| ids[c as usize];
    let axioms = book.statements.iter().map(|statement| {
        let f = &statement.fields;
        match statement.kind {
            book::SUB_CLASS => Axiom::SubClassOf { sub: id(f[0]), sup: id(f[1]) },
            book::EQUIVALENT => Axiom::EquivalentClasses(vec![id(f[0]), id(f[1])]),
            book::DISJOINT => Axiom::DisjointClasses(vec![id(f[0]), id(f[1])]),
            book::INVERSE => Axiom::InverseObjectProperties(role(f[0]), role(f[1])),
            book::SUB_ROLE => {
                let (sup, path) = f.split_last().expect("a path has a super-role");
                let sub = match path {
                    [r] => SubRolePath::Role(role(*r)),
                    _ => SubRolePath::Chain(path.iter().map(|&r| role(r)).collect()),
                };
                Axiom::SubObjectPropertyOf { sub, sup: role(*sup) }
            }
            book::TRANSITIVE => Axiom::TransitiveRole(role(f[0])),
            book::SYMMETRIC => Axiom::SymmetricRole(role(f[0])),
            book::FUNCTIONAL => Axiom::FunctionalRole(role(f[0])),
            book::INVERSE_FUNCTIONAL => Axiom::InverseFunctionalRole(role(f[0])),
            book::DOMAIN => Axiom::ObjectPropertyDomain { role: role(f[0]), domain: id(f[1]) },
            book::RANGE => Axiom::ObjectPropertyRange { role: role(f[0]), range: id(f[1]) },
            book::SAME => Axiom::SameIndividual(vec![individual(f[0]), individual(f[1])]),
            book::CLASS_ASSERTION => Axiom::ClassAssertion { class: id(f[0]), individual: individual(f[1]) },
            book::DIFFERENT | book::DENIAL => unreachable!("the Rust has no such kind"),
            _ => {
                Axiom::ObjectPropertyAssertion { role: role(f[0]), subject: individual(f[1]), object: individual(f[2]) }
            }
        }
    });
    InternalOntology { axioms: axioms.collect(), concepts: pool, vocabulary: Vocabulary }
}

/// The run itself, without a deadline and with rustdl's own choice for chains (a cache from 8 candidates on).
pub fn saturate(ontology: &InternalOntology) -> Answer {
    let result = saturate_with(ontology, None, ChainDedupe::Local { min_candidates: 8 });
    let edge = |(r, a, b): (RoleId, IndividualId, IndividualId)| [r.index(), a.index(), b.index()];
    Answer {
        clash: result.clash,
        types: result.type_additions,
        edge_additions: result.edge_additions,
        edges: result.edges.into_iter().map(edge).collect(),
        pairs: result.derived_same.into_iter().map(|(a, b)| [a.index(), b.index()]).collect(),
    }
}

fn sorted(mut answer: Answer) -> Answer {
    answer.edges.sort_unstable();
    answer.pairs.sort_unstable();
    answer
}

pub fn run(book: &Book) -> Answer {
    sorted(saturate(&ontology(book.clone())))
}

/// Its answer to the statements as they are written; nothing is compared with this one.
pub fn run_as_written(book: &Book) -> Answer {
    sorted(saturate(&as_written(book)))
}

/// rustdl's own variables choose other paths through `saturate_with` or trace it; they have no say here. To be
/// called before the first run.
pub fn forget_variables() {
    for name in ["RUSTDL_TRACE", "RUSTDL_ABOX_CHAIN_BRUTE", "RUSTDL_ABOX_DISJOINT_BRUTE"] {
        std::env::remove_var(name);
    }
}

/// As the program prints an end, without types: the Rust returns their number alone.
impl fmt::Display for Answer {
    fn fmt(&self, f: &mut fmt::Formatter) -> fmt::Result {
        if self.clash {
            return write!(f, "clash {} {}", self.types, self.edge_additions);
        }
        write!(f, "finished {} {} {}", self.types, self.edge_additions, self.pairs.len())?;
        self.edges.iter().try_for_each(|[r, a, b]| write!(f, "\ne {r} {a} {b}"))?;
        self.pairs.iter().try_for_each(|[a, b]| write!(f, "\ns {a} {b}"))
    }
}
