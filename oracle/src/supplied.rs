//! What the two given files lean on and is not at hand. Each declaration says what in them fixes it.

use std::hash::{BuildHasherDefault, Hasher};

/// `hashbrown::HashMap` in ir.rs and `hashbrown::HashSet` in abox_saturation.rs: made, filled, looked up and cloned,
/// never walked, so the standard maps answer the same.
pub type HashMap<K, V> = std::collections::HashMap<K, V, BuildHasherDefault<Fold>>;
pub type HashSet<K> = std::collections::HashSet<K, BuildHasherDefault<Fold>>;

/// One folded multiplication a number, as in foldhash, hashbrown's default. With the standard hash function, chains
/// would take the Rust up to three times as long, and the benchmark would be unfair to it.
#[derive(Default)]
pub struct Fold(u64);

impl Hasher for Fold {
    fn write_u64(&mut self, n: u64) {
        let product = u128::from(self.0 ^ n ^ 0x243F_6A88_85A3_08D3) * 0x9E37_79B9_7F4A_7C15;
        self.0 = product as u64 ^ (product >> 64) as u64;
    }

    fn write_u32(&mut self, n: u32) {
        self.write_u64(n.into());
    }

    fn write_usize(&mut self, n: usize) {
        self.write_u64(n as u64);
    }

    fn write(&mut self, bytes: &[u8]) {
        bytes.iter().for_each(|&byte| self.write_u64(byte.into()));
    }

    fn finish(&self) -> u64 {
        self.0
    }
}

pub mod ontology {
    use crate::ir::{ClassId, ConceptId, ConceptPool, IndividualId, Role, RoleId};

    /// `saturate_with` takes it by reference and reads these three fields: `&internal.concepts` is handed on as a
    /// `&ConceptPool`, `&internal.axioms` is walked, `&internal.vocabulary` has the methods below.
    pub struct InternalOntology {
        pub concepts: ConceptPool,
        pub vocabulary: Vocabulary,
        pub axioms: Vec<Axiom>,
    }

    /// The variants that `saturate_with` matches, with its field names. Field types: a concept goes to
    /// `pool.get(*c)`, a role to `role_key(*r)`, an individual to a queue of `(IndividualId, ClassId)`. Lists are
    /// walked by `iter()` or `windows(2)`. Its other axioms fall under `_ => {}` and are left out; every match has
    /// that arm, so it compiles with these alone.
    pub enum Axiom {
        SubClassOf { sub: ConceptId, sup: ConceptId },
        EquivalentClasses(Vec<ConceptId>),
        DisjointClasses(Vec<ConceptId>),
        InverseObjectProperties(Role, Role),
        SubObjectPropertyOf { sub: SubRolePath, sup: Role },
        TransitiveRole(Role),
        SymmetricRole(Role),
        FunctionalRole(Role),
        InverseFunctionalRole(Role),
        ObjectPropertyDomain { role: Role, domain: ConceptId },
        ObjectPropertyRange { role: Role, range: ConceptId },
        SameIndividual(Vec<IndividualId>),
        ClassAssertion { class: ConceptId, individual: IndividualId },
        ObjectPropertyAssertion { role: Role, subject: IndividualId, object: IndividualId },
    }

    /// Both variants are matched; `roles.len()` and `roles[0]` say that a chain is a list of roles.
    pub enum SubRolePath {
        Role(Role),
        Chain(Vec<Role>),
    }

    /// Names, read for trace lines and for the count of Man and Woman alone: `ends_with` and `{}` ask for text,
    /// `classes().find(|(_, iri)| ..)` for pairs. Books have numbers and no names, so there is none to find.
    pub struct Vocabulary;

    impl Vocabulary {
        pub fn classes(&self) -> impl Iterator<Item = (ClassId, &str)> {
            std::iter::empty()
        }

        pub fn class_iri(&self, _: ClassId) -> &str {
            ""
        }

        pub fn role_iri(&self, _: RoleId) -> &str {
            ""
        }

        pub fn individual_iri(&self, _: IndividualId) -> &str {
            ""
        }
    }
}
