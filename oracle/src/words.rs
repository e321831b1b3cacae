//! A book as text.

use crate::book::{Book, Sort, ATOMIC, BOT, LAST_OF_ALL, MAX, MIN, NOMINAL, TOP};

const CONCEPT_NAMES: [&str; 12] =
    ["Top", "Bot", "Atomic", "Nominal", "Self", "Not", "And", "Or", "Some", "All", "Min", "Max"];

const STATEMENT_NAMES: [&str; 17] = [
    "",
    "SubClassOf",
    "EquivalentClasses",
    "DisjointClasses",
    "InverseObjectProperties",
    "SubObjectPropertyOf",
    "TransitiveRole",
    "SymmetricRole",
    "FunctionalRole",
    "InverseFunctionalRole",
    "ObjectPropertyDomain",
    "ObjectPropertyRange",
    "SameIndividual",
    "ClassAssertion",
    "ObjectPropertyAssertion",
    "DifferentIndividuals",
    "NegativeObjectPropertyAssertion",
];

/// Shared parts make a tree of words as large as they like; deeper ones are left out.
const DEPTH: usize = 10;

impl Book {
    fn concept_words(&self, c: u16, depth: usize) -> String {
        let concept = &self.concepts[c as usize];
        match concept.kind {
            _ if depth == DEPTH => "..".into(),
            TOP | BOT => CONCEPT_NAMES[concept.kind as usize].into(),
            ATOMIC => format!("class {}", concept.fields[0]),
            NOMINAL => format!("{{{}}}", concept.fields[0]),
            MIN | MAX => {
                let (role, inner) = (role_words(concept.fields[0]), self.concept_words(concept.fields[1], depth + 1));
                format!("{}({} {role} {inner})", CONCEPT_NAMES[concept.kind as usize], concept.bound)
            }
            _ => {
                let fields = concept.fields.iter().enumerate().map(|(i, &n)| match concept.sort(i) {
                    Sort::Role => role_words(n),
                    _ => self.concept_words(n, depth + 1),
                });
                format!("{}({})", CONCEPT_NAMES[concept.kind as usize], fields.collect::<Vec<_>>().join(", "))
            }
        }
    }

    /// The book as text, a line a statement.
    pub fn words(&self) -> String {
        let [classes, roles, individuals] = self.counts;
        let mut out = format!("{classes} classes, {roles} roles, {individuals} individuals\n");
        for statement in &self.statements {
            let fields = statement.fields.iter().enumerate().map(|(i, &n)| match statement.sort(i) {
                Sort::Role => role_words(n),
                Sort::Concept => self.concept_words(n, 0),
                _ => n.to_string(),
            });
            let name = STATEMENT_NAMES[statement.kind as usize];
            let source = Some(statement.source).filter(|&n| n != 0).map_or(String::new(), |n| format!(", source {n}"));
            let days = if (statement.first, statement.last) == (0, LAST_OF_ALL) { String::new() } else { format!(", days {} to {}", statement.first, statement.last) };
            out += &format!("{name}({}){source}{days}\n", fields.collect::<Vec<_>>().join(", "));
        }
        out
    }
}

fn role_words(field: u16) -> String {
    format!("{}role {}", if field % 2 == 1 { "inverse " } else { "" }, field / 2)
}

pub fn hex(data: &[u8]) -> String {
    data.iter().map(|byte| format!("{byte:02x}")).collect()
}

pub fn unhex(text: &str) -> Option<Vec<u8>> {
    let text: String = text.chars().filter(|c| !c.is_whitespace()).collect();
    if text.len() % 2 == 1 || !text.is_ascii() {
        return None;
    }
    (0..text.len()).step_by(2).map(|i| u8::from_str_radix(&text[i..i + 2], 16).ok()).collect()
}
