//! Lays the two given files into the build folder, their text unchanged, and links our library where it is built.
//!
//! ZAMOLUVEL_RUST: the folder of the given files, from the repository's root; `../shared/docs/src` if unset. They go
//! by the names of its index, or by their paths in a checkout of rustdl.
//! ZAMOLUVEL_LIB: the folder of `libzamoluvel.a`, from the repository's root; unset or empty: built without it.

use std::path::{Path, PathBuf};
use std::{env, fs};

const IR: [&str; 2] = ["src--crates--owl-dl-core--src--ir.rs.txt", "crates/owl-dl-core/src/ir.rs"];
const SATURATION: [&str; 2] =
    ["src--crates--owl-dl-reasoner--src--abox_saturation.rs.txt", "crates/owl-dl-reasoner/src/abox_saturation.rs"];

/// Set behind the text of ir.rs. `ConceptPool::and` flattens, sorts and folds its operands, and `min` folds a bound
/// of 0; a book keeps every concept as it is written, nesting included. `intern_raw` stores an expression as it is,
/// but is private to its module, so this function stands in the same module.
const AS_WRITTEN: &str = "
impl ConceptPool {
    pub fn as_written(&mut self, expr: ConceptExpr) -> ConceptId {
        self.intern_raw(expr)
    }
}
";

/// What the variable names, if it is set and not empty.
fn folder(root: &Path, variable: &str) -> Option<PathBuf> {
    println!("cargo::rerun-if-env-changed={variable}");
    env::var_os(variable).filter(|name| !name.is_empty()).map(|name| root.join(name))
}

fn given(folder: &Path, names: [&str; 2]) -> String {
    let found = names.iter().map(|name| folder.join(name)).find(|path| path.is_file());
    let path = found.unwrap_or_else(|| panic!("{} has no {}; set ZAMOLUVEL_RUST", folder.display(), names[0]));
    println!("cargo::rerun-if-changed={}", path.display());
    fs::read_to_string(path).expect("a given file is text")
}

fn main() {
    let package = PathBuf::from(env::var_os("CARGO_MANIFEST_DIR").expect("set by cargo"));
    let root = package.parent().expect("the package is a folder of the repository");
    let out = PathBuf::from(env::var_os("OUT_DIR").expect("set by cargo"));

    let source = folder(root, "ZAMOLUVEL_RUST").unwrap_or_else(|| root.join("../shared/docs/src"));
    fs::write(out.join("ir.rs"), given(&source, IR) + AS_WRITTEN).expect("the build folder can be written");
    fs::write(out.join("abox_saturation.rs"), given(&source, SATURATION)).expect("the build folder can be written");
    // A file with inner attributes cannot be included, only named as a module's path.
    let module =
        |name: &str| format!("#[allow(dead_code)]\n#[path = {:?}]\npub mod {name};\n", out.join(format!("{name}.rs")));
    fs::write(out.join("given.rs"), module("ir") + &module("abox_saturation"))
        .expect("the build folder can be written");

    println!("cargo::rustc-check-cfg=cfg(library)");
    if let Some(folder) = folder(root, "ZAMOLUVEL_LIB") {
        println!("cargo::rerun-if-changed={}", folder.join("libzamoluvel.a").display());
        println!("cargo::rustc-cfg=library");
        println!("cargo::rustc-link-search=native={}", folder.display());
        println!("cargo::rustc-link-lib=static=zamoluvel");
    }
}
