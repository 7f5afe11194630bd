//! Writes the module declarations that point at the judged files where they lie, so that no
//! copy of them is made and none can drift.

use std::path::{Path, PathBuf};
use std::{env, fs};

/// Module path of each judged file, and the file below `crates/openquant/src`.
const FILES: [(&str, &str); 3] = [
    ("cross_validation", "cross_validation.rs"),
    ("backtesting_engine", "backtesting_engine.rs"),
    ("util::stats", "util/stats.rs"),
];

fn main() {
    println!("cargo:rerun-if-env-changed=OPENQUANT_SRC");
    let here = PathBuf::from(env::var("CARGO_MANIFEST_DIR").expect("set by cargo"));
    let root = env::var("OPENQUANT_SRC")
        .map_or_else(|_| here.join("../../../shared/docs/src"), PathBuf::from);
    let modules: String = FILES.iter().map(|(name, file)| declare(&root, name, file)).collect();
    let out = PathBuf::from(env::var("OUT_DIR").expect("set by cargo"));
    fs::write(out.join("modules.rs"), modules).expect("OUT_DIR can be written");
}

fn declare(root: &Path, name: &str, file: &str) -> String {
    let path = root.join("crates/openquant/src").join(file);
    let path = path.canonicalize().unwrap_or_else(|e| panic!("{}: {e}", path.display()));
    println!("cargo:rerun-if-changed={}", path.display());
    let leaf = name.rsplit("::").next().expect("a name has a last part");
    let module = format!("#[path = {path:?}]\npub mod {leaf};\n");
    match name.split_once("::") {
        Some((outer, _)) => format!("pub mod {outer} {{\n{module}}}\n"),
        None => module,
    }
}
