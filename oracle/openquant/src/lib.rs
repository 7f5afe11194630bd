//! The judged files, byte for byte as they lie in the source tree: `build.rs` writes the
//! declarations, `../build` compares their sums. Nothing is added beside them.

include!(concat!(env!("OUT_DIR"), "/modules.rs"));
