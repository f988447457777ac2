//! Finds the Rust source of cutile-ir and writes the module tree that compiles it where it stands.

use std::path::{Path, PathBuf};
use std::{env, fs};

/// The folder `src` of cutile-ir: below `TIKOMUCI_RUST_SOURCE`, or below `shared/docs/src` beside the repository.
fn source() -> PathBuf {
    println!("cargo:rerun-if-env-changed=TIKOMUCI_RUST_SOURCE");
    let beside = Path::new(env!("CARGO_MANIFEST_DIR")).join("../../../../shared/docs/src");
    let root = env::var_os("TIKOMUCI_RUST_SOURCE").map_or(beside, PathBuf::from);
    let source = root.join("src");
    fs::canonicalize(&source).unwrap_or_else(|e| panic!("no Rust source at {}: {e}", source.display()))
}

/// A `mod` item for a file that lies elsewhere.
fn module(visibility: &str, name: &str, file: &Path) -> String {
    println!("cargo:rerun-if-changed={}", file.display());
    format!("#[path = {file:?}]\n{visibility} mod {name};\n")
}

/// A constant with the texts that are compiled. That of decoder.rs is the copy up to the line that was added.
fn sources(source: &Path, decoder: &Path, size: usize) -> String {
    let whole = |name: &str| format!("({name:?}, include_bytes!({:?})),\n", source.join(name));
    let texts = ["bytecode/encoding.rs", "bytecode/enums.rs", "ir/types.rs"].map(whole).concat();
    format!(
        "/// The files that are compiled here, by name.\n\
         pub const SOURCES: [(&str, &[u8]); 4] = [\n{texts}\
         (\"bytecode/decoder.rs\", include_bytes!({decoder:?}).split_at({size}).0),\n];\n"
    )
}

fn main() {
    let source = source();
    let out = PathBuf::from(env::var_os("OUT_DIR").expect("cargo sets OUT_DIR"));

    // decoder.rs keeps its reader private. A module below it may use it, so the copy ends with one more line.
    let original = source.join("bytecode/decoder.rs");
    println!("cargo:rerun-if-changed={}", original.display());
    let text = fs::read_to_string(&original).expect("decoder.rs can be read");
    let window = Path::new(env!("CARGO_MANIFEST_DIR")).join("src/window.rs");
    let decoder = out.join("decoder.rs");
    fs::write(&decoder, format!("{text}\n{}", module("pub", "window", &window))).expect("OUT_DIR can be written");

    let tree = format!(
        "#[allow(clippy::all)]\npub mod bytecode {{\n{}{}{}pub use enums::*;\n}}\n\
         #[allow(clippy::all)]\npub mod ir {{\n{}pub use types::*;\n}}\n",
        module("pub", "decoder", &decoder),
        module("pub", "encoding", &source.join("bytecode/encoding.rs")),
        module("", "enums", &source.join("bytecode/enums.rs")),
        module("", "types", &source.join("ir/types.rs")),
    );
    fs::write(out.join("tree.rs"), tree + &sources(&source, &decoder, text.len())).expect("OUT_DIR can be written");
}
