//! Writes the module declarations of the unchanged Rust sources into OUT_DIR, with absolute paths.
use std::path::{Path, PathBuf};
use std::{env, fs};

const MODULES: [(&str, &str); 6] = [
    ("arithmetic", "arithmetic.rs"),
    ("csp", "csp/mod.rs"),
    ("custom_constraints", "custom_constraints.rs"),
    ("domain", "domain.rs"),
    ("norm_csp", "norm_csp/mod.rs"),
    ("normalizer", "normalizer.rs"),
];

/// The folder docs/src: NOKYREVA_RUST_SRC, else shared/docs/src beside some folder above this package.
fn source_root() -> PathBuf {
    if let Some(given) = env::var_os("NOKYREVA_RUST_SRC") {
        return PathBuf::from(given);
    }
    let package = PathBuf::from(env::var_os("CARGO_MANIFEST_DIR").unwrap_or_default());
    for above in package.ancestors() {
        let folder = above.join("shared/docs/src");
        if folder.join("cspuz_core/src/normalizer.rs").is_file() {
            return folder;
        }
    }
    eprintln!("docs/src not found: set NOKYREVA_RUST_SRC to it");
    std::process::exit(1)
}

fn declaration(name: &str, file: &Path) -> String {
    let lints = "dead_code, unused_imports, clippy::all";
    format!("#[allow({lints})]\n#[path = {:?}]\nmod {name};\n", file.display().to_string())
}

fn main() {
    println!("cargo:rerun-if-env-changed=NOKYREVA_RUST_SRC");
    let root = source_root();
    let folder = root.join("cspuz_core/src");
    let folder = folder.canonicalize().unwrap_or_else(|error| {
        eprintln!("{}: {error}", folder.display());
        std::process::exit(1)
    });
    println!("cargo:rerun-if-changed={}", folder.display());
    let text: String = MODULES.iter().map(|(name, file)| declaration(name, &folder.join(file))).collect();
    let out = PathBuf::from(env::var_os("OUT_DIR").unwrap_or_default());
    fs::write(out.join("sources.rs"), text).expect("OUT_DIR can be written");
}
