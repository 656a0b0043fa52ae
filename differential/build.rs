//! Writes the module paths of the original, which is compiled unchanged from where it lies, and names the archive to link.
use std::path::{Path, PathBuf};
use std::{env, fs};

const RULES: [&str; 8] = ["checkdigit", "datetime", "iban", "lei", "bic", "amount", "country", "currency"];

fn module(name: &str, file: &Path) -> String {
    format!("#[path = {:?}]\npub mod {name};\n", file.display().to_string())
}

fn main() {
    let here = PathBuf::from(env::var("CARGO_MANIFEST_DIR").unwrap());
    let source = match env::var("MX20022_SRC") {
        Ok(folder) => PathBuf::from(folder),
        Err(_) => here.join("../../shared/docs/src"),
    };
    let source = fs::canonicalize(source.join("crates/mx20022-validate/src")).expect("the original's source");
    let mut text = module("error", &source.join("error.rs"));
    text += "pub mod rules {\n    use crate::error::ValidationError;\n";
    text += "    pub trait Rule: Send + Sync {\n        fn id(&self) -> &str;\n";
    text += "        fn validate(&self, value: &str, path: &str) -> Vec<ValidationError>;\n    }\n";
    for name in RULES {
        text += &module(name, &source.join(format!("rules/{name}.rs")));
    }
    text += "}\npub mod schemes {\n";
    text += &module("common", &source.join("schemes/common.rs"));
    text += "}\n";
    let out = PathBuf::from(env::var("OUT_DIR").unwrap());
    fs::write(out.join("original.rs"), text).unwrap();
    let archive = here.join("../target/staticlib");
    println!("cargo:rustc-link-search=native={}", archive.display());
    println!("cargo:rustc-link-lib=static=stitchbarrow");
    println!("cargo:rerun-if-env-changed=MX20022_SRC");
    println!("cargo:rerun-if-changed={}", source.display());
    println!("cargo:rerun-if-changed={}", archive.join("libstitchbarrow.a").display());
}
