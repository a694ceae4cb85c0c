//! Takes the three Rust files from beside the repository at build time. Nothing of them is kept in the repository.
//!
//! `authority.rs` and `capability/handle/mod.rs` are used byte for byte. `capability/handle/storage.rs` gets one appended line,
//! `mod peek;`, so that the driver can read and fill its private fields. `page.rs` and `wire.rs`, which the sources lack, and
//! `storage/peek.rs` are ours, from `src/stand_ins`.

use std::env;
use std::fs;
use std::path::{Path, PathBuf};

const FILES: [&str; 3] = [
    "src/authority.rs",
    "src/capability/handle/mod.rs",
    "src/capability/handle/storage.rs",
];

fn fnv(bytes: &[u8]) -> u64 {
    let mut hash = 0xcbf2_9ce4_8422_2325u64;
    for byte in bytes {
        hash = (hash ^ u64::from(*byte)).wrapping_mul(0x0000_0100_0000_01b3);
    }
    hash
}

fn write(path: &Path, text: &[u8]) {
    if let Some(parent) = path.parent() {
        fs::create_dir_all(parent).expect("the build directory can be written");
    }
    fs::write(path, text).expect("the build directory can be written");
}

fn main() {
    println!("cargo::rustc-check-cfg=cfg(rust_sources)");
    println!("cargo::rustc-check-cfg=cfg(port)");
    println!("cargo::rerun-if-env-changed=ORACLE_PORT");
    println!("cargo::rerun-if-env-changed=ORACLE_RUST_SOURCES");
    println!("cargo::rerun-if-changed=build.rs");
    println!("cargo::rerun-if-changed=src/stand_ins");

    let manifest = PathBuf::from(env::var_os("CARGO_MANIFEST_DIR").expect("cargo sets CARGO_MANIFEST_DIR"));
    let out = PathBuf::from(env::var_os("OUT_DIR").expect("cargo sets OUT_DIR"));
    let repository = manifest.parent().expect("oracle/ stands in the repository");
    // The port: static libraries in the folder that ORACLE_PORT names.
    if let Some(folder) = env::var_os("ORACLE_PORT").map(PathBuf::from).filter(|folder| !folder.as_os_str().is_empty()) {
        let folder = repository.join(folder);
        println!("cargo::rustc-cfg=port");
        println!("cargo::rustc-link-search=native={}", folder.display());
        for name in ["create", "runner"] {
            println!("cargo::rustc-link-lib=static={name}");
            println!("cargo::rerun-if-changed={}", folder.join(format!("lib{name}.a")).display());
        }
    }
    let given = env::var_os("ORACLE_RUST_SOURCES").map(PathBuf::from);
    let place = repository.join(given.clone().unwrap_or_else(|| PathBuf::from("../shared/docs/src")));

    let mut texts = Vec::new();
    let mut missing = Vec::new();
    for name in FILES {
        let path = place.join(name);
        println!("cargo::rerun-if-changed={}", path.display());
        match fs::read(&path) {
            Ok(text) => texts.push(text),
            Err(error) => missing.push(format!("{name} ({error})")),
        }
    }
    let shown = given.map_or_else(
        || "../shared/docs/src beside the repository".to_string(),
        |path| format!("ORACLE_RUST_SOURCES = {}", path.display()),
    );
    if !missing.is_empty() {
        println!(
            "cargo::warning=the Rust sources are not there ({shown}): {}. The oracle is built without them: only the reading can run.",
            missing.join(", ")
        );
        println!("cargo::rustc-env=ORACLE_SOURCES=none");
        return;
    }

    println!("cargo::rustc-cfg=rust_sources");
    let hashes: Vec<String> = FILES
        .iter()
        .zip(&texts)
        .map(|(name, text)| format!("{name} {} bytes fnv {:016x}", text.len(), fnv(text)))
        .collect();
    println!("cargo::rustc-env=ORACLE_SOURCES={}", hashes.join("; "));

    let handle = out.join("capability/handle");
    write(&out.join("authority.rs"), &texts[0]);
    write(&handle.join("mod.rs"), &texts[1]);
    let mut storage = texts[2].clone();
    storage.extend_from_slice(b"\npub(super) mod peek;\n");
    write(&handle.join("storage.rs"), &storage);
    let ours = manifest.join("src/stand_ins");
    let path_line = |file: &str, name: &str, visibility: &str| {
        format!("#[path = {:?}]\n{visibility} mod {name};\n{visibility} use {name}::*;\n", ours.join(file))
    };
    write(&handle.join("page.rs"), path_line("page.rs", "stand_in", "pub(super)").as_bytes());
    write(&handle.join("storage/peek.rs"), path_line("peek.rs", "stand_in", "pub(in super::super)").as_bytes());
    write(&handle.join("wire.rs"), path_line("driver.rs", "driver", "pub(crate)").as_bytes());
    let roots = format!(
        "#[path = {:?}]\npub(crate) mod authority;\n\
         #[path = {:?}]\npub(crate) mod object;\n\
         pub(crate) mod capability {{\n\
         pub(crate) use crate::authority::Rights;\n\
         pub(crate) use crate::violation::invariant_violation;\n\
         #[path = {:?}]\npub(crate) mod handle;\n}}\n",
        out.join("authority.rs"),
        ours.join("object.rs"),
        handle.join("mod.rs"),
    );
    write(&out.join("sources.rs"), roots.as_bytes());
}
