//! Takes over the five files of slowrx.rs unchanged and appends to each a
//! module `access` (folder access/) that gives test programs what is private.

use std::path::{Path, PathBuf};
use std::{env, fs, process};

const FILES: [&str; 5] = ["modespec", "resample", "dsp", "sync", "sync_start"];

fn main() {
    println!("cargo:rerun-if-env-changed=ORACLE_SRC");
    let package = PathBuf::from(env::var_os("CARGO_MANIFEST_DIR").expect("set by cargo"));
    let out = PathBuf::from(env::var_os("OUT_DIR").expect("set by cargo"));
    let source = source_folder(&package);
    let mut modules = String::new();
    for name in FILES {
        let rust = read(&source.join(format!("{name}.rs")));
        let access = read(&package.join(format!("access/{name}.rs")));
        let text = format!("{rust}\n{access}");
        fs::write(out.join(format!("{name}.rs")), text).expect("OUT_DIR can be written");
        modules += "#[allow(dead_code, clippy::all, clippy::pedantic)]\n";
        modules += &format!("#[path = \"{name}.rs\"]\npub mod {name};\n");
    }
    fs::write(out.join("modules.rs"), modules).expect("OUT_DIR can be written");
}

/// The folder in ORACLE_SRC, else ../shared/docs/src seen from the repository.
fn source_folder(package: &Path) -> PathBuf {
    match env::var_os("ORACLE_SRC").map(PathBuf::from) {
        Some(folder) if folder.is_relative() => fail(&format!(
            "ORACLE_SRC is {}, but it must be an absolute path",
            folder.display()
        )),
        Some(folder) => folder,
        None => package.join("../../../shared/docs/src"),
    }
}

fn read(file: &Path) -> String {
    println!("cargo:rerun-if-changed={}", file.display());
    fs::read_to_string(file).unwrap_or_else(|error| {
        fail(&format!(
            "{}: {error}\nThe oracle needs the Rust files of slowrx.rs ({}). Put their \
             folder's absolute path into the environment variable ORACLE_SRC.",
            file.display(),
            FILES.map(|name| format!("{name}.rs")).join(", "),
        ))
    })
}

fn fail(message: &str) -> ! {
    eprintln!("error: {message}");
    process::exit(1);
}
