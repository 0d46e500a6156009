//! Links the proved functions, libmuzserlik.a in the folder that MUZSERLIK_ARCHIVE names, else in target/staticlib of the repository, and the
//! header's functions of a table and of a panel.

use std::path::{Path, PathBuf};
use std::process::Command;

/// The variable that names the folder of another archive.
const ARCHIVE: &str = "MUZSERLIK_ARCHIVE";
/// The header's functions with names, each file beside this one.
const SOURCES: [&str; 2] = ["table.c", "panel.c"];

fn variable(name: &str) -> PathBuf {
    PathBuf::from(std::env::var(name).expect("set by cargo"))
}

fn run(program: &str, arguments: &[&str]) {
    let status = Command::new(program).args(arguments).status();
    assert!(status.is_ok_and(|status| status.success()), "{program}");
}

fn text(path: &Path) -> &str {
    path.to_str().expect("a path of plain text")
}

/// The header's inline functions, compiled with its own flags into one library.
fn compile(header: &Path, out: &Path) {
    let flags = [
        "-std=c11",
        "-Wall",
        "-Wextra",
        "-Werror",
        "-pedantic",
        "-O2",
    ];
    let archive = out.join("libheader_calls.a");
    for source in SOURCES {
        let object = out.join(source).with_extension("o");
        let files = ["-I", text(header), "-c", source, "-o", text(&object)];
        run("cc", &[&flags[..], &files].concat());
        run("ar", &["rcs", text(&archive), text(&object)]);
    }
}

fn main() {
    let here = variable("CARGO_MANIFEST_DIR");
    let library = std::env::var(ARCHIVE).map_or(here.join("../../target/staticlib"), PathBuf::from);
    let header = here.join("../../c");
    let out = variable("OUT_DIR");
    compile(&header, &out);
    println!("cargo:rustc-link-search=native={}", out.display());
    println!("cargo:rustc-link-lib=static=header_calls");
    println!("cargo:rustc-link-search=native={}", library.display());
    println!("cargo:rustc-link-lib=static=muzserlik");
    let files = [library.join("libmuzserlik.a"), header.join("muzserlik.h")];
    println!("cargo:rerun-if-env-changed={ARCHIVE}");
    for file in files.into_iter().chain(SOURCES.map(|name| here.join(name))) {
        println!("cargo:rerun-if-changed={}", file.display());
    }
}
