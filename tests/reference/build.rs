//! Links the archive under test, whose folder is taken from GOWASHIRU_LIB, and the yardstick, which gcc compiles here.

use std::env;
use std::path::{Path, PathBuf};
use std::process::Command;

const DEFAULT_FOLDER: &str = "../../target/staticlib";
const YARDSTICK: &str = "../yardstick.c";

fn variable(name: &str) -> PathBuf {
    PathBuf::from(env::var(name).expect("cargo names its folders"))
}

fn run(program: &str, words: &[&str]) {
    let status = Command::new(program).args(words).status().unwrap_or_else(|error| panic!("{program}: {error}"));
    assert!(status.success(), "{program} {words:?}: {status}");
}

fn link(name: &str, folder: &Path) {
    println!("cargo:rustc-link-search=native={}", folder.display());
    println!("cargo:rustc-link-lib=static={name}");
}

fn link_archive(project: &Path) {
    println!("cargo:rerun-if-env-changed=GOWASHIRU_LIB");
    // A folder given as an absolute path replaces the project's folder here.
    let folder = project.join(env::var("GOWASHIRU_LIB").unwrap_or_else(|_| DEFAULT_FOLDER.to_string()));
    let archive = folder.join("libgowashiru.a");
    assert!(archive.exists(), "no libgowashiru.a in {}: set GOWASHIRU_LIB to its folder", folder.display());
    println!("cargo:rerun-if-changed={}", archive.display());
    link("gowashiru", &folder);
}

fn link_yardstick(project: &Path) {
    let source = project.join(YARDSTICK);
    println!("cargo:rerun-if-changed={}", source.display());
    let folder = variable("OUT_DIR");
    let path = |name: &str| folder.join(name).display().to_string();
    let (object, library) = (path("yardstick.o"), path("libyardstick.a"));
    let warnings = ["-Wall", "-Wextra", "-Wpedantic", "-Wconversion", "-Wshadow", "-Werror"];
    let source = source.display().to_string();
    run("gcc", &[&["-std=c11", "-O3"], &warnings[..], &["-c", &source, "-o", &object]].concat());
    run("ar", &["rcs", &library, &object]);
    link("yardstick", &folder);
}

fn main() {
    let project = variable("CARGO_MANIFEST_DIR");
    link_archive(&project);
    link_yardstick(&project);
}
