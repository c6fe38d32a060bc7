//! C programs over the shipped header and archive.

use std::path::{Path, PathBuf};
use std::process::Command;

/// A file of the repository.
pub fn file(path: &str) -> PathBuf {
    Path::new(env!("CARGO_MANIFEST_DIR")).join("..").join(path)
}

/// The compiler of C11, or of C++11, with warnings as errors.
pub fn compiler(cpp: bool) -> Command {
    let (variable, usual, standard) = if cpp { ("CXX", "g++", "-std=c++11") } else { ("CC", "gcc", "-std=c11") };
    let mut compile = Command::new(std::env::var_os(variable).unwrap_or_else(|| usual.into()));
    compile.args([standard, "-Wall", "-Wextra", "-Wconversion", "-Wsign-conversion", "-pedantic", "-Werror"]);
    compile
}

/// Compiles a C file of the repository with the shipped header, links the archive, and writes the program.
pub fn compile(mut compiler: Command, source: &str, program: &Path, flags: &[&str]) {
    compiler.args(flags).arg("-I").arg(file("include"));
    compiler.arg(file(source)).arg(env!("ZOLBINE_ARCHIVE")).arg("-o").arg(program);
    assert!(compiler.status().expect("a C compiler").success(), "{compiler:?}");
}

/// Flags of a program whose memory is watched.
pub const SANITIZED: [&str; 3] = ["-g", "-fsanitize=address,undefined", "-fno-sanitize-recover=all"];
