//! Compiles plain C with the system's compiler and finds the archives of the proved code that the features ask for.

use std::env;
use std::ffi::OsStr;
use std::path::{Path, PathBuf};
use std::process::Command;

fn main() {
    let here = PathBuf::from(env::var_os("CARGO_MANIFEST_DIR").expect("set by cargo"));
    let out = PathBuf::from(env::var_os("OUT_DIR").expect("set by cargo"));
    plain_c(&here.join("c"), &out);
    archives(&here);
}

fn plain_c(source: &Path, out: &Path) {
    println!("cargo:rerun-if-changed={}", source.display());
    println!("cargo:rerun-if-env-changed=CC");
    let compiler = env::var_os("CC").unwrap_or_else(|| "gcc".into());
    let version = Command::new(&compiler).arg("--version").output().expect("a C compiler: gcc, or CC names another");
    let version = String::from_utf8_lossy(&version.stdout).lines().next().unwrap_or_default().to_string();
    println!("cargo:rustc-env=PLAIN_C={version} -O3");
    println!("cargo:rustc-link-search=native={}", out.display());
    compiled(&compiler, source, out, "plain");
    compiled(&compiler, source, out, "stack");
    if env::var_os("CARGO_FEATURE_LIBCRYPTO").is_some() {
        compiled(&compiler, source, out, "crypto");
        println!("cargo:rustc-link-lib=dylib=crypto");
    }
}

/// Links the C file of a name.
fn compiled(compiler: &OsStr, source: &Path, out: &Path, name: &str) {
    let object = out.join(format!("{name}.o"));
    let mut compile = Command::new(compiler);
    compile.args(["-std=c11", "-O3", "-fPIE", "-Wall", "-Wextra", "-c"]).arg(source.join(format!("{name}.c")));
    run(compile.arg("-o").arg(&object));
    run(Command::new("ar").arg("crs").arg(out.join(format!("lib{name}_c.a"))).arg(&object));
    println!("cargo:rustc-link-lib=static={name}_c");
}

fn run(command: &mut Command) {
    let status = command.status().unwrap_or_else(|error| panic!("{command:?}: {error}"));
    assert!(status.success(), "{command:?}: {status}");
}

/// The archives that the features ask for, from ../target/staticlib; ZOLBINE_ARCHIVES names another folder.
fn archives(here: &Path) {
    println!("cargo:rerun-if-env-changed=ZOLBINE_ARCHIVES");
    let folder = env::var_os("ZOLBINE_ARCHIVES").map_or(here.join("../target/staticlib"), PathBuf::from);
    println!("cargo:rustc-link-search=native={}", folder.display());
    for name in ["zolbine", "probes"] {
        if env::var_os(format!("CARGO_FEATURE_{}", name.to_uppercase())).is_none() {
            continue;
        }
        let file = folder.join(format!("lib{name}.a"));
        assert!(file.exists(), "{} is missing; `make {name}` makes it", file.display());
        println!("cargo:rerun-if-changed={}", file.display());
        println!("cargo:rustc-env={}_ARCHIVE={}", name.to_uppercase(), file.display());
        println!("cargo:rustc-link-lib=static={name}");
    }
}
