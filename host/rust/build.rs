//! Links the archive that `tools/build unglassot` wrote, and builds again when it changes. An archive of another version is an
//! error: a linker does not notice another list of parameters.
use std::env;
use std::fs;
use std::path::{Path, PathBuf};
use std::process::Command;

include!("src/version.rs");

/// What is run to ask the archive for its version.
const QUESTION: &str = r#"
unsafe extern "C" { fn unglassot_version() -> i64; }
fn main() { print!("{}", unsafe { unglassot_version() }) }
"#;

const HINT: &str = "run `tools/build unglassot` in the repository's root, or set UNGLASSOT_LIB_DIR to the archive's folder";

fn main() {
    println!("cargo::rerun-if-changed=build.rs");
    println!("cargo::rerun-if-changed=src/version.rs");
    println!("cargo::rerun-if-env-changed=UNGLASSOT_LIB_DIR");
    let here = PathBuf::from(env::var("CARGO_MANIFEST_DIR").unwrap());
    let folder = match env::var("UNGLASSOT_LIB_DIR") {
        Ok(folder) => PathBuf::from(folder),
        Err(_) => here.join("../../target/staticlib"),
    };
    let archive = folder.join("libunglassot.a");
    if !archive.is_file() {
        println!("cargo::error={} is missing: {HINT}", archive.display());
        return;
    }
    println!("cargo::rerun-if-changed={}", archive.display());
    println!("cargo::rustc-link-search=native={}", folder.display());
    println!("cargo::rustc-link-lib=static=unglassot");
    // where the build is for another machine, the question cannot be asked here
    if env::var("HOST") != env::var("TARGET") {
        return;
    }
    match version_of(&folder) {
        Ok(version) if version == VERSION.to_string() => {}
        Ok(version) => println!(
            "cargo::error={} is of version {version} and this crate of version {VERSION}: {HINT}",
            archive.display()
        ),
        Err(said) => {
            println!("cargo::error={} does not tell its version and this crate is of version {VERSION}: {HINT}", archive.display());
            said.lines()
                .for_each(|line| println!("cargo::warning={line}"));
        }
    }
}

/// The archive's version, or what the compiler said.
fn version_of(folder: &Path) -> Result<String, String> {
    let out = PathBuf::from(env::var("OUT_DIR").unwrap());
    let (source, program) = (out.join("question.rs"), out.join("question"));
    fs::write(&source, QUESTION).map_err(|error| error.to_string())?;
    let mut compiler = Command::new(env::var("RUSTC").unwrap());
    compiler.args(["--edition=2021", "-lstatic=unglassot", "-o"]);
    compiler.arg(&program).arg(&source).arg("-L").arg(folder);
    if let Ok(linker) = env::var("RUSTC_LINKER") {
        compiler.arg("-C").arg(format!("linker={linker}"));
    }
    output(&mut compiler)?;
    output(&mut Command::new(&program))
}

/// What a command wrote, or what it complained of.
fn output(command: &mut Command) -> Result<String, String> {
    let ended = command.output().map_err(|error| error.to_string())?;
    let [out, err] =
        [ended.stdout, ended.stderr].map(|bytes| String::from_utf8_lossy(&bytes).into_owned());
    if ended.status.success() {
        Ok(out)
    } else {
        Err(err)
    }
}
