//! Builds the C library from its sources, or finds an installed one by its `wanzoche.pc`.
//!
//! The sources lie in the folder `native` of a package, and two folders up in the repository. They are taken unless `WANZOCHE_INSTALLED`
//! is set. What is built is what the repository's Makefile builds: two objects, of which only the names of the headers stay. Programs that
//! open no store don't get the second.

use std::env;
use std::path::{Path, PathBuf};
use std::process::{exit, Command};

/// The compiler of the machine that runs this, or the one that is named for the target.
struct Compiler {
    words: Vec<String>,
}

impl Compiler {
    /// The one named by `CC_x86_64_unknown_linux_gnu` or `CC`; else `cc`, or for another machine the one with its name before `-gcc`.
    fn of(target: &str, host: &str) -> Compiler {
        let own = format!("CC_{}", target.replace('-', "_"));
        let named = [own.as_str(), "CC"].iter().find_map(|name| variable(name));
        let usual = match target.split('-').next() {
            _ if target.ends_with("musl") => "musl-gcc".to_string(),
            Some(processor) if !host.starts_with(processor) => format!("{processor}-linux-gnu-gcc"),
            _ => "cc".to_string(),
        };
        Compiler { words: named.unwrap_or(usual).split_whitespace().map(str::to_string).collect() }
    }

    fn command(&self) -> Command {
        let mut command = Command::new(&self.words[0]);
        command.args(&self.words[1..]);
        command
    }

    /// The path of one of the compiler's companions, as `ar`.
    fn program(&self, name: &str) -> String {
        said(self.command().arg(format!("-print-prog-name={name}"))).trim().to_string()
    }
}

fn fail(what: &str) -> ! {
    eprintln!("wanzoche: {what}");
    exit(1)
}

/// The value of a variable of the environment that isn't empty. If it changes, the library is built anew.
fn variable(name: &str) -> Option<String> {
    println!("cargo:rerun-if-env-changed={name}");
    env::var(name).ok().filter(|value| !value.trim().is_empty())
}

/// A variable that cargo sets.
fn of_cargo(name: &str) -> String {
    env::var(name).unwrap_or_else(|_| fail(&format!("cargo hasn't set {name}")))
}

/// Runs a command, and returns what it wrote. Ends the build if it fails.
fn said(command: &mut Command) -> String {
    match command.output() {
        Ok(done) if done.status.success() => String::from_utf8_lossy(&done.stdout).into_owned(),
        Ok(done) => fail(&format!("{command:?} failed:\n{}", String::from_utf8_lossy(&done.stderr))),
        Err(error) => fail(&format!("{command:?} can't be run: {error}. A C compiler with its binutils is needed")),
    }
}

/// The folder with the library's sources, if there is one.
fn sources() -> Option<PathBuf> {
    let crate_folder = PathBuf::from(of_cargo("CARGO_MANIFEST_DIR"));
    let mut places = ["native", "../.."].iter().map(|place| crate_folder.join(place));
    places.find(|place| ["c/wanzoche.c", "c/store", "dist/system.c"].iter().all(|part| place.join(part).exists()))
}

/// The sources of the store, in the order of their names.
fn sources_of_store(sources: &Path) -> Vec<PathBuf> {
    let folder = sources.join("c/store");
    println!("cargo:rerun-if-changed={}", folder.display());
    let files = std::fs::read_dir(&folder).unwrap_or_else(|error| fail(&format!("{} can't be read: {error}", folder.display())));
    let paths = files.filter_map(|file| file.ok()).map(|file| file.path());
    let mut all: Vec<PathBuf> = paths.filter(|path| path.extension().map_or(false, |end| end == "c")).collect();
    all.sort();
    all
}

/// Builds `libwanzoche.a` in this folder.
fn build(sources: &Path, processor: &str, out: &Path) {
    let assembly = sources.join("dist").join(processor).join("path_c.s");
    if !assembly.exists() {
        fail(&format!("there is no assembly for {processor}: the library is for Linux on x86-64 and aarch64"));
    }
    let compiler = Compiler::of(&of_cargo("TARGET"), &of_cargo("HOST"));
    let object = |name: &str| out.join(name).with_extension("o");
    let compile = |file: &Path, to: &str, flags: &[&str]| {
        println!("cargo:rerun-if-changed={}", file.display());
        said(compiler.command().args(flags).arg("-c").arg(file).arg("-o").arg(object(to)));
    };
    let headers = format!("-I{}", sources.join("include").display());
    let flags = ["-std=c11", "-O2", "-fPIC", "-ffunction-sections", &headers];
    compile(&assembly, "path_c", &[]);
    compile(&sources.join("dist/system.c"), "memory", &[&flags[..], &["-DLIBRARY"]].concat());
    compile(&sources.join("c/wanzoche.c"), "names", &flags);
    for header in ["wanzoche.h", "wanzoche_store.h"] {
        println!("cargo:rerun-if-changed={}", sources.join("include").join(header).display());
    }
    let store = sources_of_store(sources);
    let name_of = |file: &PathBuf| format!("store_{}", file.file_stem().unwrap_or_default().to_string_lossy());
    store.iter().for_each(|file| compile(file, &name_of(file), &[&flags[..], &["-D_GNU_SOURCE", "-pthread"]].concat()));
    let join = |whole: &Path, parts: &[PathBuf]| {
        said(compiler.command().args(["-nostdlib", "-r", "-o"]).arg(whole).args(parts));
        said(Command::new(compiler.program("objcopy")).args(["--wildcard", "--keep-global-symbol=wanzoche_*"]).arg(whole));
    };
    join(&object("wanzoche"), &["path_c", "memory", "names"].map(object));
    join(&object("store"), &store.iter().map(|file| object(&name_of(file))).collect::<Vec<_>>());
    let archive = out.join("libwanzoche.a");
    let _ = std::fs::remove_file(&archive);
    said(Command::new(compiler.program("ar")).arg("rcs").arg(&archive).args(["wanzoche", "store"].map(object)));
    println!("cargo:rustc-link-search=native={}", out.display());
    println!("cargo:include={}", sources.join("include").display());
}

/// Finds an installed library by `pkg-config`, or the program that `PKG_CONFIG` names.
fn find() {
    let program = variable("PKG_CONFIG").unwrap_or_else(|| "pkg-config".to_string());
    let asks = |words: &[&str]| said(Command::new(&program).args(words).arg("wanzoche"));
    variable("PKG_CONFIG_PATH");
    let wanted = format!("wanzoche >= {}", of_cargo("CARGO_PKG_VERSION"));
    let found = Command::new(&program).args(["--print-errors", "--errors-to-stdout", "--exists", &wanted]).output();
    if !found.as_ref().map_or(false, |found| found.status.success()) {
        let why = found.map_or_else(|error| error.to_string(), |found| String::from_utf8_lossy(&found.stdout).into_owned());
        let itself = "In its package and in a copy of the whole repository the crate builds the library itself";
        fail(&format!("{program} doesn't find `{wanted}`:\n{why}\n{itself}"));
    }
    println!("cargo:rustc-link-search=native={}", asks(&["--variable=libdir"]).trim());
    println!("cargo:include={}", asks(&["--variable=includedir"]).trim());
}

fn main() {
    println!("cargo:rerun-if-changed=build.rs");
    if of_cargo("CARGO_CFG_TARGET_OS") != "linux" {
        fail("the library is for Linux alone");
    }
    match sources() {
        Some(place) if variable("WANZOCHE_INSTALLED").is_none() => {
            build(&place, &of_cargo("CARGO_CFG_TARGET_ARCH"), Path::new(&of_cargo("OUT_DIR")));
        }
        _ => find(),
    }
    println!("cargo:rustc-link-lib=static=wanzoche");
}
