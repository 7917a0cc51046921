//! Compiles monitor.c by the machine's compiler, over the headers of the crate.

use std::env;
use std::path::Path;
use std::process::Command;

fn runs(command: &mut Command) {
    assert!(command.status().expect("the command can be run").success(), "{command:?}");
}

fn main() {
    let out = env::var("OUT_DIR").expect("cargo sets it");
    let include = env::var("DEP_WANZOCHE_INCLUDE").expect("the crate's build script says it");
    let (object, archive) = (Path::new(&out).join("monitor.o"), Path::new(&out).join("libmonitor.a"));
    println!("cargo:rerun-if-changed=monitor.c");
    let cc = env::var("CC").unwrap_or_else(|_| "cc".to_string());
    runs(
        Command::new(cc)
            .args(["-std=c11", "-D_GNU_SOURCE", "-O2", "-Wall", "-Wextra", "-c", "monitor.c", "-I", &include, "-o"])
            .arg(&object),
    );
    runs(Command::new("ar").arg("rcs").arg(archive).arg(object));
    println!("cargo:rustc-link-search=native={out}");
    println!("cargo:rustc-link-lib=static=monitor");
}
