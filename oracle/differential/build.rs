//! Links the archive that X86_VCPU_ARCHIVE names, and tells the program which functions it exports: the cfg
//! `exported = "NAME"` for each, and all their names in the environment variable EXPORTED. A shared library
//! (.so) is linked dynamically, so that it can be replaced without building this program again.

use std::path::PathBuf;
use std::process::Command;

fn main() {
    println!("cargo::rerun-if-env-changed=X86_VCPU_ARCHIVE");
    println!("cargo::rustc-check-cfg=cfg(exported, values(any()))");
    let named = std::env::var("X86_VCPU_ARCHIVE").expect("X86_VCPU_ARCHIVE names the archive libx86_vcpu.a");
    let path = PathBuf::from(&named).canonicalize().unwrap_or_else(|error| panic!("{named}: {error}"));
    let shared = path.extension().is_some_and(|end| end == "so");
    println!("cargo::rerun-if-changed={}", path.display());
    println!("cargo::rustc-link-search=native={}", path.parent().expect("a folder").display());
    println!("cargo::rustc-link-lib={}=x86_vcpu", if shared { "dylib" } else { "static" });

    let arguments: &[&str] = if shared { &["-D", "--defined-only"] } else { &["-g", "--defined-only"] };
    let output = Command::new("nm").args(arguments).arg(&path).output().expect("nm");
    assert!(output.status.success(), "nm {}: {}", path.display(), String::from_utf8_lossy(&output.stderr));
    let mut names: Vec<String> = String::from_utf8_lossy(&output.stdout)
        .lines()
        .filter_map(|line| line.split_whitespace().nth(2))
        .filter(|name| name.starts_with("vcpu_"))
        .map(str::to_string)
        .collect();
    names.sort();
    for name in &names {
        println!("cargo::rustc-cfg=exported=\"{name}\"");
    }
    println!("cargo::rustc-env=EXPORTED={}", names.join(" "));
}
