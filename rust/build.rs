//! Links the archive that `X86_VCPU_ARCHIVE` names, or the one that tools/archive leaves in target/.

use std::path::PathBuf;

fn main() {
    println!("cargo::rerun-if-env-changed=X86_VCPU_ARCHIVE");
    let named = std::env::var("X86_VCPU_ARCHIVE").unwrap_or_else(|_| "../target/staticlib/libx86_vcpu.a".to_string());
    let path = PathBuf::from(&named).canonicalize().unwrap_or_else(|error| panic!("{named}: {error}"));
    println!("cargo::rerun-if-changed={}", path.display());
    println!("cargo::rustc-link-search=native={}", path.parent().expect("a folder").display());
    println!("cargo::rustc-link-lib=static=x86_vcpu");
}
