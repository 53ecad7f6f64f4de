#!/bin/sh
# Lays out the original sources, byte for byte, under x86_vcpu/src, adds the stand-ins for files that are not
# among them, and applies the patches.
#
#   ./prepare.sh [FOLDER]      FOLDER holds src/vmx/vcpu.rs and the others (default ../docs/src)
#
# Where something that it needs can't be had it prints `not run: REASON` and exits with status 3.
set -eu
here=$(cd "$(dirname "$0")" && pwd)
sources=${1:-$here/../docs/src}
out=$here/x86_vcpu/src
files="ept.rs msr.rs regs/accessors.rs regs/diff.rs regs/mod.rs vmx/definitions.rs vmx/instructions.rs
       vmx/mod.rs vmx/structs.rs vmx/vcpu.rs vmx/vmcs.rs"

not_run() {
    echo "not run: $1"
    exit 3
}

for program in cargo rustc python3 patch sha256sum; do
    command -v "$program" >/dev/null 2>&1 || not_run "$program is not installed"
done
version=$(rustc --version | sed 's/^rustc 1\.\([0-9]*\).*/\1/')
[ "$version" -ge 88 ] || not_run "rustc 1.88 or later is needed, $(rustc --version) is here"

# The crate paste, as source, from Debian's package: of this machine, or downloaded. Nothing is installed.
if [ ! -d "$here/vendor/paste" ]; then
    work=$(mktemp -d)
    trap 'rm -rf "$work"' EXIT
    found=$(ls -d /usr/share/cargo/registry/paste-* 2>/dev/null | tail -n 1)
    if [ -z "$found" ]; then
        for program in apt-get dpkg-deb; do
            command -v "$program" >/dev/null 2>&1 || not_run "the crate paste is missing, and $program is not installed"
        done
        (cd "$work" && apt-get -o Acquire::Retries=0 -o Acquire::http::Timeout=20 download librust-paste-dev) >"$work/log" 2>&1 ||
            not_run "the crate paste is missing: apt-get download librust-paste-dev failed: $(grep '^E:' "$work/log" | head -n 1)"
        dpkg-deb -x "$work"/librust-paste-dev_*.deb "$work"
        found=$(ls -d "$work"/usr/share/cargo/registry/paste-* | tail -n 1)
    fi
    mkdir -p "$here/vendor"
    cp -rL "$found" "$work/paste"
    rm -rf "$work/paste/tests" "$work/paste/.cargo-checksum.json"
    # Its dev-dependencies are not needed.
    sed -i '/^\[dev-dependencies/,/^$/d' "$work/paste/Cargo.toml"
    mv "$work/paste" "$here/vendor/paste"
fi

new=$here/x86_vcpu/new
rm -rf "$new"
for file in $files; do
    mkdir -p "$(dirname "$new/src/$file")"
    cp "$sources/src/$file" "$new/src/$file"
done
# The originals must be the files that the patches were made for.
(cd "$new/src" && sha256sum -c --quiet "$here/patches/originals.sha256")
cp -r "$here/standins/src/." "$new/src/"
python3 "$here/tools/fields.py" "$new/src/vmx/vmcs.rs" "$here/fields.tsv" "$new/src/vmx/vcpu/fields.rs"
for patch in "$here"/patches/*.patch; do
    patch -s -d "$new" -p1 <"$patch"
done
# Files that have not changed keep their times, so that cargo has nothing to build.
if ! diff -qr "$new/src" "$out" >/dev/null 2>&1; then
    rm -rf "$out"
    mv "$new/src" "$out"
fi
rm -rf "$new"
echo "prepared x86_vcpu/src"
