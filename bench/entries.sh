#!/usr/bin/env bash
# Makes target/staticlib/libtimed.a: an entry for tabling, which the archive does not have. Its crate is made in a temporary folder, beside
# copies of the crates that it calls, so that it is none of the product's.
set -eu
cd "$(dirname "$0")/.."
room=$(mktemp -d)
trap 'rm -rf "$room"' EXIT
for crate in crates/*; do
    mkdir -p "$room/$crate"
    for part in src specs proofs; do
        [ ! -d "$crate/$part" ] || cp -R "$crate/$part" "$room/$crate"
    done
done
{
    cat crates.txt
    echo 'timed staticlib: refusals tables'
} >"$room/crates.txt"
mkdir -p "$room/crates/timed/src"
cat >"$room/crates/timed/src/lib.rt" <<'END'
// Tabling for a program in C that times it.
#![tactic(auto)]

use tables::tabulate;

#[unsafe(no_mangle)]
pub extern "C" fn timed_tabulate(words: &[u32], plan: &[u32], table: &mut [u8]) -> u64 {
    match tabulate(words, plan, table) {
        Ok(()) => 0,
        Err(_) => 1,
    }
}
END
(cd "$room/crates/timed" && rt lib)
mkdir -p target/staticlib
cp "$room/crates/timed/out/libtimed.a" target/staticlib/libtimed.a
