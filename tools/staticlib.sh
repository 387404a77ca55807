#!/usr/bin/env bash
# Proves the library for C and builds it, target/staticlib/libexports.a, with what was proved before kept. Only a proved library is built.
#   tools/staticlib.sh
set -euo pipefail
root=$(cd "$(dirname "${BASH_SOURCE[0]}")/.." && pwd)
if ! command -v rt >/dev/null; then
    echo "tools/staticlib.sh: rt, which proves and builds the library, is not in PATH" >&2
    exit 2
fi
# what rt says is no output of the command that needs the library
(cd "$root/crates/exports_c" && rt lib) >&2
mkdir -p "$root/target/staticlib"
# under its name only when it is whole
cp "$root/crates/exports_c/out/libexports_c.a" "$root/target/staticlib/libexports.a.new"
mv "$root/target/staticlib/libexports.a.new" "$root/target/staticlib/libexports.a"
