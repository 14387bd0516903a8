#!/usr/bin/env bash
# Builds the archives of the C interface: proves the crates of exported calls and all that they stand on.
#
#     tools/build_c.sh [NAME ..]        capi, capi_text, capi_record, capi_products, capi_findings; with no NAME all five
#
# The exported calls of NAME stand in the crate NAME_c, a static library above the library NAME. Leaves
# target/staticlib/libNAME.a. The exit status is 0 exactly if all were built.
set -u
cd "$(dirname "$0")/.." || exit 2
[ $# -gt 0 ] || set -- capi capi_text capi_record capi_products capi_findings
mkdir -p target/staticlib || exit 2
for name in "$@"; do
    (cd "crates/${name}_c" && rt lib) || exit 1
    cp "crates/${name}_c/out/lib${name}_c.a" "target/staticlib/lib$name.a" || exit 1
    echo "build_c: target/staticlib/lib$name.a"
done
