#!/usr/bin/env bash
# Builds tillbox: proves it and all that it stands on, compiles it, and asks it for its version.
#
#     tools/build.sh
#
# Leaves the program in target/tillbox. The exit status is 0 exactly if it was built.
set -u
cd "$(dirname "$0")/.." || exit 2
(cd crates/tillbox && rt run -- --version) || exit 1
mkdir -p target && cp crates/tillbox/out/tillbox target/tillbox || exit 1
echo "build: target/tillbox"
