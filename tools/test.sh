#!/usr/bin/env bash
# Passes the tests: proves and builds every crate, runs the programs, then tests the tables, the second converter and tillbox.
#
#     tools/test.sh
#
# The must-fail edits are tried by .ci/run, the whole gate. The exit status is 0 exactly if all passed.
cd "$(dirname "$0")/.." || exit 2
failed=0

run() {
    echo "== $*"
    "$@" || failed=1
}

if ! rt all check; then
    echo "tests: failed: not all is proved"
    exit 1
fi
run tools/build.sh
run python3 tools/test_tools.py
if command -v java > /dev/null; then
    run python3 tools/make_journal.py --check
fi
run python3 tools/readme_test.py
run python3 tools/test_tillbox.py
run python3 tools/kill_test.py
if [ $failed -ne 0 ]; then
    echo "tests: failed"
    exit 1
fi
echo "tests: all passed"
