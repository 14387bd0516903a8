#!/usr/bin/env bash
# The main job on the sample journal: a journal that is cut in the middle of a two-byte character is decoded, saved, and taken up
# when the rest is there; then the ledger is encoded back. An import, a damaged night and the preview of a receipt follow.
#
#     tools/demo.sh
#
# Builds tillbox (a check from nothing takes some minutes; a second one takes seconds) and works in a folder of its own, which
# is removed at the end. The exit status is 0 exactly if all that is compared is equal.
set -u
cd "$(dirname "$0")/.." || exit 2
root=$PWD

fail() {
    echo "demo: failed: $1"
    exit 1
}

echo "== Building tillbox: proving it and all that it stands on"
tools/build.sh > "${TMPDIR:-/tmp}/tillbox-build.$$" 2>&1
built=$?
[ $built -eq 0 ] || tail -20 "${TMPDIR:-/tmp}/tillbox-build.$$"
rm -f "${TMPDIR:-/tmp}/tillbox-build.$$"
[ $built -eq 0 ] || fail "tillbox could not be built"

tillbox=$root/target/tillbox
table=$root/tables/cp932.tbl
folder=$(mktemp -d) || fail "no folder to work in"
trap 'rm -rf "$folder"' EXIT
cd "$folder" || fail "no folder to work in"

# Runs tillbox and expects a last word on standard output, and the exit status that goes with it.
expect() {
    local word=$1 said status wanted=0
    shift
    [ "$word" != stopped ] || wanted=2
    echo "\$ tillbox $*" | sed "s|$root/||g"
    said=$("$tillbox" "$@")
    status=$?
    [ "$said" = "$word" ] || fail "tillbox did not end with '$word'"
    [ $status -eq $wanted ] || fail "tillbox returned $status, not $wanted"
}

# Expects these records, a format of printf, in records.csv, with the mark of UTF-16LE in front, and shows them.
expect_records() {
    printf '\377\376' > wanted
    # shellcheck disable=SC2059
    printf "$1" | iconv -f UTF-8 -t UTF-16LE >> wanted
    cmp records.csv wanted || fail "the records are others"
    iconv -f UTF-16 -t UTF-8 records.csv | sed 's/^/   /'
}

cut=1703
journal=$root/samples/journal.cp932
size=$(stat -c %s "$journal")

echo
echo "== 1. The journal has $size bytes. Its first $cut are here; the last of these is the first half of a character:"
head -c $cut "$journal" > journal
tail -c 1 journal | od -An -tx1
expect done decode "$table" journal ledger checkpoint
echo "   The saved line (direction, page, policy, carried byte, flags, read, written, on or over):"
echo "   $(cat checkpoint)"
[ "$(cut -f4 checkpoint)" = 94 ] || fail "the first half is not carried in the saved line"
[ "$(cut -f6 checkpoint)" = $cut ] || fail "the saved line has another read total"

echo
echo "== 2. The rest of the journal has come. The run goes on from the saved line and ends the text:"
tail -c +$((cut + 1)) "$journal" >> journal
cmp journal "$journal" || fail "the journal is not whole"
expect done decode last "$table" journal ledger checkpoint
echo "   The saved line: $(cat checkpoint)"
cmp ledger "$root/samples/ledger.utf16le" || fail "the ledger is not the one that another converter made"
echo "   The ledger is, byte for byte, the one that another converter made of the uncut journal."

echo
echo "== 3. The ledger goes back to till bytes:"
expect done encode "$table" ledger receipt
cmp receipt "$journal" || fail "the receipt is not the journal"
echo "   The receipt is, byte for byte, the journal."

echo
echo "== 4. An import: bars part fields. The second byte of this word's second character is that of a bar:"
printf '0001|\203\214\203|\201[\203g|300\n0002|tea, green|120\n' > night
od -An -tx1 -N18 night
expect done import "$table" night records.csv
expect_records '0001,レポート,300\r\n0002,"tea, green",120\r\n'

echo
echo "== 5. A damaged night: the first half of a character was broken off before a line feed. A ledger stops there:"
printf '0001|tea \202\n0002|rice|120\n' > night
expect stopped decode "$table" night ledger
printf '0001|tea ' | iconv -f UTF-8 -t UTF-16LE > wanted
cmp ledger wanted || fail "the ledger is not what comes before the broken byte"
echo "   The import asks for policy 555, gets through, and says its flags:"
expect done import "$table" night records.csv
expect_records '0001,tea ・\r\n0002,rice,120\r\n'

echo
echo "== 6. The preview of a receipt: the page has no emoji, and each is one replacement:"
printf '喫茶🍵みどり🌿\n' | iconv -f UTF-8 -t UTF-16LE > shop
expect done preview "$table" shop receipt
printf '喫茶?みどり?\n' | iconv -f UTF-8 -t CP932 > wanted
cmp receipt wanted || fail "the receipt is another"
od -An -tx1 receipt

echo
echo "demo: success: cut in the middle of a character, saved, resumed: nothing lost, nothing doubled"
