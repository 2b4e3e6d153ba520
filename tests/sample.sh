#!/usr/bin/env bash
# The program `extract` tried as a user would: the sample, P1 and six against five of docs/FORMAT.md, and files that are missing, empty, wrong or large.
# Builds the program first. Last line: 'N passed, M failed'.
set -u
cd "$(dirname "$0")/.."
root=$PWD
work=$(mktemp -d); trap 'rm -rf "$work"' EXIT
passed=0; failed=0

# same WHAT EXPECTED FOUND
same() {
  if [ "$2" = "$3" ]; then passed=$((passed + 1)); else failed=$((failed + 1)); echo "sample: $1: expected '$2', found '$3'"; fi
}

tools/build extract || { echo "0 passed, 1 failed"; exit 1; }
# the sample is what the program's own run in the gate has
for f in mask.pack journal.pack extract.pack; do
  same "$f of the sample and of crates/extract/data" "$(sha256sum <sample/$f)" "$(sha256sum <crates/extract/data/$f)"
done

# extract: what the program prints in the work folder
extract() { (cd "$work" && "$root/target/bin/extract"); }
sum() { sha256sum <"$1"; }

cp sample/mask.pack sample/journal.pack "$work"
same 'the sample' 'rows 11 of 40 route indices bytes 1184' "$(extract)"
same "the sample's extract, byte for byte" "$(sum sample/extract.pack)" "$(sum "$work/out.pack")"

# P1 at width 4, whole bytes as the specification has them; then one slot more in the mask than the journal has rows
python3 - "$work" <<'PY'
import sys
sys.path.insert(0, "tools")
from packs import Pack
def write(name, pack):
    open(f"{sys.argv[1]}/{name}", "wb").write(pack)
write("journal.pack", Pack().native(4, [5, 6, 7, 8, 9]).whole())
write("mask.pack", Pack().flags([True, False, False, True, False]).whole())
write("mask6.pack", Pack().flags([True, False, False, True, False, True]).whole())
PY
same 'P1' 'rows 2 of 5 route indices bytes 64' "$(extract)"
p1='0500000008000000 02000000040000000200000000000000 00000000ffffffff0000000000000000 0000000000000000 0800000001000000020000 00434f4c51'
same 'P1, byte for byte' "${p1// /}" "$(od -An -v -tx1 "$work/out.pack" | tr -d ' \n')"
mv "$work/mask6.pack" "$work/mask.pack"
rm "$work/out.pack"
same 'six against five' 'refused 10 journal' "$(extract)"
same 'a refused call writes no file' no "$([ -e "$work/out.pack" ] && echo yes || echo no)"

# the sample's journal with the old mark and no null counts, which gives the same extract; and with one row too many said to be null
python3 - "$work" <<'PY'
import sys
sys.path.insert(0, "tools")
from packs import MARK, OLD_MARK
pack = bytearray(open("sample/journal.pack", "rb").read())
assert pack[-4:] == MARK
start, nodes = (int.from_bytes(pack[-at : -at + 4], "little") for at in (16, 12))
wrong = pack.copy()
wrong[start + 36] += 1
open(f"{sys.argv[1]}/wrong.pack", "wb").write(wrong)
for i in range(nodes):
    pack[start + 40 * i + 36 : start + 40 * i + 40] = bytes(4)
pack[-4:] = OLD_MARK
open(f"{sys.argv[1]}/journal.pack", "wb").write(pack)
PY
cp sample/mask.pack "$work/mask.pack"
same 'the sample with the old mark' 'rows 11 of 40 route indices bytes 1184' "$(extract)"
same "its extract, byte for byte" "$(sum sample/extract.pack)" "$(sum "$work/out.pack")"
mv "$work/wrong.pack" "$work/journal.pack"
same 'a wrong null count' 'refused 20 journal' "$(extract)"
python3 tools/show.py "$work/journal.pack" >/dev/null 2>&1; same 'show.py on a wrong null count' 1 $?

cp sample/journal.pack "$work/journal.pack"; rm "$work/mask.pack"
same 'a missing mask counts as empty' 'refused 1 mask' "$(extract)"
: >"$work/mask.pack"
same 'an empty mask' 'refused 1 mask' "$(extract)"
cp README.md "$work/mask.pack"
same 'a mask that is no pack' 'refused 2 mask' "$(extract)"
cp sample/journal.pack "$work/mask.pack"
same 'a journal as mask' 'refused 9 mask' "$(extract)"
cp sample/mask.pack "$work/mask.pack"; rm "$work/journal.pack"
same 'a missing journal' 'refused 1 journal' "$(extract)"
mkdir "$work/journal.pack"
same 'a folder for a journal' 'refused 1 journal' "$(extract)"
rmdir "$work/journal.pack"
head -c 1000 sample/journal.pack >"$work/journal.pack"
same 'a truncated journal' 'refused 2 journal' "$(extract)"

# a node count of 4,294,967,295 in the trailer
python3 - "$work/journal.pack" <<'PY'
import sys
pack = bytearray(open("sample/journal.pack", "rb").read())
pack[-12:-8] = b"\xff\xff\xff\xff"
open(sys.argv[1], "wb").write(pack)
PY
same 'a huge count' 'refused 3 journal' "$(extract)"

head -c 16384 /dev/zero >"$work/journal.pack"
same 'the largest file' 'refused 2 journal' "$(extract)"
head -c 16385 /dev/zero >"$work/journal.pack"
same 'one byte more' 'too large' "$(extract)"
cp sample/journal.pack "$work/journal.pack"; head -c 16385 /dev/zero >"$work/mask.pack"
same 'one byte more in the mask' 'too large' "$(extract)"

# the sample is what its maker writes, and showing it fails only on what is no pack
mkdir "$work/made"
python3 tools/make_sample.py "$work/made" >/dev/null
for f in mask.pack journal.pack extract.pack; do
  same "sample/$f is as made" "$(sum sample/$f)" "$(sum "$work/made/$f")"
done
python3 tools/show.py sample/journal.pack >/dev/null 2>&1; same 'show.py on the sample' 0 $?
python3 tools/show.py README.md >/dev/null 2>&1; same 'show.py on no pack' 1 $?

echo "$passed passed, $failed failed"
[ $failed = 0 ]
