#!/usr/bin/env bash
# The calls that the program `cases` runs, and what it must print of them, are as their maker writes them; every call of `cases` and `replay` has an
# answer. Last line: 'N passed, M failed'.
set -u
cd "$(dirname "$0")/.."
work=$(mktemp -d); trap 'rm -rf "$work"' EXIT
passed=0; failed=0

# same WHAT EXPECTED FOUND
same() {
  if [ "$2" = "$3" ]; then passed=$((passed + 1)); else failed=$((failed + 1)); echo "cases: $1: expected '$2', found '$3'"; fi
}

python3 tools/make_cases.py "$work"
for f in stdin stdout; do
  same "crates/cases/$f is as made" "$(sha256sum <"$work/$f")" "$(sha256sum <crates/cases/$f)"
done
# every call has an answer, and every answer a call
for c in cases replay; do
  same "each call of $c is answered, in order" "$(grep -v '^#' crates/$c/stdin | cut -d' ' -f1)" "$(grep -v '^ ' crates/$c/stdout | cut -d: -f1)"
done

echo "$passed passed, $failed failed"
[ $failed = 0 ]
