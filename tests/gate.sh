#!/usr/bin/env bash
# The gate tried on small repositories of its own: a good one passes; an unlisted crate, a missing crate, an unproved function, a must-fail
# edit that is not refused or does not fit, and a test script that fails each make it fail. Last line: 'N passed, M failed'.
set -u
here=$(cd "$(dirname "$0")/.." && pwd)
work=$(mktemp -d); trap 'rm -rf "$work"' EXIT
passed=0; failed=0

# a repository of one proved crate, with the gate
fresh() {
  rm -rf "$work/repo"; mkdir -p "$work/repo/crates/one/src" "$work/repo/tools"
  cp "$here/tools/test" "$work/repo/tools/test"
  echo 'one:' >"$work/repo/crates.txt"
  cat >"$work/repo/crates/one/src/lib.rt" <<'RT'
#![tactic(auto)]

ghost use Rattle.std.specs.Prelude.{◌≡◌};

// What it was given.
pub fn same(x: u64) -> u64
    ensures { result ≡ x }
{
    x
}
RT
}

# expect WHAT STATUS: the gate passes (0) or fails (1); where it fails its last line must not claim success
expect() {
  (cd "$work/repo" && bash tools/test) >"$work/log" 2>&1
  status=$?
  last=$(tail -n 1 "$work/log")
  if { [ "$2" = 0 ] && [ $status = 0 ] && [ "$last" = "${3:-1 passed, 0 failed}" ]; } ||
     { [ "$2" = 1 ] && [ $status != 0 ] && [[ $last != *' passed, 0 failed' ]]; }; then
    passed=$((passed + 1)); echo "gate: $1: as it must be"
  else
    failed=$((failed + 1)); echo "gate: $1: NOT as it must be (exit $status, last line '$last')"; cat "$work/log"
  fi
}

fresh; expect 'one proved crate passes' 0
fresh; cp -r "$work/repo/crates/one" "$work/repo/crates/two"; expect 'an unlisted crate fails' 1
fresh; echo 'two:' >>"$work/repo/crates.txt"; expect 'a missing crate fails' 1
fresh; sed -i 's/^    x$/    x + 1/' "$work/repo/crates/one/src/lib.rt"; expect 'an unproved function fails' 1
fresh; mkdir "$work/repo/crates/one/must-fail"
printf 'file: src/lib.rt\nold: // What it was given.\nnew: // The very number.\n' >"$work/repo/crates/one/must-fail/comment.edit"
expect 'a must-fail edit that is accepted fails' 1
printf 'file: src/lib.rt\nold: // What it was before.\nnew: // The very number.\n' >"$work/repo/crates/one/must-fail/comment.edit"
expect 'a must-fail edit whose text is not there fails' 1
fresh; mkdir "$work/repo/tests"; echo 'echo 3 passed, 0 failed' >"$work/repo/tests/a.sh"; expect 'a test script counts' 0 '4 passed, 0 failed'
echo 'echo 2 passed, 1 failed; exit 1' >"$work/repo/tests/b.sh"; expect 'a failing test script fails' 1

echo "$passed passed, $failed failed"
[ $failed = 0 ]
