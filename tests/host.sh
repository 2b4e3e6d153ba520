#!/usr/bin/env bash
# The port held to filter.rs and to a second reading of the specification (host/), through its C entry points: its own cases, random and damaged packs,
# pairs alike in the kept part, every small mask, masks around each boundary, long masks, verdicts; wrong ports that must be noticed; and the list that program
# `replay` runs, made again.
# Where something needed is missing nothing is compared, and the one check says so. Each run counts as one check. Last line: 'N passed, M failed'.
set -uo pipefail
cd "$(dirname "$0")/.."
work=$(mktemp -d); trap 'rm -rf "$work"' EXIT
passed=0; failed=0

# what is needed and not there, if anything
missing() {
  local minor
  [ "$(uname -m)" = x86_64 ] || { echo "an x86-64 processor, for which the port is compiled"; return; }
  minor=$(rustc --version 2>/dev/null | sed -n 's/^rustc 1\.\([0-9]*\)\..*/\1/p')
  { [ -n "$minor" ] && [ "$minor" -ge 88 ] && cargo --version >/dev/null 2>&1; } || { echo "Rust 1.88 or later"; return; }
  command -v cc >/dev/null || { echo "a linker for Rust (cc)"; return; }
  [ -f "${FILTER_RS:-../shared/docs/src/src--src--filter.rs.txt}" ] || echo "filter.rs of arrow-select 60.1.0 (FILTER_RS names it)"
}

lack=$(missing)
if [ -n "$lack" ]; then
  echo "host: NOT COMPARED with filter.rs, no case was run; missing: $lack"
  if grep -q '^## What rests on the specification alone where nothing is compared$' docs/DIFFERENCES.md; then
    echo "host: NOT COMPARED: the one check below is that docs/DIFFERENCES.md says what then rests on the specification alone"
    echo "1 passed, 0 failed"; exit 0
  fi
  echo "host: docs/DIFFERENCES.md does not say what rests on the specification alone"; echo "0 passed, 1 failed"; exit 1
fi

fail() { echo "host: $*"; echo "0 passed, 1 failed"; exit 1; }

# the port's archive, made if it is not there or older than a source
archive=target/staticlib/libcapi.a
if [ ! -e $archive ] || [ -n "$(find crates -name '*.rt' -newer $archive -print -quit)" ]; then
  tools/build capi >"$work/log" 2>&1 || { tail -n 20 "$work/log"; fail "no archive of the port"; }
fi
tests=(--offline --locked --quiet --features port --test faults --test stand_ins)
(cd host && cargo build "${tests[@]}" --bin differ --bin verdicts) || fail "the host does not build"

# run NAME COMMAND..: its output to a file, and its exit status
run() { local name=$1; shift; "$@" >"$work/$name" 2>&1; echo $? >"$work/$name.status"; }
# Rust's own tests: ports with a fault that the comparison must notice, and the stand-ins
faults() {
  (cd host && cargo test "${tests[@]}") >"$work/tests" 2>&1 || cat "$work/tests"
  awk '/^test result:/ { p += $4; f += $6 } END { print p + 0 " passed, " f + 0 " failed" }' "$work/tests"
}
bin=host/target/debug
mkdir "$work/made"
# 'differ list SEED COUNT', as the list's first line has it
read -r -a list < <(sed -n '1s/.*differ list \([0-9]* [0-9]*\) .*/\1/p' crates/replay/stdin)

# two at a time
{
  run random $bin/differ random 7 80000
  run verdicts $bin/verdicts 7 60000
  run faults faults
} &
{
  run paper $bin/differ paper
  run list $bin/differ list "${list[@]}" "$work/made"
  run alike $bin/differ alike 7 30000
  run exhaustive $bin/differ exhaustive 7
  run boundaries $bin/differ boundaries 7 1
  run long $bin/differ long 7 2
} &
wait

for name in paper random alike exhaustive boundaries long verdicts faults list; do
  last=$(tail -n 1 "$work/$name")
  sed "s/^/host: $name: /" "$work/$name"
  if [ "$(cat "$work/$name.status")" = 0 ] && [[ $last =~ ^[1-9][0-9]*\ passed,\ 0\ failed$ ]]; then
    passed=$((passed + 1))
  else
    failed=$((failed + 1)); echo "host: $name FAILED"
  fi
done
for f in stdin stdout; do
  if cmp "$work/made/$f" crates/replay/$f; then
    passed=$((passed + 1))
  else
    failed=$((failed + 1)); echo "host: crates/replay/$f is not what 'differ list ${list[*]}' writes"
  fi
done

echo "$passed passed, $failed failed"
[ $failed = 0 ]
