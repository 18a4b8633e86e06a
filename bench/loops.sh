#!/usr/bin/env bash
# Compares the loops that strymonas emits with loops written by hand in C and with Rust's iterators:
#
#   bench/loops.sh [ITEMS [ROUNDS]]
#
# prints a table for gcc and one for clang, each where it is there: of each pipeline in bench/loops the
# milliseconds of the loop by hand, and how many times as long the emitted loop and the iterators take. All
# run over the same random items, 10,000,000 of them, which lie in memory and were gone through before. Each
# loop is compiled at -O2 and put at three code offsets. In each of 11 rounds all run one after the other, and
# the least time of all runs of a loop counts. Rust is compiled at -O, so its column compares compilers too,
# and is '-' where there is no rustc. The first lines say what it runs on.
#
# Loops over so many items can wait for memory rather than for the processor: `bench/loops.sh 100000 100` runs
# over as many as a cache holds, in more rounds, as each is short.
#
# Single figures within a tenth are noise; where loops wait for memory, two runs of the script can differ by more.
# The script ends with 1 where a pipeline isn't compiled, where a run doesn't give what the loop by hand gives, or
# where an emitted loop doesn't return 0.
set -eu
. "$(dirname "$0")/../examples/program.sh"
cd "$top"
items=${1:-10000000}
rounds=${2:-11}
loops=$PWD/bench/loops
offsets='0 1 2'
names='sum sum_of_squares even_squares maps filters filter_of_scan take_while dot_product
  cart flat_map_take flat_map_after_zip zip_after_flat_map zip_of_flat_maps'

# the C texts, and the list of the loops
: >"$work/list.h"
for name in $names; do
  if ! "$program" compile "$loops/$name.strm" >"$work/$name.c" 2>"$work/err"; then
    echo "$name was not compiled: $(cat "$work/err")" >&2
    exit 1
  fi
  echo "LOOP($name)" >>"$work/list.h"
done

# Rust's iterators, at each offset
rust_options=()
rust_objects=()
if command -v rustc >/dev/null 2>&1; then
  for offset in $offsets; do
    sed "s/OFFSET/$offset/g" "$loops/iterators.rs" >"$work/iterators_$offset.rs"
    rustc --edition 2021 -O -C codegen-units=1 -C panic=abort --crate-type lib --emit obj \
      "$work/iterators_$offset.rs" -o "$work/rust-$offset.o"
    rust_objects+=("$work/rust-$offset.o")
  done
  rust_options=(-DWITH_RUST)
  rust_version=$(rustc --version)
else
  rust_version='no rustc'
  echo 'there is no rustc: nothing is compared with Rust'
fi

# timed COMPILER: makes the program that times the loops, and runs it
timed() {
  local compile=("$1" -std=c11 -O2 "-I$loops" "-I$work") name offset
  local objects=(${rust_objects[@]+"${rust_objects[@]}"})
  for offset in $offsets; do
    "${compile[@]}" "-DOFFSET=$offset" -c "$loops/hand.c" -o "$work/hand-$offset.o"
    objects+=("$work/hand-$offset.o")
    for name in $names; do
      "${compile[@]}" "-DOFFSET=$offset" "-DFUNCTION=emitted_${name}_$offset" "-DC_TEXT=\"$name.c\"" \
        -c "$loops/emitted.c" -o "$work/$name-$offset.o"
      objects+=("$work/$name-$offset.o")
    done
  done
  "${compile[@]}" ${rust_options[@]+"${rust_options[@]}"} "$loops/time.c" "${objects[@]}" -o "$work/time-$1"
  printf '\n%s\n' "$("$1" --version | head -n 1)"
  "$work/time-$1" "$items" "$rounds"
}

processor=$(sed -n 's/^model name[[:space:]]*: //p' /proc/cpuinfo 2>/dev/null | head -n 1)
printf '%s, %s, %s, %s items, %s rounds\n' \
  "$(date -u +%Y-%m-%d)" "${processor:-$(uname -m)}" "$rust_version" "$items" "$rounds"
for compiler in gcc clang; do
  if command -v "$compiler" >/dev/null 2>&1; then
    timed "$compiler"
  else
    echo "there is no $compiler: nothing is measured with it"
  fi
done
