#!/usr/bin/env bash
# Runs each example as the table `runs` has it, and compares what it writes and its status: by `run`, and by
# `exec` of the C text that `compile` writes, with the same turns; where the run ends, `model` at as many pulls
# gives the same too. What the C texts do under C compilers is compared by c/drivers.sh.
set -u
. "$(dirname "$0")/program.sh"
cd "$top/examples" || exit 1
. ./table.sh
bad=0
count=0

# compared WHAT STATUS WANTED: the output stands in $work/out
compared() {
  if [ "$2" != "$3" ] || ! cmp -s "$work/out" "$name.out"; then
    echo "$1 $name: status $2 for $3, and wrote:"
    head -c 400 "$work/out"
    bad=1
  fi
}

while read -r name status words; do
  case $name in '' | '#'*) continue ;; esac
  count=$((count + 1))
  # shellcheck disable=SC2086
  take_words "$name" $words
  "$program" run "$name.strm" ${turns[@]+"${turns[@]}"} ${bindings[@]+"${bindings[@]}"} >"$work/out" 2>"$work/line"
  compared run $? "$status"

  "$program" compile "$name.strm" >"$work/$name.c"
  "$program" exec "$work/$name.c" ${turns[@]+"${turns[@]}"} ${values[@]+"${values[@]}"} >"$work/out" 2>"$work/line"
  compared exec $? "$status"

  if [ "$status" != 5 ]; then
    "$program" model "$name.strm" --pulls 1000 ${bindings[@]+"${bindings[@]}"} >"$work/out" 2>"$work/line"
    compared model $? "$status"
  fi
done <runs

for example in *.strm; do
  if ! grep -q "^${example%.strm} " runs; then
    echo "the table has no row for $example"
    bad=1
  fi
done
[ "$bad" = 0 ] && echo "examples: $count run as their table has it"
exit "$bad"
