#!/usr/bin/env bash
# How fast pipelines and C texts run, and how much memory that takes: the least time of three runs each, over
# 4,194,304 items, beside awk doing the same work; and how long a value file of 64 MiB takes. It asserts
# nothing. A run with `take 0` reads the values and runs no turn; its time is taken off for the rates.
set -u
. "$(dirname "$0")/../examples/program.sh"
cd "$top/bench" || exit 1
items=4194304

# measured COMMAND..: least seconds and most MiB of three runs
measured() {
  python3 - "$@" <<'P'
import os, subprocess, sys, time
least, most = None, 0
for _ in range(3):
    start = time.monotonic()
    child = subprocess.Popen(sys.argv[1:], stdout=subprocess.DEVNULL, stderr=subprocess.DEVNULL)
    _, _, used = os.wait4(child.pid, 0)
    spent = time.monotonic() - start
    least = spent if least is None else min(least, spent)
    most = max(most, used.ru_maxrss)
print(f"{least:.3f} {most / 1024:.0f}")
P
}

# told WHAT SECONDS MIB BASE: a line, with the items a second beyond the base
told() {
  python3 - "$@" <<P
import sys
what, seconds, mib, base = sys.argv[1], float(sys.argv[2]), sys.argv[3], float(sys.argv[4])
rate = f"{$items / (seconds - base) / 1e6:6.1f} million items/s" if base and seconds > base else ""
print(f"{what:44} {seconds:7.3f} s {mib:>5} MiB  {rate}")
P
}

python3 - "$work" "$items" <<'P'
import random, sys
work, items = sys.argv[1], int(sys.argv[2])
random.seed(1)
numbers = [random.randrange(-10**9, 10**9) for _ in range(items)]
open(f"{work}/v", "w").write("\n".join(map(str, numbers)) + "\n")
open(f"{work}/padded", "w").write("".join(f"{n:015d}\n" for n in numbers))
P
echo 'input a: array; array a | take 0 | print' >"$work/none"
echo 'input a: array; array a | filter x -> x % 2 == 0 | map x -> x * x | fold 0 with s x -> s + x' >"$work/squares"
echo 'input a: array; array a | print' >"$work/plain"
"$program" compile "$work/squares" >"$work/squares.c"
"$program" compile "$work/plain" >"$work/plain.c"

read -r base mib < <(measured "$program" run "$work/none" "a=$work/v")
told 'reading the values alone' "$base" "$mib" 0
read -r s mib < <(measured "$program" run "$work/squares" "a=$work/v")
told 'run: even squares, summed' "$s" "$mib" "$base"
read -r s mib < <(measured "$program" exec "$work/squares.c" "$work/v")
told 'exec: even squares, summed' "$s" "$mib" "$base"
read -r s mib < <(measured awk '$1 % 2 == 0 { s += $1 * $1 } END { print s }' "$work/v")
told 'awk, reading included' "$s" "$mib" 0
read -r s mib < <(measured "$program" run "$work/plain" "a=$work/v")
told 'run: array a | print' "$s" "$mib" "$base"
read -r s mib < <(measured "$program" exec "$work/plain.c" "$work/v")
told 'exec: array a | print' "$s" "$mib" "$base"
read -r s mib < <(measured awk '{ print $1 + 0 }' "$work/v")
told 'awk, reading included' "$s" "$mib" 0
read -r s mib < <(measured "$program" run "$work/none" "a=$work/padded")
told "reading a value file of $(($(wc -c <"$work/padded") / 1048576)) MiB" "$s" "$mib" 0
