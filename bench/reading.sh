#!/usr/bin/env bash
# Prints how long strymonas takes to read pipeline texts and find their kinds: texts of 1, 4, 16 and
# 64 KiB, an expression 200 deep, streams nested 16 deep, and a text of 65,536 opening parentheses, which is
# refused. Each line is the least of several runs of `check`, in milliseconds, and what the run answered
# on standard error, which is nothing where the text is read whole. The first line is a text of no bytes:
# what starting the program takes.
set -eu
. "$(dirname "$0")/../examples/program.sh"
cd "$top"

# text BYTES: an array and a map of 527 bytes as often as there is room for, and then blanks
text() {
  awk -v bytes="$1" 'BEGIN {
    name = "x"; while (length(name) < 170) name = name "x"
    stage = " | map " name " -> " name " * " name " + 1"
    text = "input a: array; array a"
    end = " | print\n"
    while (length(text) + length(stage) + length(end) <= bytes) text = text stage
    while (length(text) + length(end) < bytes) text = text " "
    printf "%s%s", text, end
  }'
}

# deep N: parentheses around a number, N - 1 of them
deep() {
  awk -v n="$1" 'BEGIN {
    printf "range(0, "; for (i = 1; i < n; i++) printf "("; printf "1"
    for (i = 1; i < n; i++) printf ")"; printf ") | print\n"
  }'
}

# nested N: streams nested N deep
nested() {
  awk -v n="$1" 'BEGIN {
    for (i = 1; i < n; i++) printf "array a | flatMap x -> ("
    printf "array a"; for (i = 1; i < n; i++) printf ")"; printf " | print\n"
  }'
}

: >"$work/empty"
for kib in 1 4 16 64; do text $((kib * 1024)) >"$work/$kib-KiB"; done
deep 200 >"$work/200-deep"
{ echo 'input a: array;'; nested 16; } >"$work/16-nested"
awk 'BEGIN { for (i = 0; i < 65536; i++) printf "(" }' >"$work/65536-parentheses"

# least FILE: the least time of 9 runs, in milliseconds
least() {
  best=
  for _ in 1 2 3 4 5 6 7 8 9; do
    from=$(date +%s%N)
    "$program" check "$1" >"$work/out" 2>"$work/err" || true
    spent=$(($(date +%s%N) - from))
    if [ -z "$best" ] || [ "$spent" -lt "$best" ]; then best=$spent; fi
  done
  awk -v ns="$best" 'BEGIN { printf "%.2f", ns / 1000000 }'
}

printf '%-18s %8s %10s  %s\n' text bytes ms answer
for name in empty 1-KiB 4-KiB 16-KiB 64-KiB 200-deep 16-nested 65536-parentheses; do
  ms=$(least "$work/$name")
  printf '%-18s %8s %10s  %s\n' "$name" "$(wc -c <"$work/$name")" "$ms" "$(cat "$work/err")"
done
