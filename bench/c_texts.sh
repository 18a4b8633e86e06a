#!/usr/bin/env bash
# Prints how fast C texts are read and printed: texts of 64 KiB, 1, 8 and 32 MiB, one of statements as `compile` writes
# them and one of deep words; and 32 MiB of parentheses, of one long line without blanks, of one comment, of many
# comments, and of comments that are begun and never end. Each line has the least of three runs: MB a second of reading
# alone (`c_format --check`), of printing (what `c_format` takes beyond that), the most memory of reading and printing
# in MiB where there is a GNU time, and what was answered. The first line is a text without statements: what
# starting the program takes, in milliseconds. Reading and printing should be at 20 MB a second or better.
set -eu
. "$(dirname "$0")/../examples/program.sh"
. "$top/examples/c/reading_back.sh"
cd "$top"

header='#include "pipeline.h"'

# statements BYTES: a text in its layout of about so many bytes
statements() {
  awk -v bytes="$1" -v header="$header" 'BEGIN {
    print header
    print "int pipeline(const uint64_t *a0, uint64_t n0, uint64_t i1) {"
    print "  uint64_t v0 = 0ULL;\n  uint64_t v1 = 0ULL;"
    part = "  while (1) {\n    if ((v0 < n0) && (!(v1 == 18446744073709551615ULL))) { } else { break; }\n" \
      "    v1 = a0[v0];\n    if (v1 < 9223372036854775808ULL) {\n      EMIT((v1 + i1));\n      ENDROW();\n    } else {\n    }\n" \
      "    v0 = (v0 + 1ULL);\n  }\n"
    for (size = 150; size + length(part) <= bytes; size += length(part)) printf "%s", part
    print "  return 0;\n}"
  }'
}

# deep BYTES: a text in its layout of words in 1,000 parentheses each
deep() {
  awk -v bytes="$1" -v header="$header" 'BEGIN {
    print header
    print "int pipeline(void) {\n  uint64_t v0 = 0ULL;"
    part = "  v0 = "
    for (i = 0; i < 1000; i++) part = part "("
    part = part "v0"
    for (i = 0; i < 1000; i++) part = part " + v0)"
    part = part ";\n"
    for (size = 80; size + length(part) <= bytes; size += length(part)) printf "%s", part
    print "  return 0;\n}"
  }'
}

# filled BEGIN PART END: the header, and 32 MiB of a part between a beginning and an end
filled() {
  awk -v header="$header" -v begin="$1" -v part="$2" -v end="$3" 'BEGIN {
    print header
    printf "%s", begin
    chunk = part
    while (length(chunk) < 65536) chunk = chunk part
    for (size = 64 + length(begin) + length(end); size + length(chunk) <= 33554432; size += length(chunk)) printf "%s", chunk
    printf "%s", end
  }'
}

open='int pipeline(uint64_t i0) { uint64_t v0 = 0ULL; '
close='return 0; }'
printf '%s\n%s%s\n' "$header" "$open" "$close" >"$work/empty"
for size in 65536 1048576 8388608 33554432; do
  statements "$size" >"$work/statements-$size"
  deep "$size" >"$work/deep-$size"
done
filled '' '(' '' >"$work/parentheses"
filled "$open" 'v0=(v0+i0);' "$close" >"$work/one-line"
filled "$open/*" ' any words' " */ $close" >"$work/one-comment"
filled "$open" '/* a comment */' "$close" >"$work/comments"
filled "$open" '/* ' "$close" >"$work/unended"
filled '' 'uint64_t v0 = 0ULL; ' '' >"$work/no-program"

# least OPTION.. FILE: the least time of 3 runs, in nanoseconds
least() {
  best=
  for _ in 1 2 3; do
    from=$(date +%s%N)
    "$formatter" "$@" >"$work/out" 2>"$work/said" || true
    spent=$(($(date +%s%N) - from))
    if [ -z "$best" ] || [ "$spent" -lt "$best" ]; then best=$spent; fi
  done
  echo "$best"
}

# memory FILE: the most memory of reading and printing, in MiB
memory() {
  if [ -x /usr/bin/time ]; then
    /usr/bin/time -q -o "$work/kib" -f %M "$formatter" "$1" >"$work/out" 2>"$work/said" || true
    tail -n 1 "$work/kib" | awk '{ printf "%.1f", $1 / 1024 }'
  else
    printf '-'
  fi
}

start=$(least --check "$work/empty")
awk -v ns="$start" 'BEGIN { printf "starting takes %.2f ms\n", ns / 1000000 }'
printf '%-20s %9s %10s %10s %8s  %s\n' text bytes 'read MB/s' 'print MB/s' MiB answer
for name in statements-65536 statements-1048576 statements-8388608 statements-33554432 \
  deep-65536 deep-1048576 deep-8388608 deep-33554432 \
  parentheses one-line one-comment comments unended no-program; do
  bytes=$(wc -c <"$work/$name")
  read_time=$(least --check "$work/$name")
  whole=$(least "$work/$name")
  answer=$(cat "$work/said")
  if [ -n "$answer" ]; then
    printed=-
  else
    answer="$(wc -c <"$work/out") bytes"
    printed=$(awk -v b="$(wc -c <"$work/out")" -v ns="$((whole - read_time))" 'BEGIN { if (ns < 1) ns = 1; printf "%.0f", b * 1000 / ns }')
  fi
  read_speed=$(awk -v b="$bytes" -v ns="$((read_time - start))" 'BEGIN { if (ns < 1) ns = 1; printf "%.0f", b * 1000 / ns }')
  printf '%-20s %9s %10s %10s %8s  %s\n' "$name" "$bytes" "$read_speed" "$printed" "$(memory "$work/$name")" "$answer"
done
