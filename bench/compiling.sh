#!/usr/bin/env bash
# Prints how long strymonas takes to check and to compile texts, and how much memory. First sums and quotients
# of 100, 1,000 and 8,192 nodes, which is the limit, and expressions 200 deep; then texts at the other limits:
# 128 operators as stages, as inner streams in a row, and as streams side by side; 16 nested streams; 65,536
# bytes; and all of these at once. Each line is the least of several runs, in milliseconds, the most memory of a
# `compile` in MiB, and the bytes of the C text. The first line is a text of no bytes, which is refused: what
# starting the program takes. Every other text is compiled, or the script ends with 1.
#
# Less the first line, a time should grow as the nodes do: about eight times from 1,000 to 8,192, for
# sums and for quotients alike, and so should the C text. A quotient's is longer than a sum's: it has
# a line for each pair of signs. No text should take 200 milliseconds or 256 MiB. Memory is printed where
# there is a GNU time.
set -eu
. "$(dirname "$0")/../examples/program.sh"
cd "$top"

# mapped EXPR: a pipeline whose rows are this expression
mapped() {
  printf 'input a: array;\narray a | map x -> %s | print\n' "$1"
}

# balanced OP N: an expression of N nodes, half of them on each side of OP; a parenthesis is a node
balanced() {
  awk -v op="$1" -v n="$2" '
    function expr(n, left) {
      if (n == 1) return "x"
      if (n == 2) return "-x"
      if (n == 3) return "x " op " 3"
      left = int((n - 2) / 2)
      return expr(left) " " op " (" expr(n - 2 - left) ")"
    }
    BEGIN { printf "%s", expr(n) }'
}

# times PART N: PART over and over, N times
times() {
  awk -v part="$1" -v n="$2" 'BEGIN { for (i = 0; i < n; i++) printf "%s", part }'
}

# side_by_side N: N streams, two and two side by side, each pair added up
side_by_side() {
  awk -v n="$1" '
    function stream(n, left) {
      if (n == 1) return "range(0, 9)"
      left = int(n / 2)
      return "zip(" stream(left) ", " stream(n - left) ") | map {x, y} -> x + y"
    }
    BEGIN { printf "%s | print\n", stream(n) }'
}

# padded FILE: as many blanks behind a text as make it 65,536 bytes
padded() {
  printf '%*s' "$((65536 - $(wc -c <"$1")))" '' >>"$1"
}

: >"$work/empty"
for nodes in 100 1000 8192; do
  mapped "$(balanced + "$nodes")" >"$work/sum-$nodes"
  mapped "$(balanced / "$nodes")" >"$work/quotient-$nodes"
done
mapped "$(times 'x + ' 199)x" >"$work/sum-200-deep"
mapped "$(times 'x / ' 199)x" >"$work/quotient-200-deep"
mapped "$(times 'if x == 0 then 0 else ' 198)-x" >"$work/if-200-deep"

counter='unfold 0 with s while s < 2 yield s next s + 1'
open="$counter | flatMap x -> ("
long_map="|map x->-x$(times +1 41)"
printf 'range(0, 9)%s | print\n' "$(times ' | map x -> x + 1' 126)" >"$work/stages-128"
printf 'range(0, 9)%s | print\n' "$(times ' | flatMap x -> (range(x, 9))' 63)" >"$work/inner-63"
side_by_side 43 >"$work/arms-43"
printf '%s%s%s | print\n' "$(times "$open" 15)" "$counter" "$(times ')' 15)" >"$work/nested-16"
printf 'range(0, 9) | print' >"$work/bytes-65536"
padded "$work/bytes-65536"
printf '%s%s%s%s|print' "$(times "$open" 15)" "$counter" "$(times "$long_map" 96)" "$(times ')' 15)" >"$work/all-limits"
padded "$work/all-limits"

# least COMMAND FILE: the least time of 9 runs, in milliseconds; what it writes is left in out
least() {
  best=
  for _ in 1 2 3 4 5 6 7 8 9; do
    from=$(date +%s%N)
    status=0
    "$program" "$1" "$2" >"$work/out" 2>"$work/err" || status=$?
    spent=$(($(date +%s%N) - from))
    if [ -z "$best" ] || [ "$spent" -lt "$best" ]; then best=$spent; fi
  done
  if [ "$status" != 0 ] && [ -s "$2" ]; then
    echo "$1 refused $(basename "$2"): $(cat "$work/err")" >&2
    return 1
  fi
  awk -v ns="$best" 'BEGIN { printf "%.2f", ns / 1000000 }'
}

# memory FILE: the most memory of a `compile`, in MiB
memory() {
  if [ -x /usr/bin/time ] && /usr/bin/time -o "$work/kib" -f %M "$program" compile "$1" >"$work/out" 2>"$work/err"; then
    awk '{ printf "%.1f", $1 / 1024 }' "$work/kib"
  else
    printf '-'
  fi
}

printf '%-18s %8s %10s %10s %8s %10s\n' text bytes 'check ms' 'compile ms' MiB 'C bytes'
for name in empty sum-100 sum-1000 sum-8192 quotient-100 quotient-1000 quotient-8192 \
  sum-200-deep quotient-200-deep if-200-deep \
  stages-128 inner-63 arms-43 nested-16 bytes-65536 all-limits; do
  check=$(least check "$work/$name")
  compile=$(least compile "$work/$name")
  bytes=$(wc -c <"$work/out")
  mib=$(memory "$work/$name")
  printf '%-18s %8s %10s %10s %8s %10s\n' "$name" "$(wc -c <"$work/$name")" "$check" "$compile" "$mib" "$bytes"
done
