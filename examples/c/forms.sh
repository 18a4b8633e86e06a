#!/usr/bin/env bash
# Compiles a pipeline for each form of expression of pairs.c, with the program that the gate leaves,
# compiles its C text with a real C compiler, and has pairs.c compare what it does with what the
# language says, over 36 pairs of ints.
set -eu
. "$(dirname "$0")/../program.sh"
. "$top/examples/c/reading_back.sh"
cd "$top/examples/c"

# strict WORD..: a form needn't read x, y and the item of the array, so C texts may set or have what
# they don't read; every other warning is an error
strict() {
  cc -std=c11 -Wall -Wextra -Werror -Wno-unused-parameter -Wno-unused-but-set-variable -Ipairs "$@"
}

# built FORM: makes the program pairs of the C text of a pipeline whose rows are this form, once it is read back
built() {
  echo "input x: int; input y: int; input a: array; array a | map z -> $1 | print" >"$work/form.strm"
  "$program" compile "$work/form.strm" >"$work/form.c"
  reads_back "$work/form.c"
  strict "$work/form.c" "$work/pairs.o" -o "$work/pairs"
}

strict -c pairs.c -o "$work/pairs.o"
built z
"$work/pairs" >"$work/forms"
forms=0
pairs=0
while IFS= read -r form; do
  built "$form"
  "$work/pairs" "$form" >"$work/lines"
  forms=$((forms + 1))
  pairs=$((pairs + $(tail -n 1 "$work/lines" | cut -d ' ' -f 1)))
done <"$work/forms"
echo "the C texts of $forms forms of expression do what the language says, for $pairs pairs of ints"
