# Sourced by scripts that compile C texts with a real C compiler and run them. It sources program.sh, which
# sets `program` and the folder `work`, and reading_back.sh.
# shellcheck shell=bash
here=$(cd "$(dirname "${BASH_SOURCE[0]}")" && pwd)
. "$here/../program.sh"
. "$here/reading_back.sh"
inputs=0
texts=0

# built NAME [OPTION..]: reads the C text NAME.c in the work folder back, and makes a program of it, with these options
# of the compiler too
built() {
  reads_back "$work/$1.c"
  (cd "$work" && "$here/driver.sh" "$1.c") >"$work/$1-main.c"
  cc -std=c11 -Wall -Wextra -Werror "${@:2}" -I"$here" -I"$work" "$work/$1-main.c" -o "$work/$1"
  texts=$((texts + 1))
}

# arguments INPUT..: puts into `words` what the program takes for these inputs, each an int or the items of an
# array in brackets
arguments() {
  words=()
  for input in "$@"; do
    case $input in
      '['*) printf '%s\n' "${input//[][]/}" >"$work/array-${#words[@]}" && words+=("$work/array-${#words[@]}") ;;
      *) words+=("$input") ;;
    esac
  done
}

# gives NAME ROWS STATUS INPUT..: over these inputs the program prints these rows, each ended by a comma here,
# and ends with this number
gives() {
  name=$1 wanted="$2 $3"
  shift 3
  arguments "$@"
  status=0
  "$work/$name" "${words[@]}" >"$work/rows" 2>"$work/said" || status=$?
  got="$(tr '\n' ',' <"$work/rows") $status"
  if [ "$got" != "$wanted" ]; then
    echo "over '$*' the C text of $name prints and ends with '$got', not '$wanted': $(cat "$work/said")"
    exit 1
  fi
  inputs=$((inputs + 1))
}
