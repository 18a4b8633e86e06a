#!/usr/bin/env bash
# Compiles the C text of each example with each pipeline.h that is here, the one that prints rows and the one
# that writes them into an array, by gcc and by clang, at -O0 and at -O2, with warnings as errors, without and
# with the sanitizer of undefined behaviour. Runs each program over the inputs that the table `runs` has, and
# compares what it prints with NAME.out, and its status with the table's. An example that never ends
# is compiled only. The example program array/main.c is made and run in the same ways. A compiler that isn't
# there is left out.
set -u
. "$(dirname "$0")/../program.sh"
. "$top/examples/c/reading_back.sh"
cd "$top/examples" || exit 1
. ./table.sh
export UBSAN_OPTIONS=exitcode=99

# written: writes the C text of each example, and a main program for it
written() {
  local example name
  for example in *.strm; do
    name=${example%.strm}
    "$program" compile "$example" >"$work/$name.c" || return 1
    reads_back "$work/$name.c"
    c/driver.sh "$work/$name.c" >"$work/$name-main.c" || return 1
  done
}

# has_sanitizer COMPILER: programs can be made with the sanitizer
has_sanitizer() {
  echo 'int main(void) { return 0; }' >"$work/none.c"
  "$1" -fsanitize=undefined "$work/none.c" -o "$work/none" 2>/dev/null && "$work/none"
}

# compiled OPTION..: makes the program $place/main, by the compiler and with the options of `checked`. A pipeline
# need not read all its inputs and words
compiled() {
  programs=$((programs + 1))
  "$compiler" -std=c11 "${options[@]}" -Wall -Wextra -Wconversion -pedantic -Werror -Wno-unused-parameter \
    -Wno-unused-variable -Wno-unused-but-set-variable "$@" -o "$place/main" 2>"$place/said" && return
  echo "$compiler ${options[*]} doesn't compile $name, $driver:"
  head -n 5 "$place/said"
  bad=1
  return 1
}

# gives OUTPUT STATUS LINE VALUE..: over these values the program writes the file OUTPUT, and on standard error this
# line alone, if any, and ends with this number
gives() {
  local output=$1 wanted=$2 line=$3 got
  shift 3
  runs=$((runs + 1))
  "$place/main" "$@" >"$place/out" 2>"$place/said"
  got=$?
  if [ "$got" != "$wanted" ] || [ "$(sort -u "$place/said")" != "$line" ] || ! cmp -s "$place/out" "$output"; then
    echo "$compiler ${options[*]}: $name, $driver, ends with $got for $wanted, and writes:"
    cat "$place/out" "$place/said" | head -n 5
    bad=1
  fi
}

# example_checked WORD..: the example `name`, over what these words bind its inputs to, with each driver
example_checked() {
  local line=''
  take_words "$name" "$@"
  [ "$status" = 4 ] && line='pipeline: trap'
  for driver in printing array; do
    case $driver in
      printing) compiled -Ic "$work/$name-main.c" ;;
      array) compiled -Ic/array -Ic "-DPROGRAM=\"$work/$name-main.c\"" c/array/check.c ;;
    esac || continue
    [ "$status" = 5 ] || gives "$name.out" "$status" "$line" ${values[@]+"${values[@]}"}
  done
}

# checked COMPILER OPTION..: all programs, made by this compiler with these options. The last line that it
# writes says how many were made and run
checked() {
  local compiler=$1 options=("${@:2}") place name status words driver programs=0 runs=0 bad=0
  place=$(mktemp -d "$work/place-XXXXXX")
  while read -r name status words; do
    case $name in '' | '#'*) continue ;; esac
    # shellcheck disable=SC2086
    example_checked $words
  done <runs
  name=quotients driver=array/main.c
  printf '2\n-5\nrows: 3\nwords without room: 1\nan expression divided by zero\n' >"$place/wanted"
  compiled -Ic/array "$work/quotients.c" c/array/main.c && gives "$place/wanted" 1 ''
  echo "$programs $runs"
  return "$bad"
}

written || exit 1
jobs=()
for compiler in gcc clang; do
  if ! command -v "$compiler" >/dev/null 2>&1; then
    echo "skipped: there is no $compiler"
    continue
  fi
  sanitizers=('' '-fsanitize=undefined -fno-sanitize-recover')
  if ! has_sanitizer "$compiler"; then
    echo "skipped: $compiler has no sanitizer of undefined behaviour"
    sanitizers=('')
  fi
  for sanitizer in "${sanitizers[@]}"; do
    for level in -O0 -O2; do
      # shellcheck disable=SC2086
      checked "$compiler" "$level" $sanitizer >"$work/job-${#jobs[@]}" 2>&1 &
      jobs+=($!)
    done
  done
done

bad=0
programs=0
runs=0
for k in "${!jobs[@]}"; do
  wait "${jobs[$k]}" || bad=1
  sed '$d' "$work/job-$k"
  read -r some_programs some_runs < <(tail -n 1 "$work/job-$k")
  programs=$((programs + some_programs))
  runs=$((runs + some_runs))
done
[ "$bad" = 0 ] && echo "the examples with each pipeline.h: $programs programs compiled, $runs runs as they should be"
exit "$bad"
