#!/usr/bin/env bash
# Compiles pipelines with the program that the gate leaves, their C texts with a real C compiler, and compares
# what they print, and the number that they end with, with values worked out by hand: sources, stages and
# terminals, endless streams and traps.
set -eu
. "$(dirname "$0")/running.sh"
cd "$here"

# row NAME TEXT [OPTION..]: makes a program of a pipeline, with these options of the compiler too
row() {
  printf '%s\n' "$2" >"$work/$1.strm"
  "$program" compile "$work/$1.strm" >"$work/$1.c"
  built "$1" "${@:3}"
}

# of a pipeline with a word that it doesn't use
unused=-Wno-unused-but-set-variable

# goes_on NAME ROWS COUNT INPUT..: an endless program prints these rows first, COUNT of them; nothing is read
# behind them. Where COUNT is 0 it prints nothing for a second, and is ended then
goes_on() {
  name=$1 wanted=$2 count=$3
  shift 3
  arguments "$@"
  if [ "$count" = 0 ]; then
    status=0
    got=$(timeout 1 "$work/$name" "${words[@]}") || status=$?
    [ "$status" = 124 ] || got="$got and ends with $status"
  else
    got=$("$work/$name" "${words[@]}" | head -n "$count" | tr '\n' ',')
  fi
  if [ "$got" != "$wanted" ]; then
    echo "the C text of $name goes on with '$got', not '$wanted'"
    exit 1
  fi
  inputs=$((inputs + 1))
}

row even_squares 'input a: array; array a | filter x -> x % 2 == 0 | map x -> x * x | fold 0 with s x -> s + x'
gives even_squares '20,' 0 '[1 2 3 4]'
gives even_squares '0,' 0 '[]'
gives even_squares '4,' 0 '[-2 -1 7]'

# the division by the third item never comes
row two_quotients 'input a: array; array a | map x -> 10 / x | take 2 | print'
gives two_quotients '2,5,' 0 '[5 2 0]'
gives two_quotients '2,' 4 '[5 0 2]'

row never 'unfold 0 with i while true yield i next i + 1 | filter i -> i < 0 | print'
goes_on never '' 0
row naturals 'unfold 0 with i while true yield i next i + 1 | print'
goes_on naturals '0,1,2,3,' 4

row none 'unfold 0 with i while true yield i next i + 1 | take 0 | print'
gives none '' 0
row fewer_than_none 'unfold 0 with i while true yield i next i + 1 | take -1 | print'
gives fewer_than_none '' 0
row all_dropped 'range(0, 3) | drop 5 | print'
gives all_dropped '' 0
row counted 'input n: int; range(0, 5) | drop n | take n | print'
gives counted '2,3,' 0 2
gives counted '' 0 -2
gives counted '4,' 0 4

row sums_below_eight 'input a: array; array a | scan 0 with s x -> s + x | takeWhile s -> s < 8 | drop 1 | print'
gives sums_below_eight '4,' 0 '[3 1 4 1]'
gives sums_below_eight '4,' 0 '[3 1 5 0 -9]'

row fibonacci 'unfold {0, 1} with {p, q} while p < 30 yield p next {q, p + q} | print'
gives fibonacci '0,1,1,2,3,5,8,13,21,' 0

# the state before the trap isn't printed
row quotient 'input a: array; array a | fold 1 with s x -> s / x'
gives quotient '' 4 '[2 0]'
gives quotient '-1,' 0 '[-1 1]'
gives quotient '1,' 0 '[]'

row largest 'input a: array; array a | fold {0, 0} with {n, m} x -> {n + 1, if x > m then x else m}'
gives largest '4 7,' 0 '[3 7 -8 1]'

row ends 'range(9223372036854775805, 9223372036854775807) | map x -> x + 1 | print'
gives ends '9223372036854775806,9223372036854775807,' 0
row reversed 'input n: int; range(n, 0) | print'
gives reversed '' 0 5
gives reversed '-2,-1,' 0 -2

# ---- inner streams

row first_of_each 'input a: array; array a | flatMap x -> (array a | map y -> x * 10 + y | take 1) | map z -> z + 1 | print'
gives first_of_each '12,22,' 0 '[1 2]'
# a million times a million rows, of which three are asked for
row three_of_many 'range(0, 1000000) | flatMap i -> (range(0, 1000000)) | take 3 | print' "$unused"
gives three_of_many '0,1,2,' 0

# inner streams that end at once
row counts 'input a: array; array a | flatMap x -> (range(0, x)) | print'
gives counts '0,1,0,' 0 '[2 0 1 -3]'
gives counts '' 0 '[0 0]'
row running_sum 'input a: array; array a | flatMap x -> (range(0, x)) | scan 0 with s k -> s + k + 1 | print'
gives running_sum '1,3,4,6,9,' 0 '[2 3]'
row first_four 'range(1, 4) | flatMap i -> (range(0, i)) | take 4 | print'
gives first_four '0,0,1,0,' 0
row below_two 'range(0, 3) | flatMap i -> (unfold i with k while k < 3 yield k next k + 1 | takeWhile k -> k < 2) | print'
gives below_two '0,1,1,' 0
row all_but_first 'range(2, 4) | flatMap i -> (range(0, i) | drop 1) | print'
gives all_but_first '1,1,2,' 0
row multiples 'input n: int; range(0, 3) | flatMap i -> (range(i, n)) | map k -> k * n | print'
gives multiples '0,2,2,' 0 2
row pairs_below 'range(1, 3) | flatMap i -> (range(0, i) | flatMap j -> (range(j, i))) | print'
gives pairs_below '0,0,1,1,' 0
row endless_inner 'range(0, 2) | flatMap i -> (unfold 0 with k while true yield k next k + 1) | print' "$unused"
goes_on endless_inner '0,1,2,3,' 4
# the second inner stream traps at its first row
row inner_trap 'input a: array; array a | flatMap x -> (range(0, 2) | map k -> 10 / x) | print'
gives inner_trap '2,2,' 4 '[5 0 2]'
row sum_of_all 'input a: array; array a | flatMap x -> (array a | map y -> x * y) | fold 0 with s p -> s + p'
gives sum_of_all '36,' 0 '[1 2 3]'

# ---- streams side by side

row dot_product 'input a: array; input b: array; zip(array a, array b) | map {x, y} -> x * y | fold 0 with s p -> s + p'
gives dot_product '14,' 0 '[1 2 3]' '[4 5]'
row two_nests 'zip(range(0, 3) | flatMap i -> (range(0, i)), range(1, 3) | flatMap j -> (range(0, 2) | map k -> j * 10 + k)) | print'
gives two_nests '0 10,0 11,1 20,' 0
# the left arm is asked first: it traps where the right one has ended
row left_trap 'input a: array; zip(array a | map x -> 10 / x, range(0, 2)) | print'
gives left_trap '2 0,5 1,' 4 '[5 2 0]'
# and where the left one has ended the right one isn't asked
row right_trap 'input a: array; zip(range(0, 2), array a | map x -> 10 / x) | print'
gives right_trap '0 2,1 5,' 0 '[5 2 0]'
row endless_left 'zip(unfold 0 with i while true yield i next i + 1, range(0, 2)) | print'
gives endless_left '0 0,1 1,' 0
row sales 'input price: array; input qty: array; input floor: int; zip(array price, array qty) | filter {p, q} -> p >= floor | fold {0, 0} with {n, t} {p, q} -> {n + 1, t + p * q}'
gives sales '3 11999,' 0 '[250 1999 120 4500]' '[4 1 10 2]' 200

# an arm that gives no row for long, or never
row no_left 'zip(range(0, 0), unfold 0 with i while true yield i next i + 1 | filter i -> i < 0) | print'
gives no_left '' 0
row no_right 'zip(range(0, 1), unfold 0 with i while true yield i next i + 1 | filter i -> i < 0) | print'
goes_on no_right '' 0
row one_right 'zip(unfold 0 with i while true yield i next i + 1, range(0, 3) | filter x -> x < 1) | print'
gives one_right '0 0,' 0
row skips_right 'input a: array; zip(range(0, 9), array a | filter x -> x > 0) | print'
gives skips_right '0 5,1 7,' 0 '[0 5 0 -1 7]'
row skips_left 'input a: array; zip(array a | filter x -> x > 0, range(0, 9)) | print'
gives skips_left '5 0,7 1,' 0 '[0 5 0 -1 7]'

row four_arms 'zip(zip(range(0, 3), range(10, 13)), zip(range(20, 22), range(30, 39))) | print'
gives four_arms '0 10 20 30,1 11 21 31,' 0
row zip_in_nest_in_zip 'zip(range(0, 4), range(1, 3) | flatMap i -> (zip(range(0, i), range(i, 9)))) | print'
gives zip_in_nest_in_zip '0 0 1,1 0 2,2 1 3,' 0
row eight_words 'zip(unfold {1, 2, 3, 4} with {p, q, r, s} while p < 3 yield {p, q, r, s} next {p + 1, q, r, s}, unfold {5, 6, 7, 8} with {p, q, r, s} while true yield {p, q, r, s} next {p + 1, q, r, s}) | print'
gives eight_words '1 2 3 4 5 6 7 8,2 2 3 4 6 6 7 8,' 0
row none_of_two 'zip(unfold 0 with i while true yield i next i + 1, unfold 0 with i while true yield i next i + 1) | take 0 | print'
gives none_of_two '' 0

echo "the C texts of $texts pipelines give what was worked out by hand, for $inputs inputs"
