#!/usr/bin/env bash
# Compiles the C texts of examples with a real C compiler, each with the program that driver.sh writes for
# it, and compares what they print, and the number that they end with, with values worked out by hand: over
# inputs at their edges, and inputs that can't be read. The texts are written by the program that the gate leaves.
set -eu
. "$(dirname "$0")/running.sh"
cd "$here"

# compiled NAME: writes the C text of NAME.strm and makes a program of it
compiled() {
  "$program" compile "../$1.strm" >"$work/$1.c"
  built "$1"
}

compiled squares
gives squares '10,5,' 0 '[3 -2]'
gives squares '1,' 0 '[-9223372036854775808]'
gives squares '2,' 0 '[9223372036854775807]'
gives squares '1,' 0 '[0]'
gives squares '' 0 '[]'

compiled by_minus_one
gives by_minus_one '-9223372036854775808 0,' 0 '[-9223372036854775808]'

compiled halves
gives halves '-3 -1 3 -1,3 1 -3 1,' 0 '[-7 7]'

compiled guarded_quotients
gives guarded_quotients '0,2,' 0 '[0 5]'

compiled quotients
gives quotients '2,5,' 4 '[5 2 0]'

# an int, an array and an int: what isn't given, or is no number, runs nothing
compiled surcharge
gives surcharge '115,60,' 0 5 '[100 50]' 10
gives surcharge '' 9 5 '[100 50]'
gives surcharge '' 9 five '[100 50]' 10
gives surcharge '' 9 5 '[100 9223372036854775808]' 10

echo "the C texts of $texts examples give what was worked out by hand, for $inputs inputs"
