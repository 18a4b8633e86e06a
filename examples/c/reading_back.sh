# Sourced by scripts that compile pipelines, behind program.sh. `reads_back FILE` ends the script unless the program
# c_format, which reads a C text of the subset and writes it in its layout, gives this C text back byte for byte: it
# is then read as the program that was printed, since a layout reads as no other. The program is the one that the
# gate leaves, or the one that the environment variable C_FORMAT names.
# shellcheck shell=bash disable=SC2154
formatter=$(from_here "${C_FORMAT:-$top/crates/c_format/out/c_format}")
if [ ! -x "$formatter" ]; then
  echo "there is no $formatter: rt ci, at the top of the repository, proves and builds it" >&2
  exit 127
fi

reads_back() {
  if ! "$formatter" "$1" >"$work/read-back.c" 2>"$work/said" || ! cmp -s "$1" "$work/read-back.c"; then
    echo "the C text of $(basename "$1" .c) is not read back: $(cat "$work/said")"
    exit 1
  fi
}
