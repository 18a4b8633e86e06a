# Sourced by scripts that run the program, before they go to another folder: sets `top` to the top of the repository,
# `program` to the executable that the gate leaves, or to the one that the environment variable STRYMONAS names, and
# `work` to a folder that is gone when the script ends. Where the program isn't built, the script ends with a line that
# says how to get it.
# shellcheck shell=bash

# from_here NAME: the name of a file as it is from any folder
from_here() {
  case $1 in
    /*) echo "$1" ;;
    *) echo "$PWD/$1" ;;
  esac
}

unset CDPATH
top=$(cd "$(dirname "${BASH_SOURCE[0]}")/.." && pwd)
program=$(from_here "${STRYMONAS:-$top/crates/strymonas_cli/out/strymonas_cli}")
[ -x "$program" ] || exec "$top/strymonas"
work=$(mktemp -d)
trap 'rm -rf "$work"' EXIT
