#!/bin/sh
# Prints the paths of a unit's files that calendar-timers reads in a tree, in the order in which it reads them, for
# tests/units.py. Each file has to have one line with an unknown key.
#
#     tests/lib/read_files.sh TIMERS TREE UNIT
"$1" lint --json --utc --now=@0 --root="$2" -- "$3" | sed -n "s|^ *\"file\": \"\(.*\)\",\$|$2\1|p"
