#!/bin/sh
# Counts the instructions that the program executes for the texts of texts.py, and those of `luac -p` for the like in Lua,
# and prints a row for each. The counts don't depend on the load of the machine.
# usage: bench/instructions.sh [PROGRAM]
# PROGRAM is the built program: crates/vsi_program/out/vsi_program where none is given. It needs valgrind and luac5.4.
set -eu
here=$(cd "$(dirname "$0")" && pwd)
vsi=$(readlink -f "${1:-$here/../crates/vsi_program/out/vsi_program}")
[ -x "$vsi" ] || { echo "there is no program $vsi" >&2; exit 1; }
work=$(mktemp -d)
trap 'rm -rf "$work"' EXIT
"$here/texts.py" "$work"
cd "$work"

# A row: the status that the command must have, what it is called, and the command.
row() {
  expected=$1 called=$2
  shift 2
  status=0
  valgrind --tool=callgrind --callgrind-out-file=/dev/null "$@" > output 2> report || status=$?
  [ "$status" -eq "$expected" ] || { echo "$called: the status is $status and not $expected" >&2; exit 1; }
  sed -n 's/^==[0-9]*== Collected : \([0-9]*\)$/\1/p' report | awk -v called="$called" '
    { printf "| %s | %.2f million |\n", called, $1 / 1e6; found = 1 }
    END { exit !found }' || { echo "$called: valgrind counted nothing" >&2; exit 1; }
}

printf '| Command | Instructions |\n|---|---|\n'
row 0 'the start alone: `check` of 21 bytes' "$vsi" check two.toml start.vsi
row 0 '`check`, accepted' "$vsi" check two.toml accepted.vsi
row 0 '`luac5.4 -p` for the like in Lua' luac5.4 -p like.lua
row 0 '`check --json`, accepted' "$vsi" check two.toml accepted.vsi --json
row 1 '`check`, refused' "$vsi" check two.toml refused.vsi
row 1 '`check --json`, refused' "$vsi" check two.toml refused.vsi --json
row 1 '`check --sarif`, refused' "$vsi" check two.toml refused.vsi --sarif
row 1 '`check --explain`, refused' "$vsi" check two.toml refused.vsi --explain
