#!/bin/bash
# Times the machine beside a plain switch interpreter in C, on the same images, and prints a table. A second table has the
# images as C, which `vsi emit-c` prints, beside C by hand for the same programs.
# usage: bench/run.sh [REPEATS [PROGRAM]]
# PROGRAM is the built program: crates/vsi_program/out/vsi_program where none is given.
set -euo pipefail
here=$(cd "$(dirname "$0")" && pwd)
top=$(dirname "$here")
repeats=${1:-9}
vsi=$(readlink -f "${2:-$top/crates/vsi_program/out/vsi_program}")
[ -x "$vsi" ] || { echo "there is no program $vsi"; exit 1; }
work=$(mktemp -d)
trap 'rm -rf "$work"' EXIT

# A copy of the crates that the program needs, with what earlier checks of them kept, and the program beside them.
mkdir -p "$work/crates"
git init -q "$work"
[ -f "$top/HANDLES" ] && cp "$top/HANDLES" "$work/"
for crate in vsi_syntax vsi_image vsi_machine; do
  cp -r "$top/crates/$crate" "$work/crates/"
  grep "^$crate:" "$top/crates.txt" >> "$work/crates.txt"
done
mkdir -p "$work/crates/machine/src"
cp "$here/machine.rt.txt" "$work/crates/machine/src/main.rt"
echo "machine: vsi_image vsi_machine anyhow" >> "$work/crates.txt"

python3 "$here/images.py" "$work"
gcc -O2 -Wall -o "$work/interpreter" "$here/interpreter.c"
# `rt run` builds the program, and here only shows that it refuses to run without arguments.
(cd "$work/crates/machine" && rt check --jobs 1 && rt run) > "$work/build.log" 2>&1 || true
machine=$work/crates/machine/out/machine
[ -x "$machine" ] || { cat "$work/build.log"; exit 1; }

# The images as C, and the same programs by hand, by the same compiler.
python3 "$here/by_hand.py" > "$work/by_hand.c"
for program in counting nested straight; do
  "$vsi" emit-c "$work/$program.vsi" > "$work/$program.c"
  "$vsi" emit-c "$work/$program.vsi" --header > "$work/$program.h"
done
gcc -O2 -Wa,-mbranches-within-32B-boundaries -Wall -I "$here" -I "$work" -o "$work/emitted" "$here/emitted.c" "$work"/{by_hand,counting,nested,straight}.c

# One line per run: program, who ran it, outcome, instructions, nanoseconds, globals.
for ((round = 0; round < repeats; round++)); do
  for program in counting nested straight; do
    image=$work/$program.vsi
    done=$("$work/interpreter" "$image")
    count=$(cut -d' ' -f2 <<< "$done")
    echo "$program C $done"
    echo "$program machine $("$machine" "$image" "$count")"
    echo "$program emitted $("$work/emitted" "$program" emitted "$count")"
    echo "$program hand $("$work/emitted" "$program" hand "$count")"
  done
done > "$work/times"

# The best time of each, after a test that all runs halted with the same globals.
awk '
  { rest = ""; for (i = 6; i <= NF; i++) rest = rest " " $i
    if ($3 != "Halted" || (($1 in globals) && globals[$1] != rest)) { print "runs differ at " $0; failed = 1; exit 1 }
    globals[$1] = rest; count[$1] = $4
    time = $5 / $4; key = $1 " " $2
    if (!(key in best) || time < best[key]) best[key] = time }
  END { if (failed) exit 1
    print "| Program | Instructions | C, ns per instruction | machine, ns per instruction | Ratio |"
    print "|---|---|---|---|---|"
    split("counting nested straight", programs, " ")
    for (i = 1; i <= 3; i++) { p = programs[i]
      printf "| %s | %d | %.3f | %.3f | %.2f |\n", p, count[p], best[p " C"], best[p " machine"], best[p " machine"] / best[p " C"] }
    print ""
    print "| Program | C by hand, ms | emitted C, ms | machine, ms | emitted to hand | machine to emitted |"
    print "|---|---|---|---|---|---|"
    for (i = 1; i <= 3; i++) { p = programs[i]; ms = count[p] / 1e6; e = best[p " emitted"]
      printf "| %s | %.1f | %.1f | %.1f | %.2f | %.1f |\n", p, best[p " hand"] * ms, e * ms, best[p " machine"] * ms, e / best[p " hand"], best[p " machine"] / e } }
' "$work/times"
