#!/bin/bash
# tot.sh DIR NAME : compile, compare sums, print totals
export PATH=$PATH:$WORK/bin
s=$(spc $1 $2 | tail -1); case "$s" in "infjm npfcg lhafb mjndk okjih"*) echo "sums ok";; *) echo "SUMS DIFFER: $s"; head -20 ${SCRATCH:?}/sp/say-$2;; esac
for t in 0 1 2 3 4; do ir $2 $t 0 0 | head -1 | awk '{printf "%s ", $NF}'; done; echo
