#!/bin/bash
for ps in "objects 10" "objects 100" "functions 10" "functions 100" "flat 100" "forward 100"; do
 set -- $1 $ps; n=10
 valgrind --tool=callgrind --dump-instr=no --toggle-collect=tsilmogar_analyze --callgrind-out-file=$1/cg.$2.$3 $1/once $2 $3 $n 2>&1 | grep -o "Collected : .*" | awk -v p="$2 $3" -v n=$n '{printf "%s: %.0f; ", p, $3/n}'
done; echo
