#!/bin/bash
# usage: build.sh CRATESDIR OUTDIR : compiles the crates unproved, at -O3 as the toolchain does, into OUTDIR/libanalyze.a
set -e
C=$1; O=$2; mkdir -p $O
words=()
for d in $(cut -d: -f1 $C/crates.txt | sed '/^analyze$/q'); do [ -f $C/$d/src/lib.rt ] && words+=(--lib "$d=$C/$d/src/lib.rt"); done
rm -f /tmp/lab/captured/*
/opt/rattle/on/x86_64/bin/rattle-cases --toolchain /tmp/lab/tc /tmp/lab/crates/bench/src/main.rt --crate-name bench --lib std=/opt/rattle/libs/std/src/lib.rt "${words[@]}" --lib io=/opt/rattle/libs/io/src/lib.rt --lib libc=/opt/rattle/libs/libc/src/lib.rt > $O/log 2>&1 || true
M=$(ls /tmp/lab/captured/* 2>/dev/null | sed -n 2p)
[ -n "$M" ] || { cat $O/log; exit 1; }
cp $M $O/module.bc
cd $O
T=/opt/rattle/on/x86_64/toolchain/bin/clang
$T --target=x86_64-unknown-linux-gnu -S -emit-llvm -O0 -Xclang -disable-llvm-passes -x ir module.bc -o module.ll
sed -i 's/define internal void @"analyze::tsilmogar_analyze"/define void @tsilmogar_inner/; s/call void @"analyze::tsilmogar_analyze"/call void @tsilmogar_inner/; s/^define i32 @main/define internal i32 @main/' module.ll
$T --target=x86_64-unknown-linux-gnu -march=x86-64 -ffunction-sections -fdata-sections -mllvm -trap-unreachable -mllvm -no-trap-after-noreturn --no-default-config -no-canonical-prefixes -fintegrated-cc1 -fno-crash-diagnostics -Werror -c -x ir module.ll -o module.o -fPIE -O3 -Xclang -fmerge-functions -mllvm -mergefunc-use-aliases
gcc -O2 -c -fPIE ../wrap.c -o wrap.o
rm -f libanalyze.a; ar rcs libanalyze.a module.o wrap.o
