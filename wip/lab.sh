#!/bin/bash
# lab.sh DIR: compile the lab crate in DIR without proof, to DIR/lib/libhost.a, and link the bench as DIR/read
set -e
D=${1:-$WORK/mylab}; cd $D; rm -rf $WORK/mylab/tc/saved $WORK/mylab/tc/log
L=$KIT/libs; R=""; [ -f crates/rules/src/lib.rt ] && R="--lib rules=crates/rules/src/lib.rt"
$KIT/on/x86_64/bin/rattle-cases --toolchain $WORK/mylab/tc crates/lab/src/main.rt --crate-name lab --lib std=$L/std/src/lib.rt --lib bits=crates/bits/src/lib.rt --lib description=crates/description/src/lib.rt $R --lib reader=crates/reader/src/lib.rt >out.log 2>&1 || { cat out.log; exit 1; }
mkdir -p lib; cp $WORK/mylab/tc/saved/1-module.bc lib/module.bc
C=$KIT/on/x86_64/toolchain/bin/clang
$C --target=x86_64-unknown-linux-gnu -S -emit-llvm -x ir lib/module.bc -o lib/module.ll -O0 -Xclang -disable-llvm-passes 2>/dev/null
sed -e 's/define internal noundef i64 @rippleshrug_read_slices(/define noundef i64 @lab_read(/; s/define internal noundef i64 @"lab::rippleshrug_read_slices"(/define noundef i64 @lab_read(/; s/@rippleshrug_read_slices(/@lab_read(/g; s/@"lab::rippleshrug_read_slices"(/@lab_read(/g; s/define noundef i32 @main(/define internal noundef i32 @main(/; s/define i32 @main(/define internal i32 @main(/' lib/module.ll > lib/lab.ll
F="--target=x86_64-unknown-linux-gnu -march=x86-64 -ffunction-sections -fdata-sections -mllvm -trap-unreachable -mllvm -no-trap-after-noreturn --no-default-config -no-canonical-prefixes -fintegrated-cc1 -x ir lib/lab.ll -fPIE -O3 -Xclang -fmerge-functions -mllvm -mergefunc-use-aliases $EXTRA"
$C $F -c -o lib/module.o
$C $F -S -emit-llvm -o lib/opt.ll
gcc -O2 -c $WORK/mylab/shim.c -o lib/shim.o
rm -f lib/libhost.a; ar rcs lib/libhost.a lib/module.o lib/shim.o
rustc --edition 2021 -C opt-level=3 -C llvm-args=-align-all-functions=6 -L lib -o read $REPO/bench/read.rs
