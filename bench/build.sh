#!/bin/bash
# Builds OUT/drive: the reader and the writer as `rt lib` compiles them into the static library, with calls.c and driver.c.
# build.sh [CRATES [OUT]]: the folder of the crates (default: the repository's), and where to write (default target/bench).
set -e
H=$(cd "$(dirname "$0")" && pwd); R=$(dirname "$H")
C=$(cd "${1:-$R/crates}" && pwd); T=${2:-$R/target/bench}; mkdir -p "$T/cap"; T=$(cd "$T" && pwd)
(cd "$C/firmware_c" && rt lib > "$T/cap/log" 2>&1) || { cat "$T/cap/log"; exit 1; }
gcc -O2 -I"$R/include" -c "$H/calls.c" -o "$T/cap/calls.o"
ld -r -o "$T/cap/both.o" "$T/cap/calls.o" --whole-archive "$C/firmware_c/out/libfirmware_c.a"
gcc -O1 -g -c "$H/driver.c" -o "$T/cap/driver.o"
gcc -o "$T/drive" "$T/cap/driver.o" "$T/cap/both.o" -Wl,--gc-sections
# the code as frames.py reads it
objdump -d --no-show-raw-insn -M suffix "$T/drive" | sed -E 's/^[0-9a-f]+ <(.*)>:$/"\1":/; s/^ +[0-9a-f]+:\t/\t/; s/^(\tcallq +)[0-9a-f]+ <(.*)>$/\1"\2"/' > "$T/cap/both.s"
