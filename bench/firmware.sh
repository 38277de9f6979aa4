#!/bin/bash
# The deepest stack of the two C functions of the static library, over every route to 64 levels and 16 queries: CJARVINT_STACK of include/cjarvint.h.
set -e
H=$(cd "$(dirname "$0")" && pwd); R=$(dirname "$H"); T=$R/target/bench; mkdir -p "$T"
("$R/tools/staticlib" > "$T/firmware.log" 2>&1) || { cat "$T/firmware.log"; exit 1; }
{ python3 "$H/routes.py"; python3 "$H/routes.py" mixed 3000 1; } > "$T/routes.txt"
gcc -O1 -Wall -Wextra -I"$R/include" -o "$T/firmware" "$H/firmware.c" "$R/target/staticlib/libfirmware.a"
"$T/firmware" "$T/routes.txt"
