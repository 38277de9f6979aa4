#!/usr/bin/env bash
# Builds the static library and the example in C, and holds what the example says of samples.txt to expected.txt.
# run.sh [-u]: with -u writes expected.txt anew. CC is the C compiler (default: cc). What is not proved yet is proved first.
set -eu
here=$(cd "$(dirname "${BASH_SOURCE[0]}")" && pwd)
cd "$here/.."
out=target/examples
cc=${CC:-cc}

# The header's numbers are the crates'.
numbers() { sed -n "s/.*pub const \([A-Z_]*\): u32 = \([0-9]*\);.*/\1 \2/p" "$1"; }
header() { grep -o 'CJARVINT_[A-Z_]* = [0-9]*' include/cjarvint.h | sed 's/CJARVINT_\(.*\) = /\1 /'; }
diff <(numbers crates/kinds/src/lib.rt | grep -v '^KINDS ') <(header | grep -v '^NODE_' | sed '1,/^SHORT_OUTPUT/d') ||
    { echo "error: the kinds of include/cjarvint.h are not those of crates/kinds" >&2; exit 1; }
diff <(sed '/^\/\/ Details/,$d' crates/kinds/src/node.rt | numbers /dev/stdin) <(header | sed -n 's/^NODE_//p') ||
    { echo "error: the codes of include/cjarvint.h are not those of crates/kinds" >&2; exit 1; }

if [ "$(uname -m)" != x86_64 ] || ! command -v "$cc" >/dev/null; then
    echo "examples: not run: they need an x86-64 machine and a C compiler ($cc)"
    exit 0
fi
tools/staticlib
mkdir -p "$out"
"$cc" -std=c99 -pedantic -Wall -Wextra -Werror -O2 -Iinclude -o "$out/ask" examples/ask.c target/staticlib/libfirmware.a
if command -v c++ >/dev/null; then
    echo '#include "cjarvint.h"' | c++ -Wall -Wextra -Werror -Iinclude -fsyntax-only -x c++ -
fi
{
    while IFS= read -r line; do
        case $line in '' | '#'*) echo "$line"; continue ;; esac
        echo "\$ ask $line"
        # shellcheck disable=SC2086
        "$out/ask" $line </dev/null || echo "status $?"
    done <examples/samples.txt
    printf '\n# from standard input: SELECT *, an empty line, a token that is none\n'
    printf '52 17\n\n52 x\n' | "$out/ask" 2>&1 || echo "status $?"
} >"$out/said.txt"
if [ "${1:-}" = -u ]; then
    cp "$out/said.txt" examples/expected.txt
fi
diff examples/expected.txt "$out/said.txt" || { echo "error: the example does not say what examples/expected.txt has" >&2; exit 1; }
echo "examples: the static library answers C as examples/expected.txt has it"
