#!/bin/bash
# Instructions a token by callgrind, and nanoseconds beside them: of read, of write (which reads first), and of the crate's parser over the same
# commands in the same run. A row: name, tokens, read, write [, the crate, read's share of it], then nanoseconds of read, of write [, of the crate].
# count.sh [OUT [NAME..]]: OUT is where build.sh wrote, NAME a file of inputs/ or of OUT/inputs. ORACLE names the crate's program (without it its
# columns are left out).
H=$(cd "$(dirname "$0")" && pwd); T=${1:-$(dirname "$H")/target/bench}; shift; O=$(mktemp -d); trap 'rm -rf "$O"' EXIT
counted() { awk '/Collected/{print $NF}' "$1"; }
tokens() { sed -nE 's/^bench:.*, ([0-9]+) tokens.*/\1/p' "$1"; }
ns() { sed -nE 's/^bench:.*, ([0-9.]+) ns a token$/\1/p' "$1"; }
for f in ${*:-star short t200 t4000columns t4000values t4000in parens60 queries16 from16 mix300}; do
  I=$H/inputs/$f.txt; [ -f "$I" ] || I=$T/inputs/$f.txt
  grind() { valgrind --tool=callgrind --callgrind-out-file="$O/cg" --collect-atstart=no --toggle-collect="$1" "${@:2}"; }
  grind reader_read "$T/drive" bench "$I" 1 > "$O/ours" 2>&1
  grind writer_write "$T/drive" bench "$I" 1 w > "$O/writes" 2>&1
  rounds=$((2000000 / $(tokens "$O/ours") + 1))
  "$T/drive" bench "$I" "$rounds" > "$O/ours-timed"
  "$T/drive" bench "$I" "$rounds" w > "$O/writes-timed"
  crate=; if [ -n "$ORACLE" ]; then
    grind oracle::bench_parse "$ORACLE" bench 5 < "$I" > "$O/crate" 2>&1
    crate=$(awk "BEGIN{print $(counted "$O/crate") / 5 / $(tokens "$O/crate")}")
    "$ORACLE" bench "$rounds" < "$I" > "$O/crate-timed"
  fi
  awk -v f="$f" -v ours="$(counted "$O/ours")" -v writes="$(counted "$O/writes")" -v t="$(tokens "$O/ours")" -v crate="$crate" \
    -v n="$(ns "$O/ours-timed")" -v m="$(ns "$O/writes-timed")" -v k="$([ -z "$crate" ] || ns "$O/crate-timed")" 'BEGIN {
    v = ours / t; w = writes / t; printf "| %s | %d | %.0f | %.0f |", f, t, v, w
    if (crate != "") printf " %.0f | %.0f %% | %.0f | %.0f | %.0f |\n", crate, 100 * v / crate, n, m, k; else printf " %.0f | %.0f |\n", n, m }'
done
