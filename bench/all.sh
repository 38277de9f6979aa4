#!/bin/bash
# Builds the reader and the writer as rt compiles them, runs the vectors, and prints the frames, the deepest
# stack, the instructions a token, how they grow and what the worst input costs.
# all.sh [VECTORS [NAME..]]: VECTORS is a folder with commands.txt and room.txt, or a file of such lines (default: the program replay's data); the lines may be
# calls too (vectors.py; calls.sh runs vectors alone). NAME only these inputs.
# ORACLE names the crate's program, if it is to be counted beside ours.
set -e
H=$(cd "$(dirname "$0")" && pwd); R=$(dirname "$H"); V=${1:-$R/crates/replay/data}; [ $# -gt 0 ] && shift; T=$R/target/bench
"$H/build.sh"
python3 "$H/vectors.py" "$V" "$T/vectors.bin"
"$T/drive" vectors "$T/vectors.bin"
python3 "$H/frames.py" "$T/cap/both.s"
{ python3 "$H/routes.py"; python3 "$H/routes.py" mixed 3000 1; } > "$T/routes.txt"
"$T/drive" stack "$T/routes.txt" > "$T/stack.txt"; sort -rn "$T/stack.txt" | awk '{k = $7 " " $8 " " $9 " " $10} !seen[k]++' | head -4; tail -1 "$T/stack.txt"
"$T/drive" stack "$T/routes.txt" w | tail -1
"$H/count.sh" "$T" "$@"
# how it grows with the length of one form, and the worst input
mkdir -p "$T/inputs"; python3 "$H/growth.py" "$T/inputs"
for f in columns sums in values joins case; do ORACLE='' "$H/count.sh" "$T" "$f-200" "$f-4000"; done | awk -F'|' '
  { print } NR % 2 { r = $4; w = $5 } NR % 2 == 0 { sub(/-4000 /, "", $2); printf "|%s, 4,000 by 200 | | %.2f | %.2f |\n", $2, $4 / r, $5 / w }'
ORACLE='' "$H/count.sh" "$T" worst
