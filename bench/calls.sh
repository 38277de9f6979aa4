#!/bin/bash
# Builds the reader and the writer as rt compiles them, and runs the vectors alone: calls.sh [VECTORS..], files or folders as vectors.py has them
# (default: the program replay's data). Status 1 where one is wrong.
set -e
H=$(cd "$(dirname "$0")" && pwd); R=$(dirname "$H"); T=$R/target/bench
"$H/build.sh"; W=0
for v in "${@:-$R/crates/replay/data}"; do
  echo "$v: $(python3 "$H/vectors.py" "$v" "$T/vectors.bin")"; "$T/drive" vectors "$T/vectors.bin" || W=1
done
exit $W
