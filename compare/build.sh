#!/bin/bash
# Builds both sides into target/compare: the crate's program (crate/release/oracle, once the three originals are checked) and ours (drive).
# Once, for the crate's side (Debian 12): apt-get install -y --no-install-recommends librust-thiserror-dev librust-strum-dev librust-strum-macros-dev
set -e
H=$(cd "$(dirname "$0")" && pwd); R=$(dirname "$H"); T=$R/target/compare
cd "$H"
sha256sum -c --quiet originals.sha256
python3 gen_token_rs.py
cargo build --release --quiet --target-dir "$T/crate"
"$R/bench/build.sh" "$R/crates" "$T/reader"
gcc -O2 -o "$T/drive" drive.c "$T/reader/cap/both.o" -Wl,--gc-sections
