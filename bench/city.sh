#!/usr/bin/env bash
# Counts a file like a large city's (90,000 voters, 130 projects, 8 to 12 approvals each, a budget of 30 % of the costs), and with
# `limits` as its argument one at the limits (1,000,000 voters, 10,000 projects), each beside reading it and beside a plain Rust
# program of the same algorithm.
set -eu
here=$(cd "$(dirname "$0")" && pwd)
work=${WORK:-/tmp/niwokade-bench}
mkdir -p "$work"
[ -f "$work/city.pb" ] || python3 "$here/make_pb.py" 90000 130 8 12 30 > "$work/city.pb"
rustc -O -o "$work/plain_count" "$here/plain_count.rs"
(cd "$here/../crates/pb_app" && rt run < stdin > /dev/null)
program=$here/../crates/pb_app/out/pb_app
"$program" count "$work/city.pb" > "$work/city.report"
"$work/plain_count" "$work/city.pb" | cmp - "$work/city.report"
python3 "$here/ratios.py" "$program" "$work/plain_count" "$work/city.pb" 3
python3 "$here/ratios.py" "$program" "$work/plain_count" "$work/city.pb" 3 --plain
if [ "${1:-}" = limits ]; then
  [ -f "$work/large.pb" ] || python3 "$here/make_pb.py" 1000000 10000 8 12 30 > "$work/large.pb"
  python3 "$here/ratios.py" "$program" "$work/plain_count" "$work/large.pb" 1
fi
