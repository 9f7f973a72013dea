#!/usr/bin/env bash
# Reads a large file: 1,000,000 voters, about ten approvals each, 10,000 projects.
# Beside it, a loop of plain Rust that only splits the same bytes, and one that keeps the same election with std's hash tables.
set -eu
here=$(cd "$(dirname "$0")" && pwd)
work=${1:-/tmp/niwokade-bench}
mkdir -p "$work"
[ -f "$work/large.pb" ] || python3 "$here/make_pb.py" 1000000 10000 8 12 30 > "$work/large.pb"
records=$(wc -l < "$work/large.pb")
rustc -O -o "$work/plain_reader" "$here/plain_reader.rs"
rustc -O -o "$work/plain_keeper" "$here/plain_keeper.rs"
(cd "$here/../crates/pb_app" && rt run < stdin > /dev/null)
program=$here/../crates/pb_app/out/pb_app
ls -l "$work/large.pb"
for _ in 1 2 3; do
  python3 "$here/measure.py" "plain Rust, fields and votes split" "$records" -- "$work/plain_reader" "$work/large.pb"
  python3 "$here/measure.py" "plain Rust, the election kept" "$records" -- "$work/plain_keeper" "$work/large.pb"
  # No count is made with 0 workers, and that is found after the reading: so this is the reading alone.
  python3 "$here/measure.py" "count, refused after the reading" "$records" -- "$program" count "$work/large.pb" --workers 0
done
