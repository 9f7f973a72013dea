#!/usr/bin/env bash
# Counts of files that take few and many raises, beside the best known count in plain Rust (bench/best_count.rs), and beside an
# earlier build of the program where EARLIER names one; with `limits` as its argument also a file at the limits. First both plain
# programs are compared with each other on made elections, and the program with the plainer one on 2,000 small ones.
set -eu
here=$(cd "$(dirname "$0")" && pwd)
work=${WORK:-/tmp/niwokade-bench}
mkdir -p "$work"
make() { [ -f "$work/$1.pb" ] || python3 "$here/make_pb.py" "${@:2}" > "$work/$1.pb"; }
make city 90000 130 8 12 30
make mid 20000 200 3 6 30
make small 800 60 3 6 50
rustc -O -o "$work/plain_count" "$here/plain_count.rs"
rustc -O -o "$work/best_count" "$here/best_count.rs"
(cd "$here/../crates/pb_app" && rt run < stdin > /dev/null)
program=$here/../crates/pb_app/out/pb_app
"$work/best_count" test 2000
python3 "$here/many_raises.py" "$program" "$work/plain_count" 2000
if [ "${1:-}" = limits ]; then
  make large 1000000 10000 8 12 30
  python3 "$here/raises.py" "$program" "$work/best_count" 3 "$work" ${EARLIER:+"$EARLIER"} --limits
else
  python3 "$here/raises.py" "$program" "$work/best_count" 3 "$work" ${EARLIER:+"$EARLIER"}
fi
