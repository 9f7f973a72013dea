#!/usr/bin/env bash
# Reads files whose ids were chosen against the hash tables of ids, and opens desks on them, beside plain files of the
# same size, in one run.
#
# hostile.sh [FOLDER] [VOTERS..]
#
# For each number of voters (10,000, 100,000 and 1,000,000 where none is given) and 10,000 projects, it chooses the
# voters' ids and then the projects' ids, short ones (8 bytes) and long ones (32 bytes), and prints how many times as
# long as the plain file's the chosen file's reading takes; where the voters' ids are chosen, also the reading and the
# opening of a desk. To choose 1,000,000 short ids takes about half a minute.
set -eu
here=$(cd "$(dirname "$0")" && pwd)
work=${1:-/tmp/niwokade-bench}
shift || true
mkdir -p "$work"
rustc --edition 2021 -O -o "$work/hostile_ids" "$here/hostile_ids.rs"
(cd "$here/../crates/pb_app" && rt run < stdin > /dev/null)
program=$here/../crates/pb_app/out/pb_app

# LABEL FILE: reads it once. No count is made with 0 workers, and that is found after the reading.
reading() {
  python3 "$here/measure.py" "$1" -- "$program" count "$2" --workers 0 2>&1 > "$work/read" | tee -a "$work/read.times" >&2
}

# LABEL FILE: reads it, opens a desk on it, and writes the journal of no requests.
opening() {
  python3 "$here/measure.py" "$1, a desk" -- "$program" desk "$2" /dev/null 2>&1 > "$work/opened" | tee -a "$work/read.times" >&2
}

# WHAT: does it on the plain file and on the chosen one, and prints the ratio.
compare() {
  : > "$work/read.times"
  "$1" "$voters voters, plain ids" "$work/plain.pb"
  "$1" "the same, $length ids of $who chosen" "$work/hostile.pb"
  python3 - "$work/read.times" <<'END'
import re, sys
plain, hostile = (float(re.search(r"([0-9.]+) s of processor time", line).group(1)) for line in open(sys.argv[1]))
print(f"chosen ids take {hostile / max(plain, 0.01):.1f} times as long")
END
}

for voters in ${*:-10000 100000 1000000}; do
  for who in voters projects; do
    for length in short long; do
      "$work/hostile_ids" "$who" "$length" "$voters" 10000 "$work/hostile.pb" "$work/plain.pb"
      compare reading
      if [ "$who" = voters ]; then compare opening; fi
    done
  done
done
