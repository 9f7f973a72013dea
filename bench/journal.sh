#!/usr/bin/env bash
# Writes and audits journals of about 1,000,000 entries: over 100,000 voters with 20,000 withdrawals and with none, and over
# 1,000,000 voters with 500,000 withdrawals and with none. Of each pair it prints how many times as long the audit with
# withdrawals takes.
# The requests are served by bench/desk_load, a program that this script builds over the repository's crates in a folder of its own.
set -eu
here=$(cd "$(dirname "$0")" && pwd)
work=${1:-/tmp/niwokade-bench}
mkdir -p "$work"
[ -f "$work/desk.pb" ] || python3 "$here/make_pb.py" 100000 130 8 12 30 > "$work/desk.pb"
[ -f "$work/million_desk.pb" ] || python3 "$here/make_pb.py" 1000000 130 8 12 30 > "$work/million_desk.pb"
built=$work/desk_load_repository
mkdir -p "$built/crates/desk_load/src"
cp -r "$here/../crates/." "$built/crates/"
cp "$here/../crates.txt" "$here/../HANDLES" "$built/"
echo 'desk_load: pb_core pb_desk pb_read anyhow' >> "$built/crates.txt"
cp "$here/desk_load/main.rt.txt" "$built/crates/desk_load/src/main.rt"
(cd "$built/crates/desk_load" && rt run -- 100000 1 0 < "$work/desk.pb" > /dev/null)
load=$built/crates/desk_load/out/desk_load
(cd "$here/../crates/pb_app" && rt run < stdin > /dev/null)
program=$here/../crates/pb_app/out/pb_app

# FILE VOTERS EVERY: a withdrawal each EVERYth request, none where it is 0
audited() {
  local file=$1 voters=$2 every=$3
  local journal=$work/journal-$voters-$every
  python3 "$here/measure.py" "$voters voters, reading, serving and writing, a withdrawal each $every" 1000000 -- \
    "$load" "$voters" 1000000 "$every" < "$file" > "$journal"
  local entries
  entries=$(wc -l < "$journal")
  python3 "$here/measure.py" "$voters voters, audit of $entries entries" "$entries" -- \
    "$program" audit "$file" "$journal" 2>&1 > "$work/audited" | tee "$journal.time" >&2
}

# FILE VOTERS EVERY: with withdrawals beside none
pair() {
  audited "$1" "$2" 0
  audited "$1" "$2" "$3"
  python3 - "$work/journal-$2-0.time" "$work/journal-$2-$3.time" <<'END'
import re, sys
busy = [float(re.search(r"([0-9.]+) s of processor time", open(name).read()).group(1)) for name in sys.argv[1:]]
print(f"an audit with withdrawals takes {busy[1] / busy[0]:.2f} times one without")
END
}

pair "$work/desk.pb" 100000 50
pair "$work/million_desk.pb" 1000000 2
