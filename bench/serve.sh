#!/usr/bin/env bash
# Serves rows on a desk of 100,000 ballots that stands on a file, where each answer is awaited and where 1,000,000 rows are piped,
# beside SQLite on the same disk.
#
# serve.sh [FOLDER] [ROWS]      the folder whose disk is measured, and how many rows are piped
set -eu
here=$(cd "$(dirname "$0")" && pwd)
work=${1:-/tmp/niwokade-bench}
rows=${2:-1000000}
mkdir -p "$work"
[ -f "$work/desk.pb" ] || python3 "$here/make_pb.py" 100000 130 8 12 30 > "$work/desk.pb"
[ -f "$work/serve-$rows.script" ] || python3 "$here/make_script.py" 4 "$rows" 100000 > "$work/serve-$rows.script"
(cd "$here/../crates/pb_app" && rt run < stdin > /dev/null)
program=$here/../crates/pb_app/out/pb_app
python3 "$here/serve.py" "$program" "$work" 100 41
rm -f "$work/serve.journal"
python3 "$here/measure.py" "$rows rows, piped" "$rows" -- "$program" serve "$work/desk.pb" "$work/serve.journal" < "$work/serve-$rows.script" > "$work/serve.answers"
tail -n "$rows" "$work/serve.journal" | cmp - <(tail -n "$rows" "$work/serve.answers")
python3 "$here/measure.py" "opened again" "$rows" -- "$program" serve "$work/desk.pb" "$work/serve.journal" < /dev/null
python3 "$here/measure.py" "  audit" "$rows" -- "$program" audit "$work/desk.pb" "$work/serve.journal"
python3 "$here/measure.py" "  the same rows by desk" "$rows" -- "$program" desk --clerks 4 "$work/desk.pb" "$work/serve-$rows.script" > /dev/null
