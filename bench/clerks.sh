#!/usr/bin/env bash
# Serves 1,000,000 rows of a script by 1, 2, 4 and 64 clerks side by side on a desk of 100,000 ballots, and audits each journal.
# After the join the rows left over are served clerk by clerk, so what stands before the journal's longest end of rising clerks was
# served before the join: that is how many rows are said to be so, at least.
set -eu
here=$(cd "$(dirname "$0")" && pwd)
work=${WORK:-/tmp/niwokade-bench}
mkdir -p "$work"
[ -f "$work/desk.pb" ] || python3 "$here/make_pb.py" 100000 130 8 12 30 > "$work/desk.pb"
(cd "$here/../crates/pb_app" && rt run < stdin > /dev/null)
program=$here/../crates/pb_app/out/pb_app
rows=1000000
for clerks in 1 2 4 64; do
  python3 "$here/make_script.py" "$clerks" "$rows" 100000 > "$work/clerks.script"
  python3 "$here/measure.py" "$clerks clerks" "$rows" -- "$program" desk "$work/desk.pb" "$work/clerks.script" --clerks "$clerks" > "$work/clerks.journal"
  awk -F';' -v clerks="$clerks" 'NR > 1 { if ($2 < last) before = NR - 2; last = $2 }
    END { if (clerks == 1) before = NR - 1; printf "  %d entries, at least %d of them served before the join\n", NR - 1, before }' "$work/clerks.journal"
  python3 "$here/measure.py" "  audit" "$rows" -- "$program" audit "$work/desk.pb" "$work/clerks.journal"
done
