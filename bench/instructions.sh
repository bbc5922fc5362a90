#!/usr/bin/env bash
# Counts instructions: bench/instructions.sh CPU FILTER, behind bench/run.sh for that CPU. For each row whose
# name, as in `is_subset at 64 bits`, has FILTER in it prints a line a library: the row, the library, whether it
# does the same, how many instructions it takes for a unit of the row, and the unit. They are those of a process
# that does four rounds, less those of one that does two, by callgrind: the same in every run, whatever else the
# machine does. `bench/report.py` draws a table of those in bench/results/instructions.tsv.
set -euo pipefail
cd "$(dirname "$0")"
harness=out/$1/target/release/harness

# How many instructions a library takes for so many rounds of a row.
count() {
    valgrind --tool=callgrind --callgrind-out-file=/dev/null "$harness" --alone "$1" "$2" "$3" 2>&1 |
        sed -n 's/^==[0-9]*== Collected : //p'
}
"$harness" --names "$2" | while IFS=$'\t' read -r row unit units library kind; do
    two=$(count "$library" 2 "$row" </dev/null)
    four=$(count "$library" 4 "$row" </dev/null)
    awk -v row="$row" -v unit="$unit" -v units="$units" -v library="$library" -v kind="$kind" \
        -v spent=$((four - two)) \
        'BEGIN { printf "%s\t%s\t%s\t%.6g\t%s\n", row, library, kind, spent / 2 / units, unit }'
done
