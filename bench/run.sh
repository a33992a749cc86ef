#!/usr/bin/env bash
# Measures the program beside its peers and prints one table of all ratios at the end.
#
#   bench/run.sh              the program that rt builds
#   ZERO=PATH bench/run.sh    this program
#
# LIMIT is the longest run in processor seconds (20), TIMES the number of runs of which a median is
# taken (3). SEEDS is the number of games of a size, where missing that of each script; so
# LIMIT=5 TIMES=1 SEEDS=2 makes a short run. All games, sizes and seeds stand at the head of the
# scripts. The peers are Debian's glpk-utils, qsopt-ex and lrslib, and a plain trial that rustc
# builds; one that isn't there is left out. What is printed is kept in bench/out/. The exit status
# is 1 where an answer differs from a peer's, or the program ends with a status that isn't foreseen.
set -euo pipefail
[ -z "${ZERO:-}" ] || ZERO=$(realpath "$ZERO")
cd "$(dirname "$0")/.."
out=bench/out
mkdir -p "$out"
if [ -z "${ZERO:-}" ]; then
    (cd crates/zero && rt run >/dev/null 2>&1) || true
    ZERO=crates/zero/out/zero
fi
[ -x "$ZERO" ] || { echo "no program at $ZERO" >&2; exit 1; }
ratios="$out/ratios.jsonl"
rm -f "$ratios"
words=(--seconds "${LIMIT:-20}" --times "${TIMES:-3}" --ratios "$ratios")
[ -z "${SEEDS:-}" ] || words+=(--seeds "$SEEDS")

measured() {
    date -u '+%Y-%m-%d %H:%M UTC'
    echo "commit $(git rev-parse --short HEAD)"
    dpkg-query -W -f '${Package} ${Version}\n' glpk-utils qsopt-ex lrslib 2>/dev/null || true
    rustc --version 2>/dev/null || true
    failed=0
    for script in bimatrix best boxes comp growth; do
        echo
        echo "## $script"
        python3 "bench/$script/$script.py" "$ZERO" "${words[@]}" || failed=1
    done
    echo
    echo "## ratios"
    python3 bench/measure.py "$ratios"
    return "$failed"
}

measured | tee "$out/ratios.txt"
