#!/bin/sh
# Builds the published source with each mutation of published/mutants.txt in turn and runs the comparison until the first difference.
#     mutants.sh [FIRST [LAST]]
# The last line says how many were caught, how many make no difference as their titles say, and how many were missed.
cd "$(dirname "$0")" || exit 1
export CARGO_TARGET_DIR="${CARGO_TARGET_DIR:-target}/mutants"
# the log of a build stands beside it
mkdir -p "$CARGO_TARGET_DIR" || exit 1
first=${1:-1}
last=${2:-$(grep -c '^== ' published/mutants.txt)}
caught=0 same=0 missed=0
n=$first
while [ "$n" -le "$last" ]; do
    title=$(grep "^== $n " published/mutants.txt)
    if ! ARGCOL_MUTANT=$n cargo build --offline -q -j1 2>"$CARGO_TARGET_DIR.log"; then
        echo "$title: does not build"
        missed=$((missed + 1))
    else
        case $title in *"(same: "*) steps=100000 ;; *) steps=400000 ;; esac
        status=0
        said=$("$CARGO_TARGET_DIR/debug/harness" mutant 1 $steps 2>&1) || status=$?
        # 1 is no difference; any other status is no answer
        case $status-$title in
        0-*) caught=$((caught + 1)) ;;
        1-*"(same: "*) same=$((same + 1)) ;;
        *) missed=$((missed + 1)) ;;
        esac
        echo "$title: $(echo "$said" | tail -1)"
    fi
    n=$((n + 1))
done
echo "$caught caught, $same make no difference, $missed missed"
[ "$missed" = 0 ]
