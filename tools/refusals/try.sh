#!/bin/sh
# Runs the trial of refused memory once for each growth that it asks for, which is refused then: as many runs at once as there are processors. Each
# has to print what it prints with ample memory, within a minute. How its threads take turns changes the number of growths a little from run to run.
# It needs a C compiler: CC, or cc.
#
#   tools/refusals/try.sh [PROGRAM]
cd "$(dirname "$0")/../.." || exit 111
program=${1:-$PWD/crates/refusal_trial/out/refusal_trial}
case $program in /*) ;; *) program=$PWD/$program ;; esac
compiler=${CC:-cc}
command -v "${compiler%% *}" >/dev/null || { echo "refusals: no C compiler $compiler: set CC"; exit 1; }
folder=$(mktemp -d) || exit 111
running=
trap 'kill $running 2>/dev/null; rm -rf "$folder"' EXIT
trap 'exit 130' INT
trap 'exit 143' TERM
$compiler -O1 -shared -fPIC -o "$folder/refuse.so" tools/refusals/refuse.c -ldl || exit 111

# run NUMBER LANE: runs it with the growth of this number refused; with 0, none. One that waits for what was lost is ended after a minute.
run() {
    timeout 60 env LD_PRELOAD="$folder/refuse.so" REFUSE="$1" REFUSE_COUNT="$folder/$2.count" "$program" >"$folder/$2.said"
}

# try_each LANE: tells of each growth of this lane whose refusal has another end.
try_each() {
    number=$1
    while [ "$number" -le "$growths" ]; do
        run "$number" "$1" && cmp -s "$folder/$1.said" "$folder/wanted" || echo "refusals: growth $number of $growths: another end"
        number=$((number + lanes))
    done
}

run 0 first && mv "$folder/first.said" "$folder/wanted" || { echo "refusals: the trial failed with ample memory"; exit 1; }
growths=$(cat "$folder/first.count" 2>/dev/null)
[ "${growths:-0}" -gt 0 ] || { echo "refusals: no growth was counted"; exit 1; }
lanes=$(nproc)
for lane in $(seq "$lanes"); do
    try_each "$lane" >"$folder/$lane.wrong" 2>"$folder/$lane.errors" &
    running="$running $!"
done
wait
running=
cat "$folder"/*.wrong
wrong=$(cat "$folder"/*.wrong | wc -l)
echo "refusals: $growths growths refused, $wrong of them with another end"
[ "$wrong" = 0 ]
