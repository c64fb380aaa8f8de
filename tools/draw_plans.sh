#!/bin/sh
# Draws the plans that docs/PLANS.md shows, on five and on eight ranks that each draw one point of a tile of 16 pixels.
#
#   tools/draw_plans.sh            with ./icet
#   ICET=/path/to/icet tools/draw_plans.sh
set -eu
cd "$(dirname "$0")/.."
icet=${ICET:-./icet}
pictures=docs/plans
mkdir -p "$pictures"

scene() {
    printf 'icet-scene 1\nmode depth\nranks %d\ntile 0 0 16 1 0\n' "$1"
    rank=0
    while [ "$rank" -lt "$1" ]; do
        printf 'point %d %d 0 5 200 200 200 255\n' "$rank" "$rank"
        rank=$((rank + 1))
    done
    printf 'end\n'
}

# name, ranks, and the words
draw() {
    name=$1 ranks=$2
    shift 2
    scene "$ranks" | $icet plan "$@" | tools/draw_plan.py > "$pictures/$name.svg"
}

draw direct-5 5 --strategy direct
draw tree-5 5 --strategy sequential --single tree
draw bswap-5 5 --strategy sequential --single bswap
draw bswap-8 8 --strategy sequential --single bswap
draw radixk-8 8 --strategy sequential --single radixk --k 4
