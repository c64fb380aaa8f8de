#!/bin/sh
# Times nets alone, without plans and drawing: over each kind of wires, by 1, 2 and 4 workers; and the merge of two images
# by their runs and pixel by pixel. It proves and builds the program first. docs/PERFORMANCE.md says what a run printed.
#
#   bench/net.sh
set -eu
cd "$(dirname "$0")/../crates/icet_net_bench"
for work in small large merge; do
    echo "$work"
    rt run -- "$work" 2>/dev/null
done
