#!/bin/sh
# Measures callbacks: so many on one register (1,000) that changes so many times (2,000), each of which
# returns at once; beside the same in Icarus Verilog with the application of bench/callbacks.c, where
# iverilog-vpi is there. A third number registers so many more at the end of the run. Run it after
# ./vhost prove.
. "$(dirname -- "$0")/measure.sh"
callbacks=${1:-1000}
changes=${2:-2000}
elsewhere=${3:-0}
{
    echo 'module top; reg r; initial begin'
    repeated "$changes" '#1 r = %;'
    echo 'end endmodule'
} >"$work/toggle.v"
{
    echo 'app watch; var r; startup { register cbEndOfCompile null 0 proc init 0; }'
    echo 'proc init { r = by_name "top.r" null;'
    repeated "$elsewhere" 'register cbEndOfSimulation null 0 proc seen 0;'
    repeated "$callbacks" 'register cbValueChange r 0 proc seen 0;'
    echo '} proc seen { }'
} >"$work/watch.app"
measured fire $((callbacks * changes)) "$work/toggle.v" "$work/watch.app"
if command -v iverilog-vpi >/dev/null; then
    cp "$here/bench/callbacks.c" "$work/" && cd "$work" || exit 1
    iverilog-vpi -DCALLBACKS="$callbacks" callbacks.c >build 2>&1 && iverilog -o toggle toggle.v || exit 1
    start=$(date +%s%N)
    vvp -M. -mcallbacks toggle >icarus 2>fires || exit 1
    end=$(date +%s%N)
    awk "BEGIN { printf \"icarus seconds %.3f %s\\n\", ($end - $start) / 1e9, \"$(cat icarus)\" }"
fi
