#!/bin/sh
# Measures `vhost run` on a design of so many `initial` blocks of 20 statements each (1,000 if none are
# given): 8 delays, 8 assignments and 4 displays. Run it after ./vhost prove.
. "$(dirname -- "$0")/measure.sh"
blocks=${1:-1000}
{
    echo 'module top; reg a;'
    repeated "$blocks" 'initial begin #1 a = 1; #1 a = 0; #1 a = 1; #1 $display("tick"); #1 a = 0; #1 $display("tock"); #1 a = 1; #1 $display("tick"); a = 0; a = 1; a = 0; $display("tock"); end'
    echo 'endmodule'
} >"$work/blocks.v"
# Each block makes a pick and a label for each of its 20 statements, a pick after each of its 8
# delays, and one label for its end; time advances 8 times, and a finish and an end close the run.
measured label $((blocks * 30 + 10)) "$work/blocks.v"
if command -v iverilog >/dev/null; then
    iverilog -o "$work/blocks" "$work/blocks.v" || exit 1
    start=$(date +%s%N)
    vvp "$work/blocks" >"$work/icarus" || exit 1
    end=$(date +%s%N)
    awk "BEGIN { printf \"icarus seconds %.3f\\n\", ($end - $start) / 1e9 }"
fi
