#!/bin/sh
# Counts instructions a label where so many processes (10,000) wait at as many different times: the k-th waits #k, then #N
# again and again, with an assignment behind each. The count is that of five waits more for each process, and what reading
# them takes is taken off: the same text with a `$finish` that comes first. Needs valgrind; run it after ./vhost prove.
. "$(dirname -- "$0")/measure.sh"
processes=${1:-10000}

# counted WAITS FIRST: the instructions of a run with so many further waits for each process, and these words first.
counted() {
    awk -v n="$processes" -v waits="$1" -v first="$2" 'BEGIN {
        print "module top; reg a; " first
        for (k = 1; k <= n; k++) {
            printf "initial begin #%d a = 1;", k
            for (i = 0; i < waits; i++) printf " #%d a = %d;", n, i % 2
            print " end"
        }
        print "endmodule"
    }' >"$work/times.v"
    valgrind --tool=callgrind --callgrind-out-file="$work/calls" "$program" run "$work/times.v" 2>&1 >/dev/null |
        sed -n 's/.*Collected : //p'
}

command -v valgrind >/dev/null || { echo "times.sh: valgrind isn't there" >&2; exit 1; }
more=$(counted 7 '') less=$(counted 2 '') read_more=$(counted 7 'initial $finish;') read_less=$(counted 2 'initial $finish;')
echo "instructions a label $(((more - less - read_more + read_less) / (processes * 20)))"
