#!/bin/sh
# Measures what ./vhost adds to the program: the time of the processor, user and system, of so many calls (200) of each with no
# words, which both answer by the usage line. The least of five rounds is told. Run it after ./vhost prove.
. "$(dirname -- "$0")/measure.sh"
calls=${1:-200}

# taken CALL: milliseconds of the processor a call.
taken() {
    for _ in 1 2 3 4 5; do
        (
            left=$calls
            while [ "$left" -gt 0 ]; do
                "$1" >/dev/null 2>&1
                left=$((left - 1))
            done
            times
        ) | awk -v calls="$calls" '
            function seconds(text,  parts) { split(text, parts, "m"); return 60 * parts[1] + parts[2] }
            NR == 2 { printf "%.2f\n", (seconds($1) + seconds($2)) * 1000 / calls }'
    done | sort -n | head -n 1
}

"$here/vhost" >/dev/null 2>&1
launcher=$(taken "$here/vhost") alone=$(taken "$program")
awk "BEGIN { printf \"milliseconds a call %s program %s over it %.2f\\n\", \"$launcher\", \"$alone\", $launcher - $alone }"
