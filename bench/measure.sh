# Read by the other scripts here, with `program` (what ./vhost prove built), `work` (a folder that goes when
# the script ends), `repeated`, and `measured`.
here=$(CDPATH= cd -- "$(dirname -- "$0")/.." && pwd) || exit 1
program="$here/.vhost/vhost"
work=$(mktemp -d) && trap 'rm -rf "$work"' EXIT

# repeated N TEXT: TEXT, so many times, a line each; each % in it is the last binary digit of the line's number.
repeated() {
    awk -v n="$1" -v text="$2" 'BEGIN { for (i = 0; i < n; i++) { line = text; gsub(/%/, i % 2, line); print line } }'
}

# measured NAME COUNT WORD..: the seconds of `vhost run WORD..`, NAMEs a second, and, where valgrind is
# there, instructions for each. The transcript goes to $work/text.
measured() {
    name=$1 count=$2
    shift 2
    start=$(date +%s%N)
    "$program" run "$@" >"$work/text" || exit 1
    end=$(date +%s%N)
    echo "${name}s $count lines $(wc -l <"$work/text")"
    awk "BEGIN { s = ($end - $start) / 1e9; printf \"seconds %.3f ${name}s a second %d\\n\", s, $count / s }"
    if command -v valgrind >/dev/null; then
        valgrind --tool=callgrind --callgrind-out-file="$work/calls" "$program" run "$@" >/dev/null 2>"$work/valgrind"
        sed -n 's/.*Collected : //p' "$work/valgrind" | awk "{ printf \"instructions a $name %d\\n\", \$1 / $count }"
    fi
}
