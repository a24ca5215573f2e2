#!/bin/sh
# Counts instructions of single crates with the programs of bench/crates, and prints the tables of docs/PERFORMANCE.md that they
# make; give names of programs, or none for all. A program is proved and built over libraries that `rt ci` makes in a copy of the
# crates that it stands on, where what this machine has proved of the same sources isn't proved again, or over those in crates/*/out
# of the tree that VHOST_LIBRARIES names. LEX_BYTES gives the texts of `lex` another length. Needs rt and valgrind.
. "$(dirname -- "$0")/measure.sh"
libraries=$VHOST_LIBRARIES
bytes=${LEX_BYTES:-4194304}
kit=$(dirname -- "$(rt doc)") && command -v valgrind >/dev/null || { echo "crates.sh: rt or valgrind isn't there" >&2; exit 1; }

# below NAME..: these crates of the repository and those that they stand on.
below() {
    awk -F: -v names="$*" '
        /^[a-z]/ { needs[$1] = $2 }
        function visit(name,  parts, n, i) {
            if (!(name in needs) || (name in seen)) return
            seen[name] = 1
            n = split(needs[name], parts, " ")
            for (i = 1; i <= n; i++) visit(parts[i])
            print name
        }
        END { n = split(names, all, " "); for (k = 1; k <= n; k++) visit(all[k]) }' "$here/crates.txt"
}

# uses_of NAME: the crates of the repository that a program of bench/crates names.
uses_of() { sed -n 's,^// uses: ,,p' "$here/bench/crates/$1.rt.txt"; }

# make_libraries NAME..: the libraries of these programs, in a copy that is the top of a repository of its own.
make_libraries() {
    libraries=$work/libraries
    mkdir -p "$libraries/.git" "$libraries/crates" && cp "$here/HANDLES" "$libraries" || return 1
    for crate in $(below $(for name; do uses_of "$name"; done)); do
        grep "^${crate}[ :]" "$here/crates.txt" >>"$libraries/crates.txt" && mkdir "$libraries/crates/$crate" || return 1
        for part in src specs proofs; do
            [ ! -d "$here/crates/$crate/$part" ] || cp -R "$here/crates/$crate/$part" "$libraries/crates/$crate" || return 1
        done
    done
    echo "crates.sh: proving $(wc -l <"$libraries/crates.txt") crates, but for those that are kept" >&2
    (cd "$libraries" && exec rt ci) >"$work/log" 2>&1 </dev/null || { tail -n 20 "$work/log" >&2; return 1; }
}

# built NAME: proves and builds a program of bench/crates as $work/NAME/program.
built() {
    uses=$(uses_of "$1")
    mkdir -p "$work/$1/src" && cp "$here/bench/crates/$1.rt.txt" "$work/$1/src/main.rt" || return 1
    set -- "$1" --crate-name "bench_$1" src/main.rt --extern "std=$kit/rlibs/std.rlib" -L "dependency=$kit/rlibs"
    for crate in $(below $uses); do
        library=$libraries/crates/$crate/out/rlib
        [ -d "$library/$crate.rlib" ] || {
            echo "crates.sh: no $1, since $crate isn't built in $libraries" >&2
            return 1
        }
        set -- "$@" -L "dependency=$library"
        case " $uses " in *" $crate "*) set -- "$@" --extern "$crate=$library/$crate.rlib" ;; esac
    done
    made=$1
    shift
    (
        cd "$work/$made" && "$kit/bin/rattle" build "$@" --antt-project "$kit/rattle/logic/antt-project.json" \
            --logic-built "$kit/logic_built" --jobs 2 --links "bench_$made=" --toolchain "$kit/toolchain" --backend llvm \
            -o program.o && "$kit/bin/rattle-link" --target x86_64-unknown-linux-gnu --toolchain "$kit/toolchain" -o program \
            program.o "$kit/c/libos_c.a" "$kit/c/liblibc_c.a"
    ) >"$work/$made/log" 2>&1 || { tail -n 20 "$work/$made/log" >&2; return 1; }
}

# counted NAME WORD..: the instructions of a run of a program that was built.
counted() {
    made=$1
    shift
    valgrind --tool=callgrind --callgrind-out-file="$work/counts" "$work/$made/program" "$@" 2>&1 >"$work/said" |
        sed -n 's/.*Collected : //p' | grep . || { echo "crates.sh: $made gave no count" >&2; return 1; }
}

# lex_row NAME TEXT: a row for this text, again and again up to so many bytes, with what is left over in `;`.
lex_row() {
    awk -v text="$2" -v left="$bytes" 'BEGIN {
        for (; left >= length(text); left -= length(text)) printf "%s", text
        while (left-- > 0) printf ";"
    }' >"$work/text.v"
    lex_told "$1"
}
lex_told() {
    instructions=$(counted lex "$work/text.v") || return 1
    least=$(
        for _ in 1 2 3 4 5 6 7; do
            start=$(date +%s%N)
            "$work/lex/program" "$work/text.v" >/dev/null
            echo $(($(date +%s%N) - start))
        done | sort -n | head -n 1
    )
    printf '| %s | %s | %s | %s |\n' "$1" "$(cut -d' ' -f1 "$work/said")" \
        "$(awk "BEGIN { printf \"%.2f\", $least / 1e9 }")" "$((instructions / bytes))"
}

measure_lex() {
    echo '| Text | Tokens | Seconds | Instructions a byte |'
    echo '|---|---|---|---|'
    lex_row '`;` throughout' ';'
    lex_row '`a;` throughout' 'a;'
    lex_row 'lines of an `always` block with a comment' \
        "always @(posedge clk) if (rst) q <= 8'd0; else q <= q + 8'd1; // one more
"
    awk -v bytes="$bytes" 'BEGIN {
        printf "`define m"
        for (left = bytes - 13; left > 1; left -= 2) printf " x"
        printf "\n`m\n"
    }' >"$work/text.v"
    lex_told 'one macro of this length, `x x x ..`, used once'
    lex_row blanks ' '
    awk -v bytes="$bytes" 'BEGIN { printf "/*"; for (i = 4; i < bytes; i++) printf "x"; printf "*/" }' >"$work/text.v"
    lex_told 'one comment'
}

# Of so many entries: adding one, and a turn, as the differences of two runs.
measure_queue() {
    echo '| Entries | `add` alone | A turn | For a label |'
    echo '|---|---|---|---|'
    none=$(counted queue 0 0)
    for entries in 1000 10000 1000000; do
        still=$(counted queue "$entries" 0) turned=$(counted queue "$entries" 20000)
        echo "| $entries | $(((still - none) / entries)) | $(((turned - still) / 20000)) | $(((turned - still) / 30000)) |"
    done
}

# Of so many values: each call with the loop around it, as the difference of runs of one phase more.
measure_slots() {
    echo '| `vh_slots` | 1,000 values | 100,000 values |'
    echo '|---|---|---|'
    phase=0 few_before=$(counted slots 1000 0) many_before=$(counted slots 100000 0)
    for call in '`give`, a new slot' '`get`' '`take`' '`give`, a slot used again'; do
        phase=$((phase + 1)) few=$(counted slots 1000 "$phase") many=$(counted slots 100000 "$phase")
        echo "| $call | $(((few - few_before) / 1000)) | $(((many - many_before) / 100000)) |"
        few_before=$few many_before=$many
    done
}

# Of each operator the difference to a run of the same loop that calls none.
measure_logic() {
    echo '| Operator | Instructions |'
    echo '|---|---|'
    none=$(counted logic 0 2000) operator=0
    for name_of in and or xor xnor merge add sub mul div rem invert negate pow shl shr sshr concat select replace resize \
        reduce_and reduce_or reduce_xor truth equal case_equal casez_equal casex_equal less; do
        operator=$((operator + 1))
        echo "| \`$name_of\` | $((($(counted logic "$operator" 2000) - none) / 2000)) |"
    done
}

[ $# -gt 0 ] || set -- lex queue logic slots
[ -n "$libraries" ] || make_libraries "$@" || exit 1
status=0
for name; do
    { built "$name" && "measure_$name"; } || status=1
    echo
done
exit "$status"
