#!/bin/sh
# Tries ./vhost with a stand-in for `rt`, which writes a log as rt does and a program that says its words.
# Prints a line for each thing that isn't as it should be, and at the end how many things were tried.
here=$(CDPATH= cd -- "$(dirname -- "$0")/.." && pwd) || exit 1
work=$(mktemp -d) && trap 'rm -rf "$work"' EXIT
tried=0 failed=0
holds() {
    tried=$((tried + 1))
    "$@" || { failed=$((failed + 1)) && echo "not so: $*"; }
}

# A repository with the launcher, two crates and one beside, and a stand-in on PATH that notes its calls. What it has proved it
# keeps beside its kit, as rt does, and the program that it builds or tries says its words.
fresh_repository() {
    rm -rf "$work/top" "$work/rattle-kept" "$work/cache"
    mkdir -p "$work/top/crates/vh_sim/src" "$work/top/crates/vh_sim/data" "$work/top/crates/vh_low/src" "$work/bin" "$work/kit"
    mkdir -p "$work/top/crates/vh_low/specs" "$work/top/crates/vh_low/must-fail" "$work/top/crates/vh_beside/src" "$work/top/.git"
    mkdir -p "$work/top/docs" "$work/top/bench" "$work/top/.ci" && cp "$here/docs/FAULTS.md" "$here/docs/LANGUAGE.md" "$work/top/docs/"
    cp "$here/vhost" "$work/top/" && cp "$here/.ci/run" "$work/top/.ci/" && cd "$work/top" || exit 1
    printf '# a comment\nvh_sim: vh_low std\nvh_beside: vh_low\nvh_low:\n' >crates.txt
    printf '# a comment\nvh_low 6000\nvh_sim 600\nvh_beside 99999\n' >bench/seconds.txt
    echo 'Handles allowed: none.' >HANDLES
    for page in pages counts drawn examples faults; do echo "import os, sys; sys.exit('$page' in os.environ.get('STALE', ''))" >"bench/$page.py"; done
    echo 'pub mod Words' >crates/vh_low/specs/Lib.antt
    echo 'old: low' >crates/vh_low/must-fail/low.edit
    echo 'fn beside() {}' >crates/vh_beside/src/lib.rt
    echo 'fn main() {}' >crates/vh_sim/src/main.rt
    echo run >crates/vh_sim/args
    echo 'fn low() {}' >crates/vh_low/src/lib.rt
    echo 'module top; endmodule' >a.v
    cat >"$work/bin/rt" <<'STAND_IN'
#!/bin/sh
program() {
    cat <<'PROGRAM'
#!/bin/sh
[ -z "$SLEEPS" ] || { echo "$$" >"$SLEEPS" && exec sleep 60; }
echo "${RAN:-ran} $*"
[ -z "$TELLS" ] || echo "$TELLS" >&2
exit "${ENDS:-7}"
PROGRAM
}
prove_all() {
    [ -f crates.txt ] && [ -d .git ] || { echo "rt: no repository" && exit 2; }
    find . -type f | LC_ALL=C sort >"$BUILDS.files"
    for name in $(sed -n 's/^\(vh_[a-z]*\):.*/\1/p' crates.txt | LC_ALL=C sort); do
        sum=$name.$(cat HANDLES $(find crates/$name/src crates/$name/specs -type f 2>/dev/null | LC_ALL=C sort) | cksum | cut -d' ' -f1)
        rm -rf "crates/$name/out"
        [ ! -f "$KEPT/$sum" ] || { echo "rt: $name is kept: an earlier run on this machine proved the same" && continue; }
        mkdir "crates/$name/out" && echo "$name" >>"$BUILDS"
        sleep "${SLOW:-0}"
        if [ "$BROKEN" = "$name" ] || { [ "$KILLED" = "$name" ] && [ "$RT_JOBS" != 1 ]; }; then
            [ -z "$KILLED" ] || echo "rt: the check was killed, most likely for memory: once more"
            printf 'rt: %s NOT PROVED\nrt: FAILED: %s\n0 passed, 1 failed\n' "$name" "$name"
            exit 1
        fi
        printf '== %s\nlogic=proved functions=2\nrt: %s proved\n' "$name" "$name"
        [ "$name" = vh_sim ] || { mkdir -p "$KEPT" && : >"$KEPT/$sum"; } 2>/dev/null
    done
    program >crates/vh_sim/out/vh_sim && chmod +x crates/vh_sim/out/vh_sim
    echo 'rt: ok'
    echo '2 passed, 0 failed'
}
try() {
    room=$(mktemp -d "$BUILDS.XXXXXX")
    [ -z "$SLEEPS" ] || { echo "$$" >"$SLEEPS" && exec sleep 60; }
    while [ "$1" != -- ]; do
        [ "$1" != --data ] || cp "${2#*=}" "$room/${2%%=*}"
        shift 2
    done
    shift
    program >"$room/program" && cd "$room" && echo "rt: a hint" >&2
    [ -z "$REFUSES" ] || { printf '%s\nrun=none proved=no\n' "$REFUSES" >&2 && exit 2; }
    if [ -n "$WRITES_MUCH" ]; then
        printf "the end of the program's standard output:\n| more\n" >&2
        echo "checked: no-answer: the program wrote more than 1048576 bytes to standard output or to standard error, the limit on each" >&2
        echo "run=no-answer proved=no" >&2
        exit 6
    fi
    sh ./program "$@"
    status=$?
    for file in [1-8].v [1-8].app; do [ ! -f "$file" ] || cat "$file"; done
    printf 'interpreter: no-answer: steps\nchecked: ended status=%s\nrun=ended status=%s runners=1 proved=no\n' "$status" "$status" >&2
    rm -rf "$room"
    exit "$status"
}
[ "$1" = doc ] || echo "$1 ${PWD##*/}" | sed 's/^ci.*/ci/' >>"$BUILDS"
case $1 in
    doc) echo "${KEPT%/*}/kit/START-HERE.md" ;;
    ci) prove_all ;;
    try) shift && try "$@" ;;
    *) exit 2 ;;
esac
STAND_IN
    printf '#!/bin/sh\necho look >>"$LOOKS"\nexec %s "$@"\n' "$(PATH=$bare command -v cksum)" >"$work/bin/cksum"
    chmod +x "$work/bin/rt" "$work/bin/cksum"
    : >"$BUILDS"
    : >"$LOOKS"
}
BUILDS=$work/builds
LOOKS=$work/looks
KEPT=$work/rattle-kept
XDG_CACHE_HOME=$work/cache
export BUILDS LOOKS KEPT XDG_CACHE_HOME
full=$work/bin:$PATH
bare=$PATH
[ -z "$(command -v rt)" ] || bare=$(printf '%s' "$PATH" | tr ':' '\n' | while read -r folder; do [ -x "$folder/rt" ] || printf '%s:' "$folder"; done)
builds() { grep -c '^ci$' "$BUILDS"; }
tries() { grep -c '^try vh_sim$' "$BUILDS"; }
looks() { wc -l <"$LOOKS" | tr -d ' '; }
run() {
    PATH=$1
    export PATH
    shift
    "$@" >"$work/out" 2>"$work/err"
    status=$?
    PATH=$full
}
PATH=$full
export PATH
unproved='^vhost: there is no proved program of these sources; the unproved one answers, in about four minutes; ./vhost prove makes the proved one, in about 110 minutes$'

# where no proved program is, the unproved one answers, and a line says so before
fresh_repository
tried_so() {
    run "$full" ./vhost "$@"
    holds [ "$status" = "${ENDS:-7}" ]
    holds [ "$(head -n 1 "$work/err" | grep -c "$unproved")" = 1 ]
    holds [ "$(sed 1d "$work/err")" = "$TELLS" ]
}
tried_so run a.v
holds [ "$(cat "$work/out")" = "ran run 1.v
module top; endmodule" ]
holds [ "$(cat "$BUILDS")" = "try vh_sim" ]
holds [ ! -e .vhost ]
# files elsewhere, names with blanks and worse, options, and the words that the program says
mkdir -p "$work/odd at 1:1" && echo 'app b; startup { print "on" }' >"$work/odd at 1:1/b: A9 at 2:2.app"
cp a.v "$work/odd at 1:1/-n \$(x)=*.v" && cp a.v "$work/odd at 1:1/.v"
TELLS='application refused: 2.app: A2 at 1:29' ENDS=3
export TELLS ENDS
for names in "../odd at 1:1/" "$work/odd at 1:1/"; do
    run "$full" ./vhost --order lifo run "$names-n \$(x)=*.v" --budget=5 "${names}b: A9 at 2:2.app" -- "$names.v"
    holds [ "$status" = 3 ]
    holds [ "$(cat "$work/out")" = "ran --order lifo run 1.v --budget=5 2.app -- 3.v
module top; endmodule
module top; endmodule
app b; startup { print \"on\" }" ]
    holds [ "$(sed 1d "$work/err")" = "application refused: ${names}b: A9 at 2:2.app: A2 at 1:29" ]
done
cd "$work/odd at 1:1" && TELLS='' && run "$full" ../top/vhost run .v && cd "$work/top" || exit 1
holds [ "$(head -n 1 "$work/out")" = "ran run 1.v" ]
TELLS='design refused: N2 at 1:3:7' ENDS=2
tried_so run a.v
unset TELLS ENDS
# what can't be read is told at once, as the program would
: >"$BUILDS"
mkdir folder.v
head -c 4194305 /dev/zero >long.v && head -c 1048577 /dev/zero >long.app && head -c 1048576 /dev/zero >short.app
ln -s itself.v itself.v && ln -s nowhere.v lost.v
for call in 'gone.v:cannot read gone.v' 'a.v folder.v:cannot read folder.v' 'long.v gone.v:too long: long.v' 'a.v long.app:too long: long.app' \
    'a.v itself.v:cannot read itself.v' 'a.v lost.v:cannot read lost.v' 'a.v gone/b.app:cannot read gone/b.app'; do
    run "$full" ./vhost run ${call%%:*}
    holds [ "$status" = 6 ]
    holds [ "$(cat "$work/err")" = "${call#*:}" ]
done
holds [ ! -s "$BUILDS" ]
run "$full" ./vhost run a.v short.app
holds [ "$status" = 7 ]
# standard output that takes nothing
if [ -c /dev/full ]; then
    run "$full" sh -c './vhost run a.v >/dev/full'
    holds [ "$status" = 7 ]
    holds [ "$(sed 1d "$work/err")" = "cannot write" ]
fi
# more output than rt try tells, and sources that it refuses
WRITES_MUCH=yes
export WRITES_MUCH
run "$full" ./vhost run a.v
holds [ "$status" = 125 ]
holds [ ! -s "$work/out" ]
holds grep -q '^vhost: no answer: the unproved program writes 1 MiB at most, and this run writes more; --budget N makes it shorter, and ./vhost prove makes the proved one' "$work/err"
holds [ "$(wc -l <"$work/err" | tr -d ' ')" = 2 ]
unset WRITES_MUCH
REFUSES='error[E1]: no such name'
export REFUSES
run "$full" ./vhost run a.v
holds [ "$status" = 125 ]
holds grep -q '^error\[E1\]: no such name$' "$work/err"
holds grep -q '^vhost: no answer: rt try ended with status 2, and said what stands above; ./vhost prove' "$work/err"
unset REFUSES
# where only the proved program is asked for, it never answers
: >"$BUILDS"
VHOST_PROVED=1
export VHOST_PROVED
run "$full" ./vhost run a.v
holds [ "$status" = 125 ]
holds grep -q '^vhost: there is no proved program of these sources, and VHOST_PROVED asks for it; ./vhost prove makes the proved one, in about 110 minutes$' "$work/err"
holds [ ! -s "$BUILDS" ]
unset VHOST_PROVED
run "$bare" ./vhost run a.v
holds [ "$status" = 125 ]
holds grep -q "isn't on PATH" "$work/err"
run "$bare" ./vhost prove
holds [ "$status" = 125 ]
holds grep -q "isn't on PATH" "$work/err"
run "$full" ./vhost prove a.v
holds [ "$status" = 1 ]
holds [ "$(cat "$work/err")" = "usage: vhost prove" ]

# ./vhost prove proves the program in a copy of what it stands on, which goes when it has been taken
: >"$BUILDS"
SLOW=2
export SLOW
run "$full" ./vhost prove
unset SLOW
holds [ "$status" = 0 ]
holds [ ! -s "$work/out" ]
holds [ "$(cat "$BUILDS")" = "ci
vh_low
vh_sim" ]
holds [ "$(cat "$BUILDS.files")" = "./HANDLES
./crates.txt
./crates/vh_low/specs/Lib.antt
./crates/vh_low/src/lib.rt
./crates/vh_sim/args
./crates/vh_sim/src/main.rt" ]
holds [ -z "$(ls "$work/cache/vhost")" ]
holds grep -q "^vhost: proving the program: 2 crates, about 110 minutes; what is proved stays so, where this is interrupted$" "$work/err"
holds grep -q "^vhost: 0 of 2 crates proved, at work on vh_low, about [0-9]* minutes left$" "$work/err"
holds grep -q "^vhost: 1 of 2 crates proved, at work on vh_sim, about [0-9]* minutes left$" "$work/err"
holds grep -q "^vhost: the program is proved, and ./vhost runs it from now on$" "$work/err"
holds grep -q "^vh_low [0-3]$" .vhost/seconds
for there in "$full" "$bare"; do
    run "$there" ./vhost prove
    holds [ "$status" = 0 ]
    holds [ "$(cat "$work/err")" = "vhost: the proved program of these sources is here" ]
    holds [ "$(builds)" = 1 ]
done

# a call that is up to date reads no source, says nothing, and passes the status on; so it does where rt isn't on PATH
up_to_date() {
    : >"$LOOKS"
    run "$1" ./vhost run a.v
    holds [ "$status" = 7 ]
    holds [ "$(cat "$work/out")" = "ran run a.v" ]
    holds [ ! -s "$work/err" ]
    holds [ "$(looks)" = 0 ]
}
up_to_date "$full"
up_to_date "$bare"
VHOST_PROVED=1
export VHOST_PROVED
up_to_date "$full"
unset VHOST_PROVED
holds [ "$(builds)" = 1 ]

# by a link, and by a link to a link, and from other folders
mkdir -p "$work/links" && ln -sf "$work/top/vhost" "$work/links/one" && ln -sf one "$work/links/two"
cp a.v "$work/links/"
for call in "$work/links ./two" "$work/top/crates ../vhost" "$work ../$(basename "$work")/top/vhost" "$work top/vhost" "/ $work/links/one"; do
    cd "${call%% *}" && CDPATH=$work && export CDPATH && run "$full" "${call#* }" run a.v
    unset CDPATH
    holds [ "$(cat "$work/out")" = "ran run a.v" ]
done
holds [ "$(builds)" = 1 ]
holds [ "$(looks)" = 0 ]
cd "$work/top" || exit 1

# a source with another time and the same bytes needs no build, and is looked at once
sleep 0.1
touch crates/vh_low/src/lib.rt
run "$full" ./vhost run a.v
holds [ "$(builds)" = 1 ]
holds [ "$(looks)" -gt 0 ]
up_to_date "$full"

# what changes the sources needs a proof: a file of any crate that has other bytes, that is new or gone, also with its folder
seen() {
    sleep 0.1
    eval "$1"
    run "$bare" ./vhost run a.v
    holds [ "$1: $status" = "$1: 125" ]
    holds grep -q "isn't on PATH" "$work/err"
    before=$(builds) before_tries=$(tries)
    run "$full" ./vhost run a.v
    holds [ "$status" = 7 ]
    holds grep -q "$unproved" "$work/err"
    holds [ "$1: $(builds) $(tries)" = "$1: $before $((before_tries + 1))" ]
    run "$full" ./vhost prove
    holds [ "$1: $status $(builds)" = "$1: 0 $((before + 1))" ]
    up_to_date "$full"
    up_to_date "$bare"
    holds [ "$1: $(builds)" = "$1: $((before + 1))" ]
}
for change in 'echo "fn other() {}" >>crates/vh_low/src/lib.rt' 'echo "fn other() {}" >>crates/vh_beside/src/lib.rt' \
    'echo "-- other" >>crates/vh_low/specs/Lib.antt' 'echo "// more" >>crates/vh_sim/src/main.rt' \
    'echo "fn more() {}" >crates/vh_low/src/more.rt' 'rm crates/vh_low/src/more.rt' \
    'mkdir crates/vh_low/src/deep && echo "fn deep() {}" >crates/vh_low/src/deep/more.rt' \
    'echo "fn deeper() {}" >>crates/vh_low/src/deep/more.rt' 'rm -r crates/vh_low/src/deep' \
    'mkdir crates/vh_sim/specs && echo "-- new" >crates/vh_sim/specs/Lib.antt' 'rm -r crates/vh_sim/specs' \
    'mkdir -p crates/vh_new/src && echo "fn new() {}" >crates/vh_new/src/lib.rt' 'rm -r crates/vh_new' \
    'echo "fn odd() {}" >"crates/vh_low/src/an odd name.rt"' 'rm "crates/vh_low/src/an odd name.rt"' \
    'echo "# more" >>crates.txt' 'echo "Handles allowed: Wait." >HANDLES' 'rm HANDLES' 'echo "Handles allowed: none." >HANDLES' \
    'rm .vhost/vhost'; do
    seen "$change"
done

# so it is where `find` is an older one
mkdir -p "$work/older"
printf '#!/bin/sh\ncase " $* " in *" -files0-from "*) exit 1 ;; esac\nexec %s "$@"\n' "$(command -v find)" >"$work/older/find"
chmod +x "$work/older/find"
newer_full=$full newer_bare=$bare full=$work/older:$full bare=$work/older:$bare
PATH=$full
up_to_date "$full"
for change in 'echo "fn again() {}" >>crates/vh_beside/src/lib.rt' 'echo "fn more() {}" >crates/vh_low/src/more.rt' \
    'rm crates/vh_low/src/more.rt' 'mkdir crates/vh_sim/specs && echo "-- new" >crates/vh_sim/specs/Lib.antt' \
    'rm -r crates/vh_sim/specs' 'rm HANDLES'; do
    seen "$change"
done
full=$newer_full bare=$newer_bare
PATH=$full

# a toolchain that is younger is looked at, and what a program was built with before there was a list of what is looked at
sleep 0.1
touch "$work/bin/rt"
: >"$LOOKS"
run "$full" ./vhost run a.v
holds [ "$(looks)" -gt 0 ]
up_to_date "$full"
rm .vhost/watched
run "$bare" ./vhost run a.v
holds [ "$status" = 7 ]
up_to_date "$bare"

# a build that fails says so, and where; the next goes on where it stood
: >"$BUILDS"
BROKEN=vh_low
export BROKEN
sleep 0.1
echo 'fn third() {}' >>crates/vh_low/src/lib.rt
run "$full" ./vhost prove
holds [ "$status" = 125 ]
holds grep -q "^vhost: the build failed at vh_low; what it said is in .*/.vhost/log\$" "$work/err"
holds [ "$(cat "$BUILDS")" = "ci
vh_low" ]
BROKEN=vh_sim
run "$full" ./vhost prove
holds [ "$status" = 125 ]
holds grep -q "^vhost: the build failed at vh_sim" "$work/err"
holds [ -z "$(ls "$work/cache/vhost")" ]
unset BROKEN
: >"$BUILDS"
run "$full" ./vhost prove
holds [ "$status" = 0 ]
holds [ "$(cat "$BUILDS")" = "ci
vh_sim" ]
up_to_date "$full"
# one that was too much for the memory is tried once more, a crate at a time
rm -r .vhost/vhost "$KEPT"
KILLED=vh_low
export KILLED
: >"$BUILDS"
run "$full" ./vhost prove
unset KILLED
holds [ "$status" = 0 ]
holds grep -q "^vhost: a check was killed, most likely for memory: once more, a crate at a time$" "$work/err"
holds [ "$(builds)" = 2 ]
rm .vhost/vhost crates.txt
run "$full" ./vhost prove
holds [ "$status" = 125 ]
holds grep -q "crates.txt" "$work/err"

# with_stand_in NAME TEXT: a command of this name before the real one, which is $real.
with_stand_in() {
    mkdir -p "$work/machine" && printf '#!/bin/sh\nreal=%s\n%s\n' "$(PATH=$bare command -v "$1")" "$2" >"$work/machine/$1"
    chmod +x "$work/machine/$1"
}
# proved_on_machine: a build where the commands of $work/machine speak of the machine, which then are gone.
proved_on_machine() {
    fresh_repository
    run "$work/machine:$full" ./vhost prove
    rm -rf "$work/machine"
}
# a small disk: a build isn't begun, but where there is room among temporary files
with_stand_in df 'printf "Filesystem 1024-blocks Used Available\nx 9 9 4096000\n"'
proved_on_machine
holds [ "$status" = 125 ]
holds grep -q "^vhost: a build wants [0-9]* MB of disk; .*/cache/vhost has 4000 MB; .* has 4000 MB$" "$work/err"
holds [ "$(builds)" = 0 ]
with_stand_in df 'case $* in */cache/*) printf "head\nx 9 9 4096000\n" ;; *) printf "head\nx 9 9 40960000\n" ;; esac'
proved_on_machine
holds [ "$status" = 0 ]
holds [ "$(wc -l <"$work/err" | tr -d ' ')" = "$(grep -c 'proving the program\|crates proved\|is proved' "$work/err")" ]
with_stand_in df 'case $2 in */cache/*) printf "head\nx 9 9 40960000\n" ;; *) printf "head\nx 9 9 4096000\n" ;; esac'
proved_on_machine
holds [ "$status" = 0 ]
holds grep -q "^vhost: $work has 4000 MB of disk left, and rt keeps what is proved where 5000 are" "$work/err"
# little memory
with_stand_in sed 'case $* in */proc/meminfo) echo 6144000 ;; *) exec "$real" "$@" ;; esac'
proved_on_machine
holds [ "$status" = 0 ]
holds grep -q "^vhost: 6000 MB of memory are free, and 8000 are wanted: fewer crates stand side by side, so it takes longer$" "$work/err"
# nothing can be kept beside the kit
fresh_repository
: >"$KEPT"
run "$full" ./vhost prove
holds [ "$status" = 0 ]
holds grep -q "^vhost: .*/rattle-kept can't be written: nothing of what is proved is kept" "$work/err"
up_to_date "$full"
rm "$KEPT"
# nothing can be put beside the sources
fresh_repository
: >.vhost
run "$full" ./vhost prove
holds [ "$status" = 125 ]
holds grep -q "^vhost: ./.vhost, where the program is to stand, can't be written$" "$work/err"
rm .vhost
tried_so run a.v

# the gate's program is taken where it passed, and no source was touched meanwhile
fresh_repository
run "$full" .ci/run
holds [ "$status" = 0 ]
holds [ "$(cat "$BUILDS")" = "ci
vh_beside
vh_low
vh_sim" ]
up_to_date "$bare"
holds [ "$(cat crates/vh_low/must-fail/low.edit)" = "old: low" ]
sleep 0.1
echo 'fn other() {}' >>crates/vh_low/src/lib.rt
tried_so run a.v
BROKEN=vh_sim
export BROKEN
run "$full" .ci/run
unset BROKEN
holds [ "$status" = 1 ]
tried_so run a.v
# nor is the gate passed where a page isn't so
for STALE in pages counts drawn examples faults; do
    export STALE
    run "$full" .ci/run
    holds [ "$status" = 1 ]
done
unset STALE
# gate_with COMMAND: a gate in the midst of which this is done.
gate_with() {
    SLOW=1
    export SLOW
    : >"$BUILDS"
    .ci/run >/dev/null 2>&1 &
    gate=$!
    while ! grep -q '^vh_' "$BUILDS"; do sleep 0.1; done
    eval "$1"
    wait "$gate"
    gate_status=$?
    unset SLOW
}
gate_with 'echo "fn more() {}" >>crates/vh_low/src/lib.rt'
holds [ "$gate_status" = 0 ]
tried_so run a.v
cp -p crates/vh_low/src/lib.rt "$work/before.rt"
gate_with 'echo "fn else() {}" >>crates/vh_low/src/lib.rt && cp -p "$work/before.rt" crates/vh_low/src/lib.rt'
holds [ "$gate_status" = 0 ]
tried_so run a.v
run "$full" .ci/run
up_to_date "$full"

# words that have no reading
fresh_repository
for words in '' 'run' 'walk a.v' 'run a.app' 'run a.txt' 'run 1.v 2.v 3.v 4.v 5.v 6.v 7.v 8.v 9.v' 'run a.app b.app' 'run -a.v' 'run a.v -b.app' \
    'run --order fifo --order=lifo a.v' 'run a.v --order' 'run --budget 0 a.v' 'run -- --order fifo a.v' 'run --order=random a.v' 'run - a.v' \
    'run --budget 1e6 a.v' 'run --budget=01 a.v' 'run --budget 9223372036854775808 a.v' 'run --order seeded: a.v' 'run --order seeded:x a.v' \
    'run --order seeded:18446744073709551616 a.v' 'run --budget=5 --budget 5 a.v'; do
    run "$full" ./vhost $words
    holds [ "$status" = 1 ]
    holds grep -q "^usage: vhost run" "$work/err"
done
holds [ ! -s "$BUILDS" ]

# what is said of a code needs no program, and each code has something
run "$bare" ./vhost explain S3
holds [ "$status" = 0 ]
holds [ "$(head -n 1 "$work/out")" = "## S3" ]
holds grep -q "^design refused: S3 at 1:1:13$" "$work/out"
holds [ "$(grep -c '^## ' "$work/out")" = 1 ]
run "$bare" ./vhost explain e13
holds [ "$(head -n 1 "$work/out")" = "## E13" ]
run "$bare" ./vhost explain E3
holds [ "$(wc -l <"$work/out" | tr -d ' ')" = 1 ]
holds grep -q '`E3`' "$work/out"
for code in L1 L2 L3 L4 L5 L6 S1 S2 S3 N1 N2 N3 N4 N5 N6 N7 N8 N9 N10 N11 A1 A2 A3 A4 A5 F1 F2 F3 F4 \
    E1 E2 E3 E4 E5 E6 E7 E8 E9 E10 E11 E12 E13 E14 E15 E16; do
    run "$bare" ./vhost explain "$code"
    holds [ "$status" = 0 ]
    holds [ -s "$work/out" ]
done
run "$bare" ./vhost explain X9
holds [ "$status" = 1 ]
holds [ ! -s "$work/out" ]
holds grep -q "has no code X9" "$work/err"
# so has each exit status, by its number and by its word
for pair in 1:usage 2:refused 3:refused 4:fault 5:budget 6:read 7:write 8:memory 125:125; do
    run "$bare" ./vhost explain "${pair%%:*}"
    holds [ "$status" = 0 ]
    holds [ "$(head -n 1 "$work/out")" = "## ${pair#*:}" ]
    run "$bare" ./vhost explain "${pair#*:}"
    holds [ "$(head -n 1 "$work/out")" = "## ${pair#*:}" ]
done
run "$bare" ./vhost explain Long
holds [ "$(head -n 1 "$work/out")" = "## long" ]
# and each construct that is left out; of a word that isn't known the nearest is told
for word in specify SPECIFY '$random' logic; do
    run "$bare" ./vhost explain "$word"
    holds [ "$word: $status" = "$word: 0" ]
    holds grep -q "^gets [A-Z][0-9]*; instead: " "$work/out"
done
for pair in budgt:budget specfy:specify N12:N1 '$randm:$random'; do
    run "$bare" ./vhost explain "${pair%%:*}"
    holds [ "$status" = 1 ]
    holds grep -qF "vhost: is ${pair#*:} meant?" "$work/err"
done
# a page that needs no program
for word in --help -h help; do
    run "$bare" ./vhost "$word"
    holds [ "$status" = 0 ]
    holds [ "$(head -n 1 "$work/out")" = 'vhost run [--order fifo|lifo|seeded:N] [--budget N] FILES..' ]
    holds [ ! -s "$work/err" ]
done
run "$bare" ./vhost --version
holds [ "$status" = 0 ]
holds grep -q '^vhost.*, sources [0-9]*-[0-9]*$' "$work/out"
holds grep -q '^there is no proved program of these sources$' "$work/out"
run "$full" ./vhost run --help a.v
holds [ "$status" = 1 ]
for words in explain 'explain S3 A2'; do
    run "$bare" ./vhost $words
    holds [ "$status" = 1 ]
    holds grep -q "^usage: vhost explain CODE" "$work/err"
done
holds [ ! -s "$BUILDS" ]

# options may stand anywhere before `--`, behind which each word is a file
for words in '--order lifo run a.v' 'run --order=seeded:3 a.v --budget 5' 'run -- a.v' 'run --order seeded:18446744073709551615 a.v' \
    'run --budget 9223372036854775807 a.v' 'run --order seeded:0 a.v'; do
    : >"$BUILDS"
    run "$full" ./vhost $words
    holds [ "$(tries)" = 1 ]
    holds [ "$(head -n 1 "$work/out")" = "ran $(echo "$words" | sed 's/a.v/1.v/')" ]
done

# eight files, any number of which are scripts, tried and by the proved program
eight_files() {
    run "$full" ./vhost run 1.v 2.v 3.v 4.v 5.v 6.v 7.v a.app
    holds [ "$(head -n 1 "$work/out")" = "ran run 1.v 2.v 3.v 4.v 5.v 6.v 7.v $1" ]
    run "$full" ./vhost run 1.v a.app a.app
    holds [ "$(head -n 1 "$work/out")" = "ran run 1.v $2" ]
}
for name in 1.v 2.v 3.v 4.v 5.v 6.v 7.v a.app; do cp a.v "$name"; done
eight_files 8.app '2.app 3.app'
run "$full" ./vhost prove
eight_files a.app 'a.app a.app'

# a word of a file may be its ending alone
run "$full" ./vhost run .v .app
holds [ "$(cat "$work/out")" = "ran run .v .app" ]

# Where standard error is a terminal, a refusal is followed by the line of the text with a caret under the column, a sentence on
# the code, and the part of the page; elsewhere by nothing.
export TELLS ENDS
# refused_so LINE STATUS WORD..: the program tells this line and ends so; $work/behind has what a terminal gets behind it.
refused_so() {
    TELLS=$1 ENDS=$2
    shift 2
    run "$full" ./vhost "$@"
    holds [ "$status" = "$ENDS" ]
    holds [ "$(cat "$work/out")" = "${RAN:-ran} $*" ]
    printf '%s\n' "$TELLS" >"$work/wanted"
    holds cmp -s "$work/err" "$work/wanted"
    on_terminal "$@"
    cat "$work/behind" >>"$work/wanted"
    holds cmp -s "$work/lines" "$work/wanted"
}
# on_terminal WORD..: what a call with these words writes to a terminal as its standard error goes to $work/lines. Standard output is
# a file, or with PIPED set a pipe.
on_terminal() {
    cat >"$work/call" <<'CALL'
import os, pty, subprocess, sys
parent, child = pty.fork()
if parent == 0:
    with open(sys.argv[1], "wb") as text:
        os.dup2(text.fileno(), 1)
    if os.environ.get("PIPED"):
        os.dup2(subprocess.Popen(["cat"], stdin=subprocess.PIPE).stdin.fileno(), 1)
    os.execv("./vhost", ["./vhost"] + sys.argv[3:])
shown = b""
while True:
    try:
        piece = os.read(child, 65536)
    except OSError:
        break
    if not piece:
        break
    shown += piece
with open(sys.argv[2], "wb") as lines:
    lines.write(shown.replace(b"\r\n", b"\n"))
sys.exit(os.waitstatus_to_exitcode(os.waitpid(parent, 0)[1]))
CALL
    run "$full" python3 "$work/call" "$work/text" "$work/lines" "$@"
    holds [ "$status" = "$ENDS" ]
    holds [ "$(cat "$work/text")" = "${RAN:-ran} $*" ]
}
# behind NAME:LINE:COLUMN TEXT CARET CODE: what is wanted behind a refusal.
behind() {
    printf '%s\n%s\n%s\n' "$1" "$2" "$3" >"$work/behind"
    behind_alone "$4" >>"$work/behind"
}
# behind_alone CODE: the same where there is no line to show.
behind_alone() {
    case $1 in
        N2) echo "vhost: N2: A name is declared twice in one scope, or two modules have one name." ;;
        F4) echo "vhost: F4: 256 calls of tasks and functions stood one within another, and one more was due." ;;
        A2) echo "vhost: A2: A token stands where no script has it, or a name stands for a variable that isn't declared, or the script ends too early." ;;
    esac
    echo "vhost: see docs/FAULTS.md#$(echo "$1" | tr '[:upper:]' '[:lower:]')"
}
tab=$(printf '\t')
refusals_on_a_terminal() {
    printf 'module top;\n  reg a;\n\t reg\ta;\nendmodule\n' >a.v
    behind a.v:3:7 "$tab reg${tab}a;" "$tab    $tab^" N2
    refused_so "design refused: N2 at 1:3:7" 2 run a.v
    # the files are numbered among the words that are files, scripts too, and options may stand anywhere before `--`
    echo 'app b; startup { print "on" }' >b.app
    behind a.v:2:7 "  reg a;" "      ^" N2
    refused_so "design refused: N2 at 2:2:7" 2 run b.app a.v
    refused_so "design refused: N2 at 2:2:7" 2 --order lifo run b.app --budget=5 a.v
    refused_so "design refused: N2 at 3:2:7" 2 run --budget 9 b.app --order=seeded:4 b.app -- a.v
    behind b.app:1:29 'app b; startup { print "on" }' "                            ^" A2
    refused_so "application refused: b.app: A2 at 1:29" 3 run a.v b.app
    # names that a shell could mistake
    mkdir -p "odd at 1:1" && cp a.v "odd at 1:1/-n \$(x) *.v" && cp a.v -- -e.v && cp b.app "odd at 1:1/b: A9 at 2:2.app"
    behind "odd at 1:1/-n \$(x) *.v:2:7" "  reg a;" "      ^" N2
    refused_so "design refused: N2 at 1:2:7" 2 run "odd at 1:1/-n \$(x) *.v"
    behind "-e.v:2:7" "  reg a;" "      ^" N2
    refused_so "design refused: N2 at 1:2:7" 2 run -- -e.v
    behind "odd at 1:1/b: A9 at 2:2.app:1:29" 'app b; startup { print "on" }' "                            ^" A2
    refused_so "application refused: odd at 1:1/b: A9 at 2:2.app: A2 at 1:29" 3 run a.v "odd at 1:1/b: A9 at 2:2.app"
    newline='a
b.v'
    cp a.v "$newline"
    behind 'a\nb.v:2:7' "  reg a;" "      ^" N2
    refused_so "design refused: N2 at 1:2:7" 2 run "$newline"
    # a place behind the last line, in an empty file, in a file that is gone, in one that may not be read twice
    behind a.v:5:1 endmodule "         ^" N2
    refused_so "design refused: N2 at 1:5:1" 2 run a.v
    : >empty.v && mkfifo pipe.v
    echo "empty.v:1:1" >"$work/behind" && behind_alone N2 >>"$work/behind"
    refused_so "design refused: N2 at 1:1:1" 2 run empty.v
    behind_alone N2 >"$work/behind"
    refused_so "design refused: N2 at 1:1:1" 2 run gone.v
    refused_so "design refused: N2 at 1:1:1" 2 run pipe.v
    refused_so "design refused: N2 at 4:1:1" 2 run a.v
    # bytes that a terminal would obey, and those of UTF-8, of which the first one of each character takes room
    printf 'a \033[31m\r\n\342\204\246 \303\251 reg\r\n' >c.v
    behind c.v:1:8 "a  [31m " "       ^" N2
    refused_so "design refused: N2 at 1:1:8" 2 run c.v
    behind c.v:2:8 "$(printf '\342\204\246 \303\251 reg ')" "    ^" N2
    refused_so "design refused: N2 at 1:2:8" 2 run c.v
    # a long line is cut around the column
    awk 'BEGIN { for (i = 0; i < 1000; i++) printf "%d", i % 10; print "" }' >long.v
    behind long.v:1:500 "$(cut -c401-600 long.v)" "$(printf '%99s^' '')" N2
    refused_so "design refused: N2 at 1:1:500" 2 run long.v
    behind long.v:1:3 "$(cut -c1-200 long.v)" "  ^" N2
    refused_so "design refused: N2 at 1:1:3" 2 run long.v
    # each code of a refusal has its sentence
    for code in L1 L2 L3 L4 L5 L6 S1 S2 S3 N1 N2 N3 N4 N5 N6 N7 N8 N9 N10 N11 A1 A2 A3 A4 A5; do
        TELLS="design refused: $code at 1:1:1" ENDS=2
        on_terminal run a.v
        holds grep -q "^vhost: $code: [A-Z].*\.\$" "$work/lines"
        holds grep -q "^vhost: see docs/FAULTS.md#$(echo "$code" | tr '[:upper:]' '[:lower:]')\$" "$work/lines"
    done
    # a run that ended with a fault has no place
    behind_alone F4 >"$work/behind"
    refused_so "run fault: F4" 4 run a.v
    # what is none of these is followed by nothing
    : >"$work/behind"
    refused_so "run fault: design refused: N2 at 1:1:1" 4 run a.v
    refused_so "a line of something else" 2 run a.v
    refused_so "a line of something else" 6 run a.v
}
# said LINE..: what is wanted behind a line of the program.
said() {
    : >"$work/behind"
    for line in "$@"; do printf 'vhost: %s\n' "$line" >>"$work/behind"; done
}
# Where standard error is a terminal, each exit status is followed by what helps.
help_on_a_terminal() {
    # which word has no reading, and why
    usage='usage: vhost run [--order fifo|lifo|seeded:N] [--budget N] FILES..'
    whole='a whole number from 1 to 2^63 - 1, in decimal digits without a leading 0'
    while IFS='|' read -r words why; do
        said "$why" 'see docs/FAULTS.md#usage'
        refused_so "$usage" 1 $words
    done <<WORDS
run|there is no .v file among the words
run a.app|there is no .v file among the words
run a.sv|a.sv: the name of a file ends in .v or in .app
run --budget 1e6 a.v|1e6: a budget is $whole
run --budget=0 a.v|0: a budget is $whole
run a.v --budget=007|007: a budget is $whole
run a.v --budget|--budget: no value stands behind it
run --order seeded:x a.v|seeded:x: the number is a whole one below 2^64, in decimal digits without a leading 0
run --order fofi a.v|fofi: an order is fifo, lifo or seeded:N; is fifo meant?
run --order random a.v|random: an order is fifo, lifo or seeded:N
run --oder lifo a.v|--oder: there is no such option; a file of such a name stands behind a word --; is --order meant?
run -e.v|-e.v: there is no such option; a file of such a name stands behind a word --
rnu a.v|rnu: there is no such word; run, races, explain and prove are there; is run meant?
a.v|a.v: the word run is missing before it
run --help|--help: this word stands alone
--order lifo explain|explain: this word stands first
run --order fifo --order=lifo a.v|--order stands more than once
run --budget 4 --budget 4 a.v|--budget stands more than once
run 1.v 2.v 3.v 4.v 5.v 6.v 7.v 8.v 9.app|there are 9 files, and a run takes eight; cat makes one of several
WORDS
    said 'there is no word run; vhost --help prints a page' 'see docs/FAULTS.md#usage'
    refused_so "$usage" 1
    # a budget that is spent, and of which time the last line is where standard output is a file, or how that is seen
    said 'the run made 100000000 steps and isn'"'"'t over; no line of its transcript tells a time, and initial forever #1 $display("%0d", $time); shows each' \
        'where time stands still, a loop without a delay goes on; else --budget N gives it more steps, or $finish an end' 'see docs/FAULTS.md#budget'
    refused_so "budget spent" 5 run a.v
    said 'the run made 20 steps and isn'"'"'t over; the last line of its transcript is of time 17' \
        'where time stands still, a loop without a delay goes on; else --budget N gives it more steps, or $finish an end' 'see docs/FAULTS.md#budget'
    RAN='17 out "ran'
    export RAN
    refused_so "budget spent" 5 run --budget=20 a.v
    refused_so "budget spent" 5 run a.v --budget 20
    said 'the run made 20 steps and isn'"'"'t over; the last line of its transcript begins with its time' \
        'where time stands still, a loop without a delay goes on; else --budget N gives it more steps, or $finish an end' 'see docs/FAULTS.md#budget'
    PIPED=yes
    export PIPED
    refused_so "budget spent" 5 run a.v --budget 20
    unset RAN PIPED
    # a file that isn't there, is a folder or a link, or is too long
    rm -f gone.v && mkdir -p folder.v && ln -sf itself.v itself.v && ln -sf nowhere.v lost.v && head -c 4194305 /dev/zero >much.v
    cp a.v counter.v
    while IFS='|' read -r name why; do
        said "$name: $why" 'see docs/FAULTS.md#read'
        refused_so "cannot read $name" 6 run a.v "$name"
    done <<'NAMES'
folder.v|it is a folder
itself.v|it is a link that leads back to itself
lost.v|it is a link, and nowhere.v isn't there
gone_away_for_ever.v|there is no such file
conuter.v|there is no such file; is counter.v meant?
no_such_folder/a.v|there is no folder no_such_folder
a.v|it can be read now
NAMES
    said 'much.v: it has 4194305 bytes, and may have 4194304' 'see docs/FAULTS.md#long'
    refused_so "too long: much.v" 6 run much.v
    # bytes that a terminal would obey are shown, not sent
    obeyed=$(printf 'a\033[31m\tb\nc\177.v')
    TELLS="cannot read $obeyed" ENDS=6
    on_terminal run "$obeyed"
    printf '%s\n' 'cannot read a\x1b[31m\tb\nc\x7f.v' 'vhost: a\x1b[31m\tb\nc\x7f.v: there is no such file' 'vhost: see docs/FAULTS.md#read' >"$work/wanted"
    holds cmp -s "$work/lines" "$work/wanted"
    # standard output takes no more, or memory is gone
    said "standard output took no more: it is $work/text, on a disk with $(df -Pk "$work" | awk 'NR == 2 { print int($4 / 1024) }') MB left" 'see docs/FAULTS.md#write'
    TELLS='cannot write' ENDS=7
    on_terminal run a.v
    holds grep -q "^vhost: standard output took no more: it is $work/text, on a disk with [0-9]* MB left$" "$work/lines"
    holds [ "$(tail -n 1 "$work/lines")" = 'vhost: see docs/FAULTS.md#write' ]
    TELLS='out of memory' ENDS=8
    on_terminal run a.v
    holds grep -q '^vhost: [0-9]* MB of memory are free' "$work/lines"
    holds [ "$(tail -n 1 "$work/lines")" = 'vhost: see docs/FAULTS.md#memory' ]
    # several tops are named, also where comments and texts name them
    printf '/* one two\n*/ module one; // two\n  initial $display("one \\" two");\nendmodule\nmodule part; endmodule\n' >b.v
    printf 'module two;\n  part p();\nendmodule\n' >c.v
    n9='N9: A run has one top, a module that no other one instantiates, and the source has none or several.'
    said "$n9" 'see docs/FAULTS.md#n9' 'no other module names one, of b.v:2' 'no other module names two, of c.v:1' \
        'leave all but one out of the call, or write a top that has an instance of each'
    refused_so "design refused: N9 at 1:1:1" 2 run b.v --order lifo c.v
    said "$n9" 'see docs/FAULTS.md#n9' 'these files declare no module'
    refused_so "design refused: N9 at 1:1:1" 2 run empty.v
    said "$n9" 'see docs/FAULTS.md#n9'
    refused_so "design refused: N9 at 1:1:1" 2 run c.v
    # what stands at the place of a construct that is left out has a row of its own
    printf 'module top;\n  specify endspecify\nendmodule\n' >d.v
    TELLS='design refused: S3 at 1:2:3' ENDS=2
    on_terminal run d.v
    holds grep -q '^vhost: specify is left out; instead: ' "$work/lines"
    # so has the word before, and both together; what is missing in front of a word that is read has none
    while IFS='|' read -r place told text; do
        printf '%s\n' "$text" >d.v
        TELLS="design refused: S1 at 1:1:$place" ENDS=2
        on_terminal run d.v
        holds [ "$place: $(sed -n 's/^vhost: \(.*\) is left out; .*/\1/p' "$work/lines")" = "$place: $told" ]
    done <<'TEXTS'
19|logic|module top; logic [3:0] x; endmodule
23|parameter integer|module top; parameter integer N = 4; endmodule
19||module top; reg a integer i; endmodule
19||module top; reg a repeat (3) ; endmodule
TEXTS
}
if command -v python3 >/dev/null; then
    refusals_on_a_terminal
    help_on_a_terminal
else
    echo "python3 isn't there, so no terminal was tried"
fi
# a status line that is missing names no part, and a closed standard output is the program's to tell
refused_silently() {
    TELLS= ENDS=8
    run "$full" script -qec "./vhost run a.v >&-" /dev/null
    holds [ "$status" = 8 ]
    ENDS=2
    run "$full" script -qec "./vhost run a.v" /dev/null
    holds [ "$status" = 2 ]
    holds [ "$(grep -ac FAULTS "$work/out")" = 0 ]
}
# how far a build is stands in one line, which is written over; nothing of it is left when the build ends
told_on_a_terminal() {
    unset TELLS ENDS
    fresh_repository
    SLOW=2
    export SLOW
    run "$full" script -qec "stty cols 120; ./vhost prove" /dev/null
    holds [ "$status" = 0 ]
    # a | for what goes back and clears the line
    tr -d '\r' <"$work/out" | sed "s/$(printf '\033')\[K/|/g" >"$work/lines"
    holds [ "$(grep -c "crates proved" "$work/lines")" = 1 ]
    holds grep -q "|vhost: 0 of 2 crates proved, at work on vh_low, about [0-9]* minutes left|" "$work/lines"
    holds grep -q "|vhost: 1 of 2 crates proved, at work on vh_sim, about [0-9]* minutes left|" "$work/lines"
    holds grep -q "|vhost: the program is proved" "$work/lines"
    fresh_repository
    run "$full" script -qec "stty cols 40; ./vhost prove" /dev/null
    unset SLOW
    tr -d '\r' <"$work/out" | sed "s/$(printf '\033')\[K/|/g" >"$work/lines"
    holds grep -q "|vhost: 0 of 2 crates proved, at work on|" "$work/lines"
    # an answer of the unproved program is followed by what a terminal gets, under the user's own names
    fresh_repository
    echo 'app b; startup { print "on" }' >b.app
    TELLS='application refused: 2.app: A2 at 1:29' ENDS=3
    export TELLS ENDS
    run "$full" script -qec "./vhost run a.v b.app" /dev/null
    unset TELLS ENDS
    holds [ "$status" = 3 ]
    tr -d '\r' <"$work/out" >"$work/lines"
    holds grep -q '^b.app:1:29$' "$work/lines"
    holds grep -q '^application refused: b.app: A2 at 1:29$' "$work/lines"
    holds grep -q '^vhost: see docs/FAULTS.md#a2$' "$work/lines"
}
# ended_so SIGNAL STATUS: a call on a terminal that this signal ends; what it began has ended too, and nothing of it is left.
ended_so() {
    SLEEPS=$work/sleeps
    export SLEEPS
    rm -f "$SLEEPS" "$work/launcher" "$work/ended"
    mkdir -p "$work/temporary"
    TMPDIR=$work/temporary script -qec "sh -c 'echo \$\$ >$work/launcher; exec ./vhost run a.v'; echo \$? >$work/ended" /dev/null >/dev/null 2>&1 &
    terminal=$!
    while [ ! -s "$SLEEPS" ]; do sleep 0.1; done
    kill -s "$1" "$(cat "$work/launcher")"
    wait "$terminal"
    holds [ "$1: $(cat "$work/ended")" = "$1: $2" ]
    holds [ ! -d "/proc/$(cat "$SLEEPS")" ]
    holds [ -z "$(ls "$work/temporary")" ]
    unset SLEEPS
}
ended_on_a_terminal() {
    for by in 'unproved one' 'proved one'; do
        if [ "$by" = 'unproved one' ]; then fresh_repository; else run "$full" ./vhost prove; fi
        ended_so TERM 143
        ended_so HUP 129
        ! command -v python3 >/dev/null || { ended_by_keys 03 SIGINT && ended_by_keys 1c SIGQUIT; }
    done
}
# ended_by_keys BYTE SIGNAL: a call that this byte on its terminal ends, ^C or ^\, and what it began with it.
ended_by_keys() {
    SLEEPS=$work/sleeps
    export SLEEPS
    rm -f "$SLEEPS"
    cat >"$work/call" <<'CALL'
import os, pty, signal, sys, time
parent, child = pty.fork()
if parent == 0:
    signal.signal(signal.SIGINT, signal.SIG_DFL)
    signal.signal(signal.SIGQUIT, signal.SIG_DFL)
    os.execv("./vhost", ["./vhost", "run", "a.v"])
while not (os.path.exists(os.environ["SLEEPS"]) and os.path.getsize(os.environ["SLEEPS"])):
    time.sleep(0.1)
os.write(child, bytes.fromhex(sys.argv[1]))
try:
    while os.read(child, 65536):
        pass
except OSError:
    pass
print(signal.Signals(-os.waitstatus_to_exitcode(os.waitpid(parent, 0)[1])).name)
CALL
    run "$full" python3 "$work/call" "$1"
    holds [ "$1: $(cat "$work/out")" = "$1: $2" ]
    holds [ ! -d "/proc/$(cat "$SLEEPS")" ]
    unset SLEEPS
}
if command -v script >/dev/null; then
    refused_silently
    told_on_a_terminal
    ended_on_a_terminal
else
    echo "script isn't there, so no terminal was tried"
fi
unset TELLS ENDS

# races compares what runs under several orders display; the program here displays by its order and by the name of its file
fresh_repository
run "$full" ./vhost races race.v
holds [ "$status" = 125 ]
holds grep -q '^vhost: there is no proved program of these sources, and races runs it; ./vhost prove makes the proved one' "$work/err"
run "$full" ./vhost prove
cat >.vhost/vhost <<'PROGRAM'
#!/bin/sh
echo "$*" >>"$RACED"
case "$4 $3" in
    "race.v lifo" | "race.v seeded:2") printf '%s\n' '0 out "one\n"' '0 startup x' '7 out "three\n"' '8 end none' ;;
    "race.v "*) printf '%s\n' '0 startup x' '0 out "one\n"' '7 out "two\n"' '8 end none' ;;
    "spent.v lifo") printf '%s\n' '0 out "one\n"' '0 out "two\n"' && echo 'budget spent' >&2 && exit 5 ;;
    "spent.v "*) printf '%s\n' '0 out "one\n"' && echo 'budget spent' >&2 && exit 5 ;;
    "ended.v lifo") printf '%s\n' '0 out "one\n"' '3 end finish' ;;
    "ended.v "*) printf '%s\n' '0 out "one\n"' '4 end F2' && echo 'run fault: F2' >&2 && exit 4 ;;
    "refused.v "*) echo 'design refused: N2 at 1:1:1' >&2 && exit 2 ;;
    "gone.v lifo") echo 'out of memory' >&2 && exit 8 ;;
    "slow.v fifo") echo '0 end none' ;;
    "slow.v "*) echo "$$" >>"$SLEEPS" && exec sleep 60 ;;
    *) printf '%s\n' "0 startup $3" '0 out "one\n"' '8 end none' ;;
esac
PROGRAM
RACED=$work/raced SLEEPS=$work/sleeps
export RACED SLEEPS
# raced_so STATUS OUT ERR WORD..
raced_so() {
    printf '%s' "$2" >"$work/wanted.out" && printf '%s' "$3" >"$work/wanted.err"
    wanted=$1
    shift 3
    : >"$RACED"
    run "$full" ./vhost races "$@"
    holds [ "$*: $status" = "$*: $wanted" ]
    holds cmp -s "$work/out" "$work/wanted.out"
    holds cmp -s "$work/err" "$work/wanted.err"
}
end='
'
raced_so 1 "a race: line 2 of the text isn't the same under all orders
under fifo, seeded:1, seeded:3, seeded:4, seeded:5, seeded:6, seeded:7, seeded:8:
7 out \"two\\n\"
under lifo, seeded:2:
7 out \"three\\n\"$end" '' race.v
holds [ "$(wc -l <"$RACED" | tr -d ' ')" = 10 ]
for jobs in 1 3 12; do
    raced_so 1 "a race: line 2 of the text isn't the same under all orders
under fifo, seeded:1, seeded:3, seeded:4, seeded:5, seeded:6, seeded:7, seeded:8 and 4 more:
7 out \"two\\n\"
under lifo, seeded:2:
7 out \"three\\n\"$end" '' 12 --jobs "$jobs" race.v
    holds [ "$(LC_ALL=C sort -u "$RACED" | wc -l | tr -d ' ')" = 14 ]
done
raced_so 0 "no race is seen: the text is the same under fifo, lifo and seeded:1 to seeded:3$end" '' 3 --jobs=2 a.v --budget 9
holds [ "$(LC_ALL=C sort "$RACED" | head -n 1)" = 'run --order fifo a.v --budget 9' ]
raced_so 0 "no race is seen: the text is the same under fifo, lifo and seeded:1 to seeded:8$end" \
    "vhost: 10 of 10 runs spent their budget, and count as far as they went$end" spent.v
raced_so 1 "a race: line 2 of the text isn't the same under all orders
under fifo, seeded:1:
4 end F2
under lifo:
3 end finish$end" '' 1 ended.v
raced_so 2 '' "design refused: N2 at 1:1:1$end" refused.v
holds [ "$(wc -l <"$RACED" | tr -d ' ')" = 1 ]
raced_so 8 '' "out of memory$end" gone.v
usage="usage: vhost races [N] [--jobs K] [--budget N] FILES..$end"
raced_so 125 '' "${usage}vhost: an order is no word of races, which runs several$end" --order lifo a.v
raced_so 125 '' "${usage}vhost: there is no .v file among the words$end"
raced_so 125 '' "${usage}vhost: 0: how many orders seeded:N are tried is a whole number from 1 to 1000000$end" 0 a.v
raced_so 125 '' "${usage}vhost: x: how many runs stand side by side is a whole number from 1 to 1000$end" 4 --jobs x a.v
raced_so 125 '' "${usage}vhost: 1e6: a budget is a whole number from 1 to 2^63 - 1, in decimal digits without a leading 0$end" --budget 1e6 a.v
holds [ ! -s "$RACED" ]
# a look that is ended ends its runs, and leaves nothing
: >"$SLEEPS"
mkdir -p "$work/temporary"
TMPDIR=$work/temporary ./vhost races --jobs 3 slow.v >/dev/null 2>&1 &
look=$!
while [ "$(wc -l <"$SLEEPS")" -lt 3 ]; do sleep 0.1; done
kill "$look"
wait "$look" 2>/dev/null
holds [ "$?" = 143 ]
while read -r number; do holds [ ! -d "/proc/$number" ]; done <"$SLEEPS"
holds [ "$(wc -l <"$SLEEPS" | tr -d ' ')" = 3 ]
holds [ -z "$(ls "$work/temporary")" ]
unset RACED SLEEPS

# 40 builds at one time: one proves, and all end well
fresh_repository
SLOW=2
export SLOW
n=0
while [ "$n" -lt 40 ]; do
    { ./vhost prove >"$work/many.$n" 2>&1; echo "$?" >"$work/status.$n"; } &
    n=$((n + 1))
done
wait
holds [ "$(builds)" = 1 ]
holds [ "$(cat "$work"/many.* | grep -c 'the proved program of these sources is here')" = 39 ]
holds [ "$(cat "$work"/status.* | sort -u)" = 0 ]

# an interrupted build ends its call of rt, and the next goes on where it stood
fresh_repository
./vhost prove >/dev/null 2>"$work/first" &
build=$!
while ! grep -q '^vh_low$' "$BUILDS"; do sleep 0.1; done
./vhost prove >/dev/null 2>"$work/second" &
second=$!
while [ ! -s "$work/second" ]; do sleep 0.1; done
kill "$second"
wait "$second" 2>/dev/null
holds [ "$?" = 143 ]
holds [ "$(cat "$work/second")" = "vhost: another call is proving the program; waiting for it" ]
while ! grep -q '^vh_sim$' "$BUILDS"; do sleep 0.1; done
kill "$build"
wait "$build" 2>/dev/null
holds [ "$?" = 143 ]
holds grep -q '^vhost: ended before the program is proved; another call goes on from there$' "$work/first"
sleep 3
holds [ ! -e .vhost/vhost ]
holds [ -z "$(ls "$work/cache/vhost")" ]
unset SLOW
: >"$BUILDS"
run "$full" ./vhost prove
holds [ "$status" = 0 ]
holds [ "$(cat "$BUILDS")" = "ci
vh_sim" ]
up_to_date "$full"

echo "$tried tried, $failed failed"
[ "$failed" = 0 ]
