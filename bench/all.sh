#!/bin/sh
# Runs the measurements of docs/PERFORMANCE.md, and prints the page's tables: what the launcher adds, "Runs", "Behavioural
# designs", "Reading and elaborating", "Callbacks", "Scripts" and "Tokens", with the figures of Icarus Verilog where it is there
# ("-" where it isn't); and, where `rt` is there, those of single crates. Run it after ./vhost prove; it takes
# half an hour and more where valgrind is there.
folder=$(dirname -- "$0")

# figure NAME: the number behind these words in what a script said, or "-".
figure() { printf '%s\n' "$said" | sed -n "s/^\(.* \)*$1 \([0-9.]*\).*\$/\2/p" | head -1 | grep . || echo -; }

sh "$folder/start.sh" || exit 1
echo
echo '| Blocks | Labels | Lines | `vhost run` | Labels a second | Instructions a label | `vvp` |'
echo '|---|---|---|---|---|---|---|'
for blocks in 1000 5000 10000; do
    said=$(sh "$folder/run.sh" "$blocks") || exit 1
    printf '| %s | %s | %s | %s s | %s | %s | %s s |\n' "$blocks" "$(figure labels)" "$(figure lines)" "$(figure seconds)" \
        "$(figure 'a second')" "$(figure 'instructions a label')" "$(figure 'icarus seconds')"
done
echo
if command -v valgrind >/dev/null; then
    echo '| Processes | Instructions a label |'
    echo '|---|---|'
    said=$(sh "$folder/times.sh" 1000) || exit 1
    printf '| 1000 | %s |\n\n' "$(figure 'instructions a label')"
    python3 "$folder/designs.py" || exit 1
    echo
    python3 "$folder/orders.py" || exit 1
    echo
fi
echo '| Callbacks | Changes | Elsewhere | Fires | Fires a second | Instructions a fire | `vhost run` | `vvp` |'
echo '|---|---|---|---|---|---|---|---|'
for row in '1000 2000 0' '10 20000 0' '10 20000 1000' '10 20000 10000' '10 20000 20000'; do
    set -- $row
    said=$(sh "$folder/callbacks.sh" "$1" "$2" "$3") || exit 1
    printf '| %s | %s | %s | %s | %s | %s | %s s | %s s |\n' "$1" "$2" "$3" "$(figure fires)" "$(figure 'a second')" \
        "$(figure 'instructions a fire')" "$(figure seconds)" "$(figure 'icarus seconds')"
done
echo
python3 "$folder/texts.py" || exit 1
if command -v valgrind >/dev/null && command -v rt >/dev/null; then
    echo
    sh "$folder/crates.sh"
fi
