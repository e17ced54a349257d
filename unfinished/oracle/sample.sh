#!/usr/bin/env bash
# Writes the list that the gate replays: requests, and the answers that they must get.
#
#     oracle/sample.sh ORACLE FOLDER
#
# ORACLE is the assembled program; FOLDER gets the files stdin and stdout. The requests are: every trap with both calls and
# both flags under `statement`, every eleventh of the others' traps, short rows of every alphabet, the deepest and longest
# pages, some of each random kind, a script of calls on sheets that stay; and lines that are no requests. The answers are
# the crate's, and what follows from them on a plain list of trees (`oracle expect`). Requests of which the crate does not
# tell the answer are left out. Nothing here looks at the port.
set -euo pipefail
oracle=$1 folder=$2
requests() {
    "$oracle" gen 0 1000000 traps | grep ' statement '
    "$oracle" gen 0 1000000 traps | grep -v ' statement ' | awk 'NR % 11 == 0'
    for alphabet in $(seq 0 28); do "$oracle" gen "$alphabet" 900 rows 2>/dev/null | awk 'NR % 30 == 0'; done
    "$oracle" gen 0 1000000 deep | awk 'length($0) > 2000 && NR % 97 == 0'
    for kind in rules chains parts damaged soup; do "$oracle" gen 7 250 "$kind"; done
    printf '%s\n' '' 'enter' 'enter statement yes' 'leave statement yes -' 'enter nobody yes -' 'enter statement maybe -' \
        'enter statement yes 0' 'enter statement yes 0G' 'enter fence:7:statement yes -' 'enter fence:1 yes -' \
        'enter name:0 yes -' 'enter statement yes - -'
}
{
    requests | awk '!seen[$0]++' | "$oracle" expect
    "$oracle" gen 3 800 script | "$oracle" expect
    # lines that are no requests: the words are the program's own
    printf '%s\tbad call\n' 's' 's sum' 's totals 1' 's wipe 1'
    printf '%s\tbad line\n' 'text 01000161' 's new 5' 's line 1' 's enter statement yes'
    printf '%s\tbad number\n' 's new 5 x' 's rule' 's rule +1' 's node -1' 's heading 3 2' 's line 1 2 3' 'text 01000161 a' \
        's front statement yes - space=' 's new 99999999999999999999 1'
    printf '%s\tbad hex\n' 'text 0 0' 's front statement yes 0'
} > "$folder/list"
cut -f 1 "$folder/list" > "$folder/stdin"
cut -f 2 "$folder/list" > "$folder/stdout"
rm "$folder/list"
