#!/bin/sh
# cvc5 beside `hollyspool search --profile ordinary`, on formulas that both can read. For a machine with
# cvc5; no part of the check.
#
#   docs/cvc5.sh [FILE.smt2 ..]      texts; without any, those below and the samples without ls
#
# hollyspool and cvc5 are taken from the path, or from HOLLYSPOOL and CVC5. A model that is found has to be
# "sat" for cvc5, and "unsat" has to be "none": that is all that can be compared, since "none" speaks of n
# locations (N, 4 if it is not set). A formula with wand is shown and not compared: what is added to a heap
# is limited to n locations here, and to none there. cvc5 has no ls.
#
# Exit status: 0 no contradiction, 1 a contradiction, 77 a tool is missing.

root=$(cd "$(dirname "$0")/.." && pwd)
hollyspool=${HOLLYSPOOL:-hollyspool}
cvc5=${CVC5:-cvc5}
n=${N:-4}

for tool in "$hollyspool" "$cvc5"; do
    command -v "$tool" > /dev/null || { echo "$tool is not installed" >&2; exit 77; }
done

folder=$(mktemp -d) || exit 77
trap 'rm -rf "$folder"' EXIT

made() {
    cat <<'TEXTS'
(and (sep (not sep.emp) (not sep.emp)) (not (sep (not sep.emp) (sep (not sep.emp) (not sep.emp)))))
(sep (pto x y) (pto y x))
(sep (pto x y) (pto x z))
(sep (pto x x) (not (= y y)))
(and (pto x y) (not (pto x y)))
(and (sep (pto x y) (pto y sep.nil)) (= x y))
(pto sep.nil x)
(and (not (pto x y)) (not sep.emp))
(wand (pto x sep.nil) (pto x sep.nil))
TEXTS
}

compare() {
    file=$1 name=$2
    if grep -q '(ls ' "$file"; then
        echo "not compared  $name: cvc5 has no ls"
        return
    fi
    "$hollyspool" search "$file" --n "$n" --profile ordinary > /dev/null 2>&1
    case $? in
        0) ours=found ;;
        1) ours=none ;;
        *) echo "not compared  $name: hollyspool refuses it"; return ;;
    esac
    # The text alone, as a book has it: the file that cvc5 reads.
    "$hollyspool" text "$file" --n "$n" --file > "$folder/whole.smt2" 2> /dev/null
    theirs=$("$cvc5" "$folder/whole.smt2" 2>&1 | head -n 1)
    case $ours,$theirs in
        found,sat | none,sat | none,unsat) verdict="no contradiction" ;;
        found,unsat) verdict="CONTRADICTION" ;;
        *) verdict="not compared" ;;
    esac
    if grep -q '(wand ' "$file"; then
        verdict="not compared"
    fi
    echo "$verdict  $name: $ours, cvc5 says $theirs"
    [ "$verdict" != CONTRADICTION ] || touch "$folder/contradiction"
}

if [ $# -gt 0 ]; then
    for file; do compare "$file" "$file"; done
else
    made | while IFS= read -r text; do
        echo "$text" > "$folder/made.smt2"
        compare "$folder/made.smt2" "$text"
    done
    for file in "$root"/texts/*.smt2 "$root"/texts/files/*.smt2; do
        compare "$file" "${file#"$root"/}"
    done
fi
[ ! -e "$folder/contradiction" ]
