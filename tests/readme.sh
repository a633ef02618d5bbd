#!/usr/bin/env bash
# The README's own examples: each block of shell is run at the root of the repository and must print the block of text behind
# it. The one block without such a text is .ci/run, the gate, which runs this script. There is no other kind of block.
# The last line is 'N passed, M failed'.
set -uo pipefail
cd "$(dirname "$0")/.." || exit 1
source agreement/common

passed=0
failed=0
work=$(mktemp -d) || exit 1
trap 'rm -rf "$work"' EXIT

fail() {
    failed=$((failed + 1))
    printf 'FAILED: %s\n' "$1"
}

# Writes each block to a file, in order: 01.sh, 02.text, .. Any other fence, and a block that does not end, is a fault.
awk -v work="$work" '
    function fault(reason) { printf "README.md, line %d: %s\n", NR, reason > (work "/faults") }
    /^[ \t]*(```|~~~)/ {
        fences++
        if (into != "" && $0 == "```") { into = "" }
        else if (into == "" && ($0 == "```sh" || $0 == "```text")) {
            into = sprintf("%s/%02d.%s", work, ++blocks, substr($0, 4))
            printf "" > into
        }
        else fault("a fence that neither begins nor ends a block of sh or text: " $0)
        next
    }
    into != "" { print > into }
    END {
        if (into != "") fault("the last block does not end")
        if (fences != 2 * blocks) fault(fences " fences and " blocks " blocks")
    }
' README.md
if [ -e "$work/faults" ]; then fail "$(cat "$work/faults")"; fi

gates=0
previous=''
for block in "$work"/*.sh "$work"/*.text; do [ -e "$block" ] && basename "$block"; done | sort >"$work/order"
while read -r block; do
    case $block in
        *.text)
            [ "${previous##*.}" = sh ] || fail "a block of text that follows no block of sh: $(head -n 1 "$work/$block")"
            ;;
        *.sh)
            text=$(printf '%02d.text' $((10#${block%.sh} + 1)))
            if [ -e "$work/$text" ]; then
                bash "$work/$block" >"$work/out" 2>"$work/err" </dev/null
                if cmp -s "$work/out" "$work/$text"; then
                    passed=$((passed + 1))
                else
                    fail "$(cat "$work/$block")"
                    diff "$work/$text" "$work/out" | head -n 5
                    head -n 3 "$work/err"
                fi
            elif [ "$(cat "$work/$block")" = .ci/run ]; then
                gates=$((gates + 1))
            else
                fail "a block of sh without a text behind it: $(cat "$work/$block")"
            fi
            ;;
    esac
    previous=$block
done <"$work/order"
if [ "$gates" -eq 1 ]; then passed=$((passed + 1)); else fail "the gate's own line is there $gates times"; fi

# Twelve examples and the gate's own line.
close_count "$passed" "$failed" 13
