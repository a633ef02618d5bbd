#!/usr/bin/env bash
# The documents against the files. Every must-fail edit that the map (docs/proof-map.md, theorems.md and guards.md) or
# docs/entries.md names is there, and every edit that is there is named in the map or in a table of edits. An edit is named
# as `crate/name`, or by its bare name in a table that says its crate: those of docs/guards.md, and the last column of the
# entries. Every path, every theorem and every item of a crate (`crate::item`) that README.md or docs/*.md names is there, but
# for two pages that tell of an earlier state. And the second program's folders are those of its table, in its order. The last
# line is 'N passed, M failed'.
set -uo pipefail
export LC_ALL=C
cd "$(dirname "$0")/.." || exit 1
source agreement/common
source tests/common

map=(docs/proof-map.md docs/theorems.md docs/guards.md)

# What names what is there now. docs/PORT.md says what changed when the toolchain did, and docs/DESIGN-PASS.md what today's
# forms took the place of: both name what stood before, and stay as they are.
documents=(README.md)
for document in docs/*.md; do
    case "$document" in docs/PORT.md | docs/DESIGN-PASS.md) ;; *) documents+=("$document") ;; esac
done

work=$(mktemp -d) || exit 1
trap 'rm -rf "$work"' EXIT

# What stands between backticks on standard input, one a line.
quoted() { grep -o '`[^`]*`' | tr -d '`'; }

# The rows of the tables below a heading of a file, up to the next heading, without their heads: FILE HEADING. A row that has
# other cells than its table's rule has a bar within a cell, and is said to be a fault.
rows() {
    awk -F '|' -v heading="$2" -v faults="$work/faults" '
        /^#/ { inside = ($0 ~ "^#+ " heading "$") }
        !inside || !/^\|/ { if (held != "") print held; held = ""; cells = 0; next }
        /^\|[-| ]*\|$/ { held = ""; cells = NF; next }
        { if (held != "") print held; held = $0 }
        held != "" && cells && NF != cells { print FILENAME ", line " FNR ": not " cells - 2 " cells" > faults }
        END { if (held != "") print held }
    ' "$1"
}

# A cell of a row: ROW NUMBER.
cell() { printf '%s\n' "$1" | cut -d '|' -f "$(($2 + 1))"; }

# Bare names of edits in a cell, each with its crate before it: CRATE CELL.
of_crate() { printf '%s\n' "$2" | quoted | grep -E '^[a-z0-9_]+$' | sed "s|^|$1/|"; }

# ---- the edits that are there
for edit in crates/*/must-fail/*.edit; do
    crate=${edit#crates/}
    printf '%s/%s\n' "${crate%%/*}" "$(basename "$edit" .edit)"
done | sort >"$work/there"

# ---- those that the tables name
rows docs/guards.md 'What guards the rules' >"$work/rows"
while IFS= read -r row; do
    mapfile -t crates < <(cell "$row" 2 | quoted)
    IFS=';' read -r -a groups <<<"$(cell "$row" 3)"
    is "the map has ${#groups[@]} groups of edits for ${#crates[@]} crates:$(cell "$row" 1)" [ "${#groups[@]}" -eq "${#crates[@]}" ]
    for ((n = 0; n < ${#crates[@]}; n++)); do of_crate "${crates[n]}" "${groups[n]:-}"; done >>"$work/tables"
done <"$work/rows"
rows docs/guards.md 'What guards demand 3' >"$work/rows.it"
while IFS= read -r row; do
    # The lie is in the first cell, or, where that is a wrong controller in words, in the second.
    named=$(cell "$row" 1)
    case $named in *'`'*) ;; *) named=$(cell "$row" 2) ;; esac
    of_crate rules "$named" >>"$work/tables"
done <"$work/rows.it"
rows docs/entries.md 'Public entries' >"$work/rows.entries"
while IFS= read -r row; do
    function=$(cell "$row" 2 | quoted)
    of_crate "${function%%::*}" "$(cell "$row" 4)" >>"$work/tables"
done <"$work/rows.entries"

for table in "$work/rows" "$work/rows.it" "$work/rows.entries"; do is "a table of edits has no row" [ -s "$table" ]; done
is "$(cat "$work/faults" 2>&1)" [ ! -e "$work/faults" ]

# ---- those that are named by crate and name, anywhere in the map or in the entries
crates=$(for crate in crates/*/; do basename "$crate"; done | paste -sd '|')
cat "${map[@]}" docs/entries.md | quoted | grep -E "^($crates)/[a-z0-9_]+$" | sort -u >"$work/written"
cat "${map[@]}" | quoted | grep -E "^($crates)/[a-z0-9_]+$" | cat - "$work/tables" | sort -u >"$work/named"

sort -u "$work/written" "$work/tables" >"$work/all"
while read -r edit; do
    is "$edit is named, and there is no such edit" [ -f "crates/${edit%/*}/must-fail/${edit#*/}.edit" ]
done <"$work/all"
while read -r edit; do
    is "$edit is there, and the map does not name it" grep -qxF "$edit" "$work/named"
done <"$work/there"

# ---- every path: the first word between backticks, if its first folder is one of ours, but for what a build leaves in out/; the
# kind of file may be left out
is_there() { [ -e "$1" ] || compgen -G "$1.*" >"$work/found"; }
for document in "${documents[@]}"; do
    while read -r path; do
        is "$document names $path, which is not there" is_there "$path"
    done < <(quoted <"$document" | sed 's|^\./||; s/ .*//' | grep -E '^(\.ci|agreement|bench|cases|crates|docs|examples|second|tests|tools)/' | grep -v /out/ | sort -u)
done

# ---- every name: a word of small letters with underscores or hyphens, or with a capital within, is a definition or theorem of ours, an edit or a stored case,
# and elsewhere than in the list of theorems it may be an item or a field of the code
{
    grep -rhoE '^ *((pattern|unfoldable|abbrev|pub) )*[a-z0-9]+([-_][a-z0-9]+)+( \{[^}]*\})? :' crates --include='*.antt' | sed -E 's/^ *((pattern|unfoldable|abbrev|pub) )*//; s/( \{[^}]*\})? :$//'
    sed 's|.*/||' "$work/there"
} | sort -u >"$work/theorems"
grep -rhoE '\b(fn|mod) [a-z0-9_]+|\b[a-z0-9_]+:' crates --include='*.rt' | sed -E 's/^(fn|mod) //; s/:$//' | sort -u >"$work/items"
is_shown() { # DOCUMENT NAME
    grep -qxF -- "$2" "$work/theorems" || [ -f "cases/$2.text" ] && return
    [ "$1" != docs/theorems.md ] && grep -qxF -- "$2" "$work/items"
}
for document in "${documents[@]}"; do
    while read -r name; do
        is "$document names $name, which nothing shows" is_shown "$document" "$name"
    done < <(quoted <"$document" | grep -xE '[a-z0-9]+([-_][a-z0-9]+)+|[a-z]+[A-Z][A-Za-z0-9]*' | sort -u)
done

# ---- every item of a crate: what begins with a crate's name and two colons, module by module to the last one
is_item() {
    local crate=${1%%::*} rest=${1#*::} part
    for part in ${rest//::/ }; do
        grep -rqE "\\b(fn|struct|enum|const|mod) $part\\b" "crates/$crate/src" || return
    done
}
for document in "${documents[@]}"; do
    while read -r name; do
        is "$document names $name, which its crate does not have" is_item "$name"
    done < <(quoted <"$document" | sed 's/(.*//' | grep -xE "($crates)(::[A-Za-z0-9_]+)+" | sort -u)
done

# ---- the second program's folders: all are in its table, and each uses none that stands below it there
rows second/README.md 'Where things are' >"$work/rows.folders"
is "the table of the second program's folders has no row" [ -s "$work/rows.folders" ]
above=' '
while IFS= read -r row; do
    folder=$(cell "$row" 1 | quoted | tr -d /)
    above="$above$folder "
    while read -r used; do
        is "second/src/$folder uses $used, which does not stand above it" grep -qF " $used " <<<"$above"
    done < <(grep -rhoE '\bcrate::[a-z_]+' "second/src/$folder" | sed 's/.*:://' | sort -u)
done <"$work/rows.folders"
for folder in second/src/*/; do
    is "$folder is in no row of second/README.md" grep -qF " $(basename "$folder") " <<<"$above"
done

# The documents may say a name or two less; none of the loops above may run over nothing.
close_count "$passed" "$failed" 900
