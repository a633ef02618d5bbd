#!/usr/bin/env bash
# The manners of the program that compares two traces: tests/compare.sh BINARY SECOND. What it prints, says and marks; names,
# pipes and terminals; readers that are slow or gone, calls that fail; and the manners of the script ./compare: options, exit
# status, signals. What the script shares with ./replay, the build above all, is for tests/replay.sh.
# Where BINARY is ./compare, its program is taken. SECOND, the second program, makes long traces and says how they differ.
# The last line is 'N passed, M failed'.
set -uo pipefail
export LC_ALL=C
here=$(cd "$(dirname "$0")" && pwd -P)
top=$(dirname "$here")
crate=compare
usage='usage: tests/compare.sh BINARY SECOND'
binary=$(readlink -f "${1:?$usage}")
[ "$binary" != "$top/compare" ] || binary=$top/crates/compare/out/compare
second=$(readlink -f "${2:?$usage}")
source "$here/../agreement/common"
source "$here/common"
work=$(mktemp -d) || exit 1
trap 'rm -rf "$work"' EXIT
cd "$work" || exit 1

once='twice (a pipe brings its bytes once: save them in a file, and name that)'
two='compare: name two traces: ./compare A B'
full='compare: cannot write standard output (make room there, or send it elsewhere)'
due=326

settle "$binary"

compare() { run_script "$@"; }

# STATUS LINES: it ended so, wrote the file's lines, and said nothing.
wrote() { [ "$status" -eq "$1" ] && cmp -s out "$2" && [ ! -s err ]; }

# STATUS LINE: it ended so, and said one line, which is the given one.
ended_saying() { [ "$status" -eq "$1" ] && [ "$(wc -l <err)" -eq 1 ] && [ "$(cat err)" = "$2" ]; }

# LINE: it failed, wrote nothing, and said the one line.
failed_saying() { [ ! -s out ] && ended_saying 2 "$1"; }

# NAME LINES STATUS MARK WORDS..: the program prints the lines on these words, and marks its end so where a mark is asked for;
# ./compare prints them too, and ends with the status.
compared() {
    local case=$1 lines=$2 ends=$3 mark=$4
    shift 4
    run "$@" 3>mark
    is "$case" wrote 0 "$lines"
    is "$case: nothing is marked unasked" marked ''
    run --report "$@" 3>mark
    is "$case: the mark" marked "$mark"
    compare "$@"
    is "./compare: $case" wrote "$ends" "$lines"
}

# NAME LINE WORDS..: on these words nothing is printed or marked and the line is said, and ./compare ends with 2.
refused() {
    local case=$1 line=$2
    shift 2
    run --report "$@" 3>mark
    is "$case" only_said "$line"
    is "$case: no mark" marked ''
    compare "$@"
    is "./compare: $case" failed_saying "$line"
}

# ---- traces, with how they differ
cp "$top/crates/replay/data/whole-case.trace" whole || exit 1
"$second" text whole | sed 's/^bio 1 0 7 /bio 1 0 8 /; /^plan$/d' | "$second" bytes >other
printf '%s\n' 'differs 4 66 66 bio 1 0 7 0 4096 | bio 1 0 8 0 4096' 'ends second 7' 'rest first 0' different >other.lines
printf '%s\n' 'ends neither 8' 'rest first 0' equal >equal.lines
: >nothing
printf '%s\n' 'ends neither 0' 'rest first 0' equal >nothing.lines
cp whole copy
head -c 94 whole >front
head -c 70 whole >'cut'
{ head -c 66 whole; printf '\x09'; tail -c +67 whole; } >unknown
mkdir sub

compared "the whole case with another id and without its plan" other.lines 1 other whole other
compared "a copy" equal.lines 0 equal whole copy
compared "the same file twice" equal.lines 0 equal whole whole
compared "nothing and nothing" nothing.lines 0 equal nothing nothing
compared "a device that is empty" nothing.lines 0 equal /dev/null nothing
printf '%s\n' 'ends first 6' 'rest second 10' prefix >lines
compared "the first is a prefix" lines 1 other front whole
printf '%s\n' 'ends second 6' 'rest first 10' prefix >lines
compared "the second is a prefix" lines 1 other whole front
printf '%s\n' 'ends first 0' 'rest second 104' prefix >lines
compared "nothing is a prefix" lines 1 other nothing whole
printf '%s\n' 'ends second 0' 'rest first 104' prefix >lines
compared "of either side" lines 1 other whole nothing
echo 'error first 16 66' >lines
compared "a kind that is unknown" lines 2 '' unknown whole
compared "is told of the first where the second is cut" lines 2 '' unknown cut
echo 'error second 17 66' >lines
compared "a record that is cut" lines 2 '' whole cut
compared "is told behind a difference" lines 2 '' other cut
echo 'error first 16 0' >lines
compared "a device that never ends" lines 2 '' /dev/zero whole

# ---- standard input
compared "the first from standard input" other.lines 1 other - other <whole
compared "the second" other.lines 1 other whole - <other
compared "both" equal.lines 0 equal - - <whole
compared "standard input that is not asked for" equal.lines 0 equal whole copy < <(yes)
compared "or is closed" equal.lines 0 equal whole copy <&-
refused "the first by a pipe" "compare: cannot read standard input $once" - other < <(cat whole)
refused "the second by a pipe" "compare: cannot read standard input $once" whole - < <(cat other)
refused "both by one" "compare: cannot read standard input $once" - - < <(cat whole)
refused "a pipe that brings nothing" "compare: cannot read standard input $once" - nothing < <(:)
mkfifo gone
exec 4<>gone 5<gone 4>&-
refused "a named pipe whose writers are gone" "compare: cannot read standard input $once" - whole <&5
exec 5<&-
refused "standard input is closed" "compare: cannot read standard input (name a trace file): Bad file descriptor" - whole <&-
refused "for the second" "compare: cannot read standard input (name a trace file): Bad file descriptor" whole - <&-
refused "standard input is a directory" "compare: cannot read standard input (name a trace file): Is a directory" - whole <sub

# ---- pipes that are named. ./compare opens none, since that would wait for a writer.
refused_pipes() { # A PIPE PIPE
    refused "a process as the first" "compare: cannot read '$2' $once" "$2" "$1"
    refused "a process as the second" "compare: cannot read '$3' $once" "$1" "$3"
    refused "a process on both sides" "compare: cannot read '$2' $once" "$2" "$3"
}
refused_pipes whole <(cat whole) <(cat other)
mkfifo fifo $'a\nfifo'
ln -s fifo link.fifo
compare fifo whole
is "./compare: a named pipe as the first" failed_saying "compare: cannot read 'fifo' $once"
compare whole fifo
is "./compare: a named pipe as the second" failed_saying "compare: cannot read 'fifo' $once"
compare whole link.fifo
is "./compare: a link to one" failed_saying "compare: cannot read 'link.fifo' $once"
compare $'a\nfifo' whole
is "./compare: one whose name would break the line" failed_saying "compare: cannot read 'a?fifo' $once"
exec 4<>fifo
refused "a named pipe with a writer" "compare: cannot read 'fifo' $once" fifo whole
exec 4>&-
mkdir odd
mkfifo odd/- odd/--report
(cd odd && timeout "$limit" "$wrapper" - ../copy) <whole >out 2>err
status=$?
is "./compare: a pipe called - is not standard input, and one called --report not asked for" wrote 0 equal.lines

# ---- what cannot be read
refused "a missing file" "compare: cannot read 'missing' (name a trace file): No such file or directory" missing whole
refused "a missing second" "compare: cannot read 'missing' (name a trace file): No such file or directory" whole missing
refused "two missing files" "compare: cannot read 'missing' (name a trace file): No such file or directory" missing lost
refused "a directory" "compare: cannot read 'sub' (name a trace file): Is a directory" sub whole
refused "a directory as the second" "compare: cannot read 'sub' (name a trace file): Is a directory" whole sub
refused "a file as a directory" "compare: cannot read 'whole/in' (name a trace file): Not a directory" whole/in whole
refused "an empty name" "compare: cannot read '' (name a trace file): No such file or directory" '' whole
refused "a name that would break the line" \
    "compare: cannot read 'two?lines?[2J' (name a trace file): No such file or directory" whole $'two\nlines\e[2J'
refused "a name that is too long" "compare: cannot read its argument (name a trace file): File name too long" \
    whole "$(printf '%5000s' x)"
cp whole secret
chmod -R go+rX . && chmod 000 secret
locked="compare: cannot read 'secret' (make it readable): Permission denied"
if find_other nothing nothing; then
    "${as[@]}" timeout "$limit" "${tested[@]}" whole secret >out 2>err
    status=$?
    is "a file that may not be read" only_said "$locked"
    "${as[@]}" timeout "$limit" "$wrapper" secret whole >out 2>err
    status=$?
    is "./compare: a file that may not be read" failed_saying "$locked"
else
    skip 2 "a file that may not be read: root may read any"
fi

# ---- words
refused "no name" "$two"
refused "one name" "$two" whole
refused "three names" "$two" whole whole whole
refused "5,000 names" "$two" $(seq 5000)
compare --
is "./compare: no name after the options" failed_saying "$two"
compare -- whole other
is "./compare: names after the options" wrote 1 other.lines
compare whole -- other
is "./compare: one of them" wrote 1 other.lines
compare -- - other <whole
is "./compare: standard input after the options" wrote 1 other.lines
for odd in -dash --help -- --report 'two words' $'two\nlines' '*' ./-; do
    mkdir named
    cp whole "named/$odd"
    (cd named && timeout "$limit" "$wrapper" -- "$odd" ../other) >out 2>err
    status=$?
    is "./compare: a file called '$odd'" wrote 1 other.lines
    (cd named && timeout "$limit" "$wrapper" -- ../whole "$odd") >out 2>err
    status=$?
    is "./compare: '$odd' as the second" wrote 0 equal.lines
    rm -r named
done
for option in --help -h; do
    compare "$option"
    cp out help
    is "./compare: $option says how to use it" grep -qx 'usage: ./compare A B' help
    is "./compare: $option says nothing else" wrote 0 help
done
compare whole --help
is "./compare: an option may come last" wrote 0 help
for word in --nonsense -x --help=no -hh; do
    compare whole "$word" other
    is "./compare: there is no $word" failed_saying \
        "compare: no such option: '$word' (a file of that name comes after --, and ./compare --help says more)"
done
"$wrapper" --help >/dev/full 2>err
is "./compare: help that cannot be written" [ $? -eq 2 ]

# ---- long traces, with more lines than a pipe holds
"$second" gen 1 200000 few >long
"$second" gen 2 200000 few >long.other
"$second" pair long long.other >long.lines
cp long long.copy
"$second" text long | head -n 5000 | tee some.text | "$second" bytes >some
sed 's/^\(bio [0-9]* [0-9]*\) [0-9]*/\1 7/' some.text | "$second" bytes >some.other
"$second" pair some some.other >some.lines
is "the long traces have 3 MB each" [ "$(wc -c <long)" -gt 3000000 -a "$(wc -c <long.other)" -gt 3000000 ]
is "and differ nearly everywhere" [ "$(grep -c '^differs ' long.lines)" -gt 199000 ]
compared "3 MB with 200,000 differences" long.lines 1 other long long.other
run long long.copy
is "3 MB that are equal" [ "$status $(tail -n 1 out) $(wc -c <err)" = "0 equal 0" ]
compared "5,000 records that differ in their ids" some.lines 1 other some some.other

# ---- readers
for reader in slowly 'dd bs=113 status=none'; do
    timeout "$limit" "${tested[@]}" some some.other 2>err | $reader >out
    status=${PIPESTATUS[0]}
    is "a slow reader gets every line: $reader" wrote 0 some.lines
    timeout "$limit" "$wrapper" some some.other 2>err | $reader >out
    status=${PIPESTATUS[0]}
    is "./compare: and so there: $reader" wrote 1 some.lines
done
timeout "$limit" "$wrapper" long long.other 2>err | { sleep 1; dd bs=4099 status=none; } >out
status=${PIPESTATUS[0]}
is "./compare: a slow reader of 17 MB" wrote 1 long.lines
timeout "$limit" "${tested[@]}" long long.other 2>err | head -n 1 >out
is "a reader that leaves has its line" cmp -s out <(head -n 1 long.lines)
is "and it ends quietly, or says so" [ "$(cat err)" = "" -o "$(cat err)" = "$full: Broken pipe" ]
timeout "$limit" "$wrapper" long long.other 2>err | head -n 1 >out
status=${PIPESTATUS[0]}
is "./compare: a reader that leaves ends it as any program" grep -qxF "$status" <(gone 2)
is "./compare: which says nothing then" [ "$status $(cat err)" = "141 " -o "$status $(cat err)" = "2 $full: Broken pipe" ]
is "./compare: and the line was there" cmp -s out <(head -n 1 long.lines)
(trap '' PIPE; timeout "$limit" "$wrapper" long long.other 2>err; echo $? >ended) | head -n 1 >out
is "./compare: a reader that is gone, where that ends no program" [ "$(cat ended) $(cat err)" = "2 $full: Broken pipe" ]

# ---- what cannot be written
for traces in 'whole copy' 'whole other' 'whole cut' 'nothing nothing' 'long long.other'; do
    read -r -a words <<<"$traces"
    timeout "$limit" "${tested[@]}" --report "${words[@]}" >/dev/full 2>err 3>mark
    status=$?
    is "$traces to a full device" said "$full: No space left on device"
    is "$traces to a full device: no mark" marked ''
    timeout "$limit" "$wrapper" "${words[@]}" >/dev/full 2>err
    status=$?
    is "./compare: $traces to a full device" ended_saying 2 "$full: No space left on device"
    timeout "$limit" "${tested[@]}" --report "${words[@]}" >&- 2>err 3>mark
    status=$?
    is "$traces to a closed output" said "$full: Bad file descriptor"
    is "$traces to a closed output: no mark" marked ''
    timeout "$limit" "$wrapper" "${words[@]}" >&- 2>err
    status=$?
    is "./compare: $traces to a closed output" ended_saying 2 "$full: Bad file descriptor"
done
timeout "$limit" "$wrapper" missing whole >out 2>/dev/full
is "./compare: an error that cannot be said" [ $? -eq 2 ]
timeout "$limit" "$wrapper" missing whole <&- >&- 2>&-
is "./compare: nor heard, where all three are closed" [ $? -eq 2 ]

# ---- descriptors
run --report whole copy 3>&-
is "where there is no descriptor 3, nothing is said" wrote 0 equal.lines
is "and no trace is written to" cmp -s whole copy
timeout "$limit" "$wrapper" whole other 3>inherited >out 2>err
status=$?
is "./compare: the caller's own descriptor 3" wrote 1 other.lines
is "./compare: is let alone" [ ! -s inherited ]
timeout "$limit" "$wrapper" whole other <&- 2>&- >out
status=$?
: >err
is "./compare: input and error are closed" wrote 1 other.lines
(ulimit -f 0 && exec timeout "$limit" "$wrapper" whole other) 2>err | cat >out
status=${PIPESTATUS[0]}
is "./compare: no file has to be written for it" wrote 1 other.lines

# ---- where it is
ln -s home/compare link
ln -s "$work/link" sub/link
(cd sub && timeout "$limit" ../home/compare ../whole ../other) >out 2>err
status=$?
is "./compare: from another folder" wrote 1 other.lines
(cd / && timeout "$limit" "$wrapper" "$work/whole" "$work/other") >out 2>err
status=$?
is "./compare: by full names" wrote 1 other.lines
(cd sub && timeout "$limit" ../link ../whole ../other) >out 2>err
status=$?
is "./compare: by a link" wrote 1 other.lines
(cd sub && PATH=$work/sub:$PATH timeout "$limit" link ../whole ../copy) >out 2>err
status=$?
is "./compare: by a link to a link on PATH" wrote 0 equal.lines

# ---- signals, while a reader keeps it waiting. The pipe that it writes to ends when no process holds it any more.
mkfifo given
for signal in TERM HUP; do
    # timeout hands the signal on to the script alone, which hears it even where the tests are deaf to it, as under nohup.
    timeout --foreground "$limit" "$wrapper" long long.other >given 2>err &
    waited=$!
    exec 4<given
    IFS= read -r line <&4
    is "./compare: it has begun" [ "$line" = "$(head -n 1 long.lines)" ]
    kill -s "$signal" "$waited"
    wait "$waited" 2>wait.log
    is "./compare: $signal ends it" [ $? -eq $((128 + $(kill -l "$signal"))) ]
    timeout "$limit" cat <&4 >held
    is "./compare: and the program, after $signal" [ $? -eq 0 ]
    exec 4<&-
    is "./compare: which says nothing" [ ! -s err ]
done

# ---- the status that is made of a mark, by a program that does as it is told
if [ "$(uname -m)" = x86_64 ]; then
    printf '#!/bin/bash\nsource "$WORK/does"\n' >told
    chmod +x told
    clone_built teller told
    export WORK=$work
    tells() { # STATUS COMMANDS: a program that does so gives the status
        printf '%s\n' "$2" >does
        (timeout --foreground "$limit" teller/compare whole other >out 2>err; exit $?) 2>wait.log
        is "./compare: status $1 where the program does: $2" [ "$? $(cat out err)" = "$1 " ]
    }
    tells 0 'echo equal >&3'
    tells 1 'echo other >&3'
    tells 2 ':'
    tells 2 'echo >&3'
    tells 2 'echo done >&3'
    tells 2 'echo different >&3'
    tells 2 'echo " equal" >&3'
    tells 2 'echo equal >&3; exit 1'
    tells 2 'echo other >&3; exit 3'
    tells 0 '[ "$*" = "--report whole other" ] && echo equal >&3'
    tells 137 'kill -KILL $$'
    tells 137 'echo equal >&3; kill -KILL $$'
    tells 143 'kill -TERM $$'
    tells 141 'kill -PIPE $$'
    export marks=equal trouble=0 crate=replay usage=none
    tells 1 'echo other >&3'
    tells 2 'echo replay >&3'
    export -n marks trouble crate usage
    crate=compare
else
    skip 16 "the status that is made of a mark: the program that is told what to do needs x86-64"
fi

# ---- a build that cannot be
clone new
mkdir false tools
printf '#!/bin/sh\nexit 1\n' >false/rt
chmod +x false/rt
for needed in bash env dirname readlink find uname timeout; do ln -s "$(command -v $needed)" tools/; done
PATH=$work/tools timeout "$limit" new/compare --help >out 2>err
status=$?
is "./compare: help needs no build" wrote 0 help
PATH=$work/tools timeout "$limit" new/compare whole other >out 2>err
status=$?
is "./compare: without rt" failed_saying \
    "compare: rt is missing: install the Rattle kit that $work/new/README.md names and put its bin/ on PATH"
PATH=$work/tools timeout "$limit" new/compare whole fifo >out 2>err
status=$?
is "./compare: a pipe is refused before that" failed_saying "compare: cannot read 'fifo' $once"
PATH=$work/false:$PATH timeout "$limit" new/compare whole other >out 2>err
is "./compare: a build that fails" [ $? -eq 2 -a ! -s out ]
notice='compare: building the program with its proofs, once; this takes some minutes'
is "./compare: says where to look" \
    [ "$(cat err)" = "$notice"$'\n'"compare: the program is not proved or not built: $work/new/target/compare.log says why" ]

# ---- settings that a shell cannot make: terminals, and pipes that do not wait
if command -v rustc >which 2>&1; then
    rustc -O --edition 2021 "$here/setting.rs" -o setting || exit 1
    ./setting nonblocking timeout "$limit" "${tested[@]}" some some.other 2>err < <(:) | { sleep 0.5; cat; } >out
    status=${PIPESTATUS[0]}
    is "pipes that do not wait lose nothing" wrote 0 some.lines
    for watched in "${tested[*]}" "$wrapper"; do
        read -r -a words <<<"$watched"
        setting watched "${words[@]}" long long.copy
        is "a terminal is told how much was read: $watched" grep -qE $'\rcompare: [1-9][0-9]* MB read' err
        is "in one place" [ "$(tr -cd '\n' <err | wc -c)" -eq 0 ]
        is "and nothing of it stays" emptied 24
        is "the lines are the same" [ "$(tail -n 1 out)" = equal ]
        setting watched "${words[@]}" long long.other
        is "nothing stays of it before lines either" emptied 24
        is "which are the same" cmp -s out long.lines
        setting watched "${words[@]}" some some.other
        is "short work shows nothing" [ "$(cat err)" = '' ]
        is "but its lines" cmp -s out some.lines
        setting watched "${words[@]}" missing whole
        is "an error is one line there too" \
            [ "$(tr -d '\r' <err)" = "compare: cannot read 'missing' (name a trace file): No such file or directory" ]
        setting shown "${words[@]}" long long.copy
        is "nothing is shown where the lines are" [ "$(tr -d '\r' <err)" = "$("$second" pair long long.copy)" ]
        setting typed "${words[@]}" - whole
        is "a terminal cannot be read twice" [ "$(cat out err)" = "compare: cannot read standard input $once" ]
    done
    setting typed "$wrapper" whole -
    is "./compare: nor as the second" failed_saying "compare: cannot read standard input $once"
    exec 4<>given
    timeout "$limit" ./setting typing 'MB read' $'\003' "$wrapper" long long.other >given 2>err
    is "./compare: Ctrl-C ends it and the program" [ $? -eq 130 ]
    exec 4>&-
else
    skip 25 "settings that a shell cannot make: they need rustc"
fi

# ---- calls that are cut short or broken off
if [ "$(uname -m)" = x86_64 ] && command -v rustc >which 2>&1; then
    rustc -O --edition 2021 --crate-type cdylib "$here/faults.rs" -o faults.so || exit 1
    plans=(short "intr ok" "again ok" "intr again intr again short ok" "again intr short again intr short intr intr again ok")
    for plan in "${plans[@]}"; do
        faulty "$plan" whole other
        is "calls that go: $plan" wrote 0 other.lines
        is "their mark: $plan" marked other
        faulty "short short short $plan" some some.other
        is "calls that go: three short, $plan, over many lines" wrote 0 some.lines
    done
    faulty eio whole other
    is "a first read that fails" only_said "compare: cannot read 'whole': Input/output error"
    is "has no mark" marked ''
    # Whichever call fails: no mark, whole lines and what went wrong, or, where it is the mark's own, all lines and no mark.
    fails="(read '(whole|other)'|write standard output \(make room there, or send it elsewhere\)): Input/output error"
    broke_off() {
        [ "$(wc -l <err)" -eq 1 ] && grep -qxE "compare: cannot $fails" err && cmp -s out <(head -n "$(wc -l <out)" other.lines)
    }
    fine=1
    plan=eio
    for ((n = 0; n < 100; n++)); do
        faulty "$plan" whole other
        if [ -s mark ]; then break; fi
        wrote 0 other.lines || broke_off || { fine=0; echo "call $n"; }
        plan="ok $plan"
    done
    is "any call that fails" [ $fine = 1 ]
    is "until none does" wrote 0 other.lines
    is "and that is marked" marked other
else
    skip 20 "calls that fail by a plan: they need x86-64 and rustc"
fi

close_count "$passed" "$failed" "$due"
