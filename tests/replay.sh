#!/usr/bin/env bash
# The program's manners: tests/replay.sh BINARY [SECOND]. Traces in pieces, cut, changed and long, readers that are slow or
# gone, calls that fail, and what it says then; and the manners of the script ./replay: options, exit status, signals, the
# build.
# Where BINARY is ./replay, its program is taken. With SECOND, the second program, what it prints is compared as well.
# The last line is 'N passed, M failed'.
set -uo pipefail
export LC_ALL=C
here=$(cd "$(dirname "$0")" && pwd -P)
top=$(dirname "$here")
crate=replay
whole=$top/crates/replay/data/whole-case.trace
binary=$(readlink -f "${1:?usage: tests/replay.sh BINARY [SECOND]}")
[ "$binary" != "$top/replay" ] || binary=$top/crates/replay/out/replay
second=${2:+$(readlink -f "$2")}
source "$here/../agreement/common"
source "$here/common"
work=$(mktemp -d) || exit 1
trap 'rm -rf "$work"' EXIT
cd "$work" || exit 1

hint='(name a trace file, or none to read standard input)'
full='replay: cannot write standard output (make room there, or send it elsewhere)'
due=209

settle "$binary"

replay() { run_script "$@"; }

# It ended, wrote the file's lines, and said nothing.
wrote() { [ "$status" -eq 0 ] && cmp -s out "$1" && [ ! -s err ]; }

# It failed, wrote nothing, and said one line.
failed_saying() { [ "$status" -eq 1 ] && [ ! -s out ] && [ "$(wc -l <err)" -eq 1 ] && [ "$(cat err)" = "$1" ]; }

# The line of a refusal: 20 to 23 name a node, and no other does.
refused='R (2[0-3] [0-9]+|[2-9]|1[0-9]|28)'

# It ended, said nothing, and its last line is one after which the replay stops.
stopped() { [ "$status" -eq 0 ] && [ ! -s err ] && tail -n 1 out | grep -qE "^$refused\$"; }

bytes() { # NUMBER WIDTH: little-endian, as escapes for printf
    local n=$1 i
    for ((i = 0; i < $2; i++)); do
        printf '\\x%02x' $((n & 255))
        n=$((n >> 8))
    done
}

# ---- traces, with what each prints
cp "$whole" whole || exit 1
: >nothing
printf 'W 7\nr 7\nP 1 1073741824\n' >whole.lines
size=$(wc -c <whole)
head -c 66 whole >setup # up to start

# forced bios, each of which goes on debt: more lines than a pipe holds, each with an id of its own
count=20000
{
    cat setup
    for ((id = 0; id < count; id++)); do printf "\\x04\\x01\\x02$(bytes $id 4)\\0\\0\\0\\0\\0\\0\\0\\0\\0\\x10\\0\\0"; done
} >many
seq -f 'D %.0f' 0 $((count - 1)) >many.lines
{ cat many; for i in 1 2 3 4 5 6 7; do tail -c +67 many; done; } >long
for i in 1 2 3 4 5 6 7 8; do cat many.lines; done >long.lines

# ---- where the trace comes from
run whole
is "a file that is named" wrote whole.lines
run <whole
is "standard input where none is named" wrote whole.lines
run nothing
is "an empty file prints nothing" wrote nothing
run <nothing
is "empty standard input prints nothing" wrote nothing
run many
is "20,000 lines" wrote many.lines
run long
is "a trace of 3 MB in fixed memory" wrote long.lines
run < <(cat long)
is "the same by a pipe" wrote long.lines
mkdir sub
(cd sub && run ../whole && wrote ../whole.lines)
is "a relative name" [ $? -eq 0 ]

# ---- an output that is shorter than any buffer: one line of 4 to 7 bytes, from a file and by a pipe, to a file and to a pipe
printf '\x06' >short.18 # a plan before start
printf '\x01\0\0\0' >short.22 # a node of weight 0
printf '\x09' >short.16
{ cat setup; printf '\x07\0\0'; } >short.15 # a vrate of 0
{ cat setup; printf '\x04\x02\x00\x07\0\0\0\0\0\0\0\0\0\0\0\0\x10\0\0'; } >short.7 # leaf 2 waits
for one in 'short.18 R 18' 'short.22 R 22 1' 'short.16 R 16' 'short.15 R 15' 'short.7 W 7'; do
    trace=${one%% *}
    printf '%s\n' "${one#* }" >"$trace.lines"
    run "$trace"
    is "one short line, ${one#* }, from a file to a file" wrote "$trace.lines"
    run < <(cat "$trace")
    is "one short line, ${one#* }, by a pipe to a file" wrote "$trace.lines"
    timeout "$limit" "${tested[@]}" "$trace" 2>err | cat >out
    status=${PIPESTATUS[0]}
    is "one short line, ${one#* }, from a file to a pipe" wrote "$trace.lines"
    cat "$trace" | timeout "$limit" "${tested[@]}" 2>err | cat >out
    status=${PIPESTATUS[1]}
    is "one short line, ${one#* }, by a pipe to a pipe" wrote "$trace.lines"
done

# ---- outputs just under, at and just over the sizes that a buffer of lines may have, by their number of bytes
# The bios of many, whose lines have 4 to 8 bytes: as many of 8 bytes as fit, and one or two shorter ones for the rest.
taken() { # FIRST COUNT: so many bios of many, from an id on, and their lines
    tail -c +$((67 + 19 * $1)) many | head -c $((19 * $2)) >>sized
    tail -n +$(($1 + 1)) many.lines | head -n "$2" >>sized.lines
}
sized() { # BYTES: makes the trace sized, whose lines have so many bytes
    local long=$(($1 / 8)) rest=$(($1 % 8))
    cp setup sized
    : >sized.lines
    case $rest in
        0) taken 10000 "$long" ;;
        1 | 2 | 3) # a line of 4 bytes, and one of as many and the rest
            taken 10000 $((long - 1))
            taken 9 1
            taken $((10 ** rest)) 1
            ;;
        *)
            taken 10000 "$long"
            taken $((10 ** (rest - 4))) 1
            ;;
    esac
}
for size_of_lines in 6551 6552 6553 65535 65536 65537; do
    sized "$size_of_lines"
    is "the lines are $size_of_lines bytes" [ "$(wc -c <sized.lines)" -eq "$size_of_lines" ]
    run sized
    is "lines of $size_of_lines bytes, to a file" wrote sized.lines
    timeout "$limit" "${tested[@]}" <sized 2>err | cat >out
    status=${PIPESTATUS[0]}
    is "lines of $size_of_lines bytes, to a pipe" wrote sized.lines
done

# ---- a trace that comes in pieces
run < <(for ((i = 0; i < size; i++)); do dd if=whole bs=1 skip=$i count=1 2>dd.log; done)
is "one byte at a time" wrote whole.lines
for block in 7 4096 65535 65536 65537; do
    run < <(dd if=many bs=$block 2>dd.log)
    is "in pieces of $block" wrote many.lines
done

mkfifo pipe
: >out # what stood there is no line of this run
(timeout "$limit" "${tested[@]}" <pipe >out 2>err) &
exec 3>pipe
head -c 85 whole >&3
for ((i = 0; i < limit * 20; i++)); do [ -s out ] && break; sleep 0.05; done
is "a line is there before the trace ends" [ "$(cat out)" = "W 7" ]
tail -c +86 whole >&3
exec 3>&-
wait $!
status=$?
is "and the others once it has" wrote whole.lines

# ---- cut at every byte: the lines so far, and 17 inside a record
ends=' 0 4 8 57 66 85 94 103 104 '
fine=1
for ((n = 0; n <= size; n++)); do
    {
        if ((n >= 85)); then echo 'W 7'; fi
        if ((n >= 94)); then echo 'r 7'; fi
        if ((n >= 104)); then echo 'P 1 1073741824'; fi
        case $ends in *" $n "*) ;; *) echo 'R 17' ;; esac
    } >cut.lines
    run < <(head -c $n whole)
    wrote cut.lines || { fine=0; echo "cut at byte $n"; }
done
is "cut at every byte" [ $fine = 1 ]

# ---- each byte changed: it ends and its lines are lines
fine=1
mapfile -t old < <(od -An -v -tu1 -w1 whole | tr -d ' ')
for ((n = 0; n < size; n++)); do
    for flip in 1 128 255; do
        {
            head -c $n whole
            printf "$(bytes $((old[n] ^ flip)) 1)"
            tail -c +$((n + 2)) whole
        } >changed
        run changed
        if [ -n "$second" ]; then "$second" replay changed >changed.lines; else cp out changed.lines; fi
        if ! wrote changed.lines || grep -qvE "^([IWDr] [0-9]+|P [0-9]+ [0-9]+|$refused)\$" out; then
            fine=0
            echo "byte $n changed by $flip"
        fi
    done
done
is "each byte changed" [ $fine = 1 ]

# ---- bytes that are no trace
head -c 10000000 /dev/urandom >random
run random
is "10 MB of random bytes stop the replay" stopped
{ cat setup; head -c 10000000 /dev/urandom; } >random
run random
is "random bytes after start stop it" stopped
run < <(yes)
is "an endless input is read no further" stopped

# ---- readers
timeout "$limit" "${tested[@]}" many 2>err | slowly >out
status=${PIPESTATUS[0]}
is "a slow reader gets every line" wrote many.lines
# a write to nobody ends the program, or, where the system does not do that, fails
timeout "$limit" "${tested[@]}" long 2>err | head -n 1 >out
is "a reader that leaves after a line" [ "$(cat out)" = "D 0" ]
is "it ends quietly, or says so" [ "$(cat err)" = "" -o "$(cat err)" = "$full: Broken pipe" ]

# ---- what cannot be read or written
run missing
is "a missing file" only_said "replay: cannot read 'missing' $hint: No such file or directory"
run sub
is "a directory" only_said "replay: cannot read 'sub' $hint: Is a directory"
run ''
is "an empty name" only_said "replay: cannot read '' $hint: No such file or directory"
run "$(printf 'two\nlines\033[2J')"
is "a name that would break the line" only_said "replay: cannot read 'two?lines?[2J' $hint: No such file or directory"
run "$(printf '%5000s' x)"
is "a name that is too long" only_said "replay: cannot read its argument $hint: File name too long"
run whole whole
is "two names" only_said "replay: too many arguments: name one trace file, or none to read standard input"
run whole '' ''
is "three names" only_said "replay: too many arguments: name one trace file, or none to read standard input"
run <&-
is "standard input is closed" only_said "replay: cannot read standard input $hint: Bad file descriptor"
run <sub
is "standard input is a directory" only_said "replay: cannot read standard input $hint: Is a directory"
cp whole secret
chmod 000 secret
locked="replay: cannot read 'secret' (make it readable): Permission denied"
chmod -R go+rX . && chmod 000 secret
if find_other nothing; then
    "${as[@]}" timeout "$limit" "${tested[@]}" secret >out 2>err
    status=$?
    is "a file that may not be read" only_said "$locked"
else
    skip 1 "a file that may not be read: root may read any"
fi
timeout "$limit" "${tested[@]}" whole >/dev/full 2>err
status=$?
is "a full device" said "$full: No space left on device"
timeout "$limit" "${tested[@]}" nothing >/dev/full 2>err
status=$?
is "a full device that nothing is written to" [ ! -s err ]
timeout "$limit" "${tested[@]}" whole >&- 2>err
status=$?
is "standard output is closed" said "$full: Bad file descriptor"

# ---- the mark of a run that ended well: on descriptor 3 where it is asked for, and nowhere unasked
run whole 3>mark
is "nothing is marked unasked" marked ''
run --report whole 3>mark
is "a run to the end is marked" marked 'done'
run --report short.16 3>mark
is "and one to its stop" marked 'done'
run --report 3>mark <nothing
is "and one of nothing" marked 'done'
run --report - 3>mark <whole
is "and one of standard input" marked 'done'
run --report missing 3>mark
is "a file that is missing is not" marked ''
run --report whole whole 3>mark
is "nor are two files" marked ''
run --report 3>mark <&-
is "nor is input that cannot be read" marked ''
timeout "$limit" "${tested[@]}" --report many 3>mark >/dev/full 2>err
status=$?
is "nor lines that cannot be written" marked ''
run --report whole 3>&-
is "and where there is no descriptor 3, nothing is said" wrote whole.lines

# ---- ./replay: words
replay whole
is "./replay: a file" wrote whole.lines
replay <whole
is "./replay: standard input" wrote whole.lines
replay - <whole
is "./replay: standard input by name" wrote whole.lines
replay -- <whole
is "./replay: no file after the options" wrote whole.lines
replay -- - <whole
is "./replay: standard input by name after the options" wrote whole.lines
replay - <sub
is "./replay: it is called so" failed_saying "replay: cannot read standard input $hint: Is a directory"
for name in -dash --help -- --report 'two words' $'two\nlines' '*' -; do
    mkdir -p named
    cp whole "named/$name"
    (cd named && if [ "$name" = - ]; then replay ./-; else replay -- "$name"; fi && cp out err .. && exit "$status")
    status=$?
    is "./replay: a file called '$name'" wrote whole.lines
    rm -r named
done
for option in --help -h; do
    replay "$option"
    cp out help
    is "./replay: $option says how to use it" grep -qx 'usage: ./replay \[FILE\]' help
    is "./replay: $option says nothing else" wrote help
done
replay whole --help
is "./replay: an option may come last" wrote help
for word in --nonsense -x --help=no -hh; do
    replay "$word"
    is "./replay: there is no $word" failed_saying \
        "replay: no such option: '$word' (a file of that name comes after --, and ./replay --help says more)"
done
"$wrapper" --help >/dev/full 2>err
is "./replay: help that cannot be written" [ $? -eq 1 ]
replay whole whole
is "./replay: two names" failed_saying "replay: too many arguments: name one trace file, or none to read standard input"
replay $(seq 5000)
is "./replay: 5,000 names" failed_saying "replay: too many arguments: name one trace file, or none to read standard input"

# ---- ./replay: status
replay nothing
is "./replay: nothing to replay is no failure" wrote nothing
replay short.16
is "./replay: nor is a trace that stops" wrote short.16.lines
replay missing
is "./replay: a missing file" failed_saying "replay: cannot read 'missing' $hint: No such file or directory"
replay sub
is "./replay: a directory" failed_saying "replay: cannot read 'sub' $hint: Is a directory"
replay ''
is "./replay: an empty name" failed_saying "replay: cannot read '' $hint: No such file or directory"
replay "$(printf '%5000s' x)"
is "./replay: a name that is too long" failed_saying "replay: cannot read its argument $hint: File name too long"
replay <&-
is "./replay: standard input is closed" failed_saying "replay: cannot read standard input $hint: Bad file descriptor"
: >out
"$wrapper" whole >/dev/full 2>err
status=$?
is "./replay: a full device" failed_saying "$full: No space left on device"
"$wrapper" whole >&- 2>err
status=$?
is "./replay: standard output is closed" failed_saying "$full: Bad file descriptor"
(trap '' PIPE; "$wrapper" long 2>err; echo $? >ended) | head -n 1 >out
is "./replay: a reader that is gone, where that ends no program" [ "$(cat ended) $(cat err)" = "1 $full: Broken pipe" ]

# ---- ./replay: descriptors
"$wrapper" long 2>err | head -n 1 >out
status=${PIPESTATUS[0]}
is "./replay: a reader that leaves ends it as any program" grep -qxF "$status" <(gone 1)
is "./replay: and it had its line" [ "$(cat out)" = "D 0" ]
"$wrapper" many 2>err | slowly >out
status=${PIPESTATUS[0]}
is "./replay: a slow reader gets every line" wrote many.lines
replay < <(cat long)
is "./replay: 3 MB by a pipe" wrote long.lines
"$wrapper" whole 3>inherited >out 2>err
status=$?
is "./replay: the caller's own descriptor 3" wrote whole.lines
is "./replay: is let alone" [ ! -s inherited ]
"$wrapper" whole <&- 2>&- >out
status=$?
: >err
is "./replay: input and error are closed" wrote whole.lines
"$wrapper" missing <&- >&- 2>&-
is "./replay: all three are" [ $? -eq 1 ]
(ulimit -f 0 && exec "$wrapper" whole) 2>err | cat >out
status=${PIPESTATUS[0]}
is "./replay: no file has to be written for it" wrote whole.lines

# ---- ./replay: where it is
ln -s home/replay link
ln -s "$work/link" sub/link
(cd sub && ../link ../whole) >out 2>err
status=$?
is "./replay: by a link" wrote whole.lines
(cd sub && PATH=$work/sub:$PATH link ../whole) >out 2>err
status=$?
is "./replay: by a link to a link on PATH" wrote whole.lines

# ---- ./replay: signals. The pipe that it writes to ends when no process holds it any more.
mkfifo fed given
for signal in TERM HUP; do
    : >out
    timeout "$limit" cat given >out &
    reader=$!
    # timeout hands the signal on to the script alone, which hears it even where the tests are deaf to it, as under nohup.
    timeout --foreground "$limit" "$wrapper" <fed >given 2>err &
    waited=$!
    exec 4>fed
    head -c 85 whole >&4
    for ((i = 0; i < limit * 20; i++)); do [ -s out ] && break; sleep 0.05; done
    is "./replay: it waits for more" [ "$(cat out)" = "W 7" ]
    kill -s "$signal" "$waited"
    wait "$waited" 2>wait.log
    is "./replay: $signal ends it" [ $? -eq $((128 + $(kill -l "$signal"))) ]
    wait "$reader"
    is "./replay: and the program, after $signal" [ $? -eq 0 ]
    exec 4>&-
done

# ---- ./replay: the build, by an rt that proves nothing. Like the true one, it starts a process that does
# not hear Ctrl-C, leaves behind what it has made so far when it is ended, and writes a stamp last.
mkdir false
cat >false/rt <<'END'
#!/bin/sh
[ "$1" = run ] || exec "$TRUE_RT" "$@"
echo "$* in ${PWD##*/crates/}" >>"$WORK/calls"
rm -f out/replay.stamp
echo 'fn a::b: proved'
echo 'logic=proved functions=1'
head -c 1000 "$BINARY" >out/replay
chmod +x out/replay
if [ "$(cat "$WORK/does")" = waits ]; then
    exec 8>"$WORK/given"
    sleep 1000 &
    echo 'logic=proved functions=2'
    wait
fi
echo 'logic=proved functions=2'
if [ "$(cat "$WORK/does")" = fails ]; then
    echo 'fn replay::b: no proof: expected a measure'
    exit 1
fi
cp "$BINARY" out/replay
echo 'logic=proved functions=3'
: >out/replay.stamp
echo 'rt: running out/replay; to give it other input, run that file yourself'
END
chmod +x false/rt
TRUE_RT=$(command -v rt || echo rt)
export TRUE_RT WORK=$work BINARY=$binary PATH=$work/false:$PATH
notice='replay: building the program with its proofs, once; this takes some minutes'
builds() { # DOES: by an rt that does so, from nothing
    rm -rf new calls
    clone new
    wrapper=$work/new/replay
    echo "$1" >does
}
called() { [ "$(wc -l <calls)" -eq "$1" ]; }
builds well
replay --help
is "./replay: help needs no build" [ "$status" -eq 0 -a ! -e calls -a ! -e new/target ]
replay whole
is "./replay: the first use builds, and says so in one line" [ "$status" -eq 0 -a "$(cat err)" = "$notice" ]
is "./replay: and then replays" cmp -s out whole.lines
is "./replay: what it is called for" [ "$(cat calls)" = "run in replay" ]
replay whole
is "./replay: the second does not" wrote whole.lines
is "./replay: so that it is built once" called 1
touch new/crates/a/src/lib.rt
replay whole
is "./replay: a source that is newer is built" called 2
is "./replay: and replayed by" cmp -s out whole.lines
rm new/target/replay.built
replay whole
is "./replay: what rt built needs no build" wrote whole.lines
builds well
replay whole
rm new/crates/replay/out/replay.stamp
head -c 1000 "$binary" >new/crates/replay/out/replay
replay whole
is "./replay: what another build has only begun is built" called 2
is "./replay: before it is run" cmp -s out whole.lines
builds fails
replay whole
is "./replay: a build that fails" [ "$status" -eq 1 -a ! -s out ]
is "./replay: it says where to look" \
    [ "$(cat err)" = "$notice"$'\n'"replay: the program is not proved or not built: $work/new/target/replay.log says why" ]
is "./replay: and why is there" grep -qxF 'fn replay::b: no proof: expected a measure' new/target/replay.log
replay whole
is "./replay: and it is tried again" called 2
builds waits
timeout "$limit" cat given >held &
reader=$!
"$wrapper" whole >out 2>err &
waited=$!
for ((i = 0; i < limit * 20; i++)); do grep -qs '^logic=proved functions=2' new/target/replay.log && break; sleep 0.05; done
kill -s TERM "$waited"
wait "$waited" 2>wait.log
is "./replay: TERM ends a build" [ $? -eq 143 ]
wait "$reader"
is "./replay: and the prover" [ $? -eq 0 ]
echo well >does
replay whole
is "./replay: what it left is built again" called 2
is "./replay: before it is run" cmp -s out whole.lines
export PATH=${PATH#*:}
wrapper=$work/home/replay

# ---- settings that a shell cannot make: terminals, and pipes that do not wait
if command -v rustc >which 2>&1; then
    rustc -O --edition 2021 "$here/setting.rs" -o setting || exit 1
    { sleep 0.3; cat many; } | ./setting nonblocking timeout "$limit" "${tested[@]}" 2>err | { sleep 0.5; cat; } >out
    status=${PIPESTATUS[1]}
    is "pipes that do not wait lose nothing" wrote many.lines
    for watched in "${tested[*]}" "$wrapper"; do
        read -r -a words <<<"$watched"
        setting watched "${words[@]}" long
        is "a terminal is told how much was read" grep -q 'replay: 3 MB read' err
        is "and nothing of it stays" emptied 24
        is "the lines are the same" cmp -s out long.lines
        setting watched "${words[@]}" many
        is "short work shows nothing" wrote many.lines
        setting watched "${words[@]}" missing
        is "an error is one line there too" [ "$(tr -d '\r' <err)" = "replay: cannot read 'missing' $hint: No such file or directory" ]
    done
    waits='replay: waits for a trace on standard input: name a file to replay that one, or end the input by Ctrl-D'
    setting typing "$waits" $'\004' "$wrapper"
    is "./replay: on a terminal it says that it waits" [ "$(tr -d '\r' <err)" = "$waits" ]
    is "./replay: and the end of nothing is its end" [ "$status" -eq 0 -a ! -s out ]
    setting typing "$waits" $'\003' "$wrapper"
    is "./replay: Ctrl-C ends it and the program" [ "$status" -eq 130 ]
    setting typing "$waits" $'\003' "$wrapper" whole
    is "./replay: a file is not waited for" wrote whole.lines
    export PATH=$work/false:$PATH
    builds well
    setting watched "$wrapper" whole
    for count in 0 1 2 3; do is "./replay: $count of 3 crates are proved" grep -q "replay: building with its proofs: $count of 3 crates" err; done
    is "./replay: on one line" [ "$(tr -cd '\n' <err | wc -c)" -eq 0 ]
    is "./replay: of which nothing stays" emptied 70
    is "./replay: then it replays" [ "$status" -eq 0 -a "$(cat out)" = "$(cat whole.lines)" ]
    builds waits
    timeout "$limit" cat given >held &
    reader=$!
    setting typing '2 of 3 crates' $'\003' "$wrapper" whole
    is "./replay: Ctrl-C ends a build" [ "$status" -eq 130 -a ! -s out ]
    wait "$reader"
    is "./replay: and the prover, which does not hear it" [ $? -eq 0 ]
    is "./replay: nothing of the line stays" emptied 70
    echo well >does
    replay whole
    is "./replay: what it left is built anew" called 2
    is "./replay: and run then" cmp -s out whole.lines
else
    skip 27 "settings that a shell cannot make: they need rustc"
fi

# ---- calls that are cut short or broken off
if [ "$(uname -m)" = x86_64 ] && command -v rustc >which 2>&1; then
    rustc -O --edition 2021 --crate-type cdylib "$here/faults.rs" -o faults.so || exit 1
    for plan in short "intr ok" "again ok" "intr again intr again short ok" "again intr short again intr short intr intr again ok"; do
        faulty "$plan" whole
        is "calls that go: $plan" wrote whole.lines
        is "their mark: $plan" marked 'done'
        faulty "short short short $plan" many
        is "calls that go: three short, $plan, over many lines" wrote many.lines
    done
    faulty short many
    is "every call moves one byte" wrote many.lines
    faulty "ok ok ok ok eio" many
    is "a read that fails at last" said "replay: cannot read 'many': Input/output error"
    is "after whole lines only" cmp -s out <(head -n "$(wc -l <out)" many.lines)
    is "and some" [ -s out ]
    is "without a mark" marked ''
    faulty eio whole
    is "a first read that fails" only_said "replay: cannot read 'whole': Input/output error"
    is "has none" marked ''
    faulty "ok nospc" whole
    is "a write that fails" only_said "$full: No space left on device"
    is "nor has it" marked ''
    faulty "ok nospc ok" whole
    is "even where the next would go" marked ''
else
    skip 25 "calls that fail by a plan: they need x86-64 and rustc"
fi

close_count "$passed" "$failed" "$due"
