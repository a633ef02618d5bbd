#!/usr/bin/env bash
# The manners of ./trace: tests/trace.sh [TRACE]. How it is called, by links too, and built; what it takes and refuses, what it
# says then and with which status it ends; terminals; long inputs in little memory. What a line may be is for agreement/text.
# The last line is 'N passed, M failed'.
set -uo pipefail
export LC_ALL=C
here=$(cd "$(dirname "$0")" && pwd -P)
tool=$(readlink -f "${1:-$here/../trace}")
flight=$(readlink -f "$here/../examples/flight.trace")
source "$here/../agreement/common"
source "$here/common"
work=$(mktemp -d) || exit 1
trap 'rm -rf "$work"' EXIT
cd "$work" || exit 1

limit=60
memory=32768 # KiB of addresses: what it may take, however long the input is
due=116

# Runs a command within the limits; what it wrote is in out and err, and how it ended in status.
within() {
    (ulimit -v "$memory" && exec timeout "$limit" "$@") >out 2>err
    status=$?
}
run() { within "$tool" "$@"; }

# It ended well, wrote the file's bytes, and said nothing.
wrote() { [ "$status" -eq 0 ] && cmp -s out "$1" && [ ! -s err ]; }

# It ended with the status, and said one line, which is the given one: STATUS LINE.
said() { [ "$status" -eq "$1" ] && [ "$(wc -l <err)" -eq 1 ] && [ "$(cat err)" = "$2" ]; }

# The same, and it wrote nothing.
only_said() { [ ! -s out ] && said "$@"; }

# It ended well, wrote how it is used, and said nothing.
helped() { [ "$status" -eq 0 ] && [ ! -s err ] && head -n 1 out | grep -q "^usage: ./trace $1 "; }

# It is used wrongly: the usage is on standard error, and nothing else anywhere.
misused() { [ "$status" -eq 2 ] && [ ! -s out ] && head -n 1 err | grep -q '^usage: ./trace '; }

"$tool" bytes </dev/null || { echo "FAILED: it is not built"; exit 1; }
program=$(dirname "$tool")/target/second/second
rustc -O --edition 2021 "$here/setting.rs" -o setting || exit 1

# ---- inputs
cp "$flight" flight || exit 1
cp "${flight%.trace}.text" told
"$program" text flight >flight.text
: >nothing
printf 'plan\nplan\n' >two.text
printf '\006\006' >two
mkdir folder
cp flight ./-x
cp flight ./-

# ---- where the input comes from
run text flight
is "a trace that is named" wrote flight.text
run text <flight
is "standard input where none is named" wrote flight.text
run text - <flight
is "standard input as -" wrote flight.text
run text -- - <flight
is "standard input as - behind --" wrote flight.text
run text -- flight
is "a name behind --" wrote flight.text
run text -- -x
is "a name that looks like an option" wrote flight.text
run text ./-
is "a file with the name -" wrote flight.text
run bytes flight.text
is "a text that is named" wrote flight
run bytes told
is "the same with its comments" wrote flight
run bytes - <flight.text
is "a text from standard input" wrote flight
run text nothing
is "an empty trace" wrote nothing
run bytes nothing
is "an empty text" wrote nothing
run bytes < <(printf pla; sleep 0.2; printf 'n\nplan')
is "a line that comes in pieces" wrote two
run text < <(head -c 60 flight; sleep 0.2; tail -c +61 flight)
is "a record that comes in pieces" wrote flight.text
name=$(printf 'no\377text')
cp two.text "$name"
run bytes "$name"
is "a name that is no text" wrote two

# ---- by links, from any folder
mkdir -p links/deep
ln -s "$tool" links/absolute
ln -s ../absolute links/deep/relative
ln -s links/deep/relative chain
for link in "$work/links/absolute" links/absolute links/deep/relative ./chain; do
    within "$link" text flight
    is "by the link $link" wrote flight.text
done
(cd links/deep && ./relative text ../../flight >out 2>err && cmp -s out ../../flight.text && [ ! -s err ])
is "by a link from its own folder" [ $? -eq 0 ]
PATH=$work/links:$PATH within absolute text flight
is "by a link on PATH" wrote flight.text
(cd / && CDPATH=$work exec timeout "$limit" "$tool" text "$work/flight") >out 2>err
status=$?
is "from any folder" wrote flight.text

# ---- help, and words that are wrong
for words in help -h --help; do
    run $words
    is "$words" helped text
done
for words in 'text --help' 'text -h' 'bytes --help' 'bytes -h' 'text missing --help' 'bytes --help one two'; do
    run $words
    is "$words" helped "${words%% *}"
done
for words in '' replay Text -x '-- text'; do
    run $words
    is "no command in '$words'" misused
done
more='(./trace text --help says what there is)'
run text -x
is "an unknown option" only_said 2 "trace: unknown option '-x' $more"
run text flight --all
is "an unknown option behind the name" only_said 2 "trace: unknown option '--all' $more"
run text flight flight
is "two names" only_said 2 "trace: too many arguments: name one file, or none $more"
run bytes -- - two.text
is "two names behind --" only_said 2 "trace: too many arguments: name one file, or none ${more/text/bytes}"
run text -- --help
is "help behind -- is a name" only_said 1 'trace: --help: No such file or directory'

# ---- inputs that cannot be read
for command in text bytes; do
    run $command missing
    is "$command: a missing file" only_said 1 'trace: missing: No such file or directory'
    run $command folder
    is "$command: a folder" only_said 1 'trace: folder: Is a directory'
    run $command ''
    is "$command: an empty name" only_said 1 'trace: : No such file or directory'
    run $command flight/inside
    is "$command: a file as a folder" only_said 1 'trace: flight/inside: Not a directory'
    run $command <&-
    is "$command: standard input is closed" only_said 1 'trace: standard input: Bad file descriptor'
    run $command <folder
    is "$command: standard input is a folder" only_said 1 'trace: standard input: Is a directory'
done
run text "$(printf 'two\nlines\033[2J')"
is "a name that would break the line" only_said 1 'trace: two?lines?[2J: No such file or directory'
run text flight <&-
is "standard input is closed, and not asked for" wrote flight.text
cp flight secret
chmod 000 secret
if [ "$(id -u)" -ne 0 ]; then
    run text secret
    is "a file that may not be read" only_said 1 'trace: secret: Permission denied'
elif cp "$program" runner && chmod 755 . runner && setpriv --reuid=65534 --regid=65534 --clear-groups ./runner text nothing 2>err; then
    within setpriv --reuid=65534 --regid=65534 --clear-groups ./runner text secret
    is "a file that may not be read" only_said 1 'trace: secret: Permission denied'
else
    skip 1 "a file that may not be read: root may read any"
fi

# ---- bad nodes
node_37=$here/../cases/refusal-21-among-60-nodes.text
sed 's/ *#.*//; /^$/d' "$node_37" | sed "s/^node 41 100\$/& # refusal 21 37: the parent's number is not smaller/" >told.37
run bytes "$node_37"
mv out made
run text made
is "a bad node among 60 is named" wrote told.37
run bytes told.37
is "and the comment changes no byte" wrote made
run text < <(printf '\001\000\144\000\001\002'; sleep 0.2; printf '\144\000')
printf "node 0 100\nnode 2 100 # refusal 21 2: the parent's number is not smaller\n" >told.2
is "a bad node that comes in pieces" wrote told.2
run text < <(printf '\001\000\000\000\001\002')
printf 'node 0 0 # refusal 22 1: the weight is not 1 to 10,000\nraw 0102 # refusal 17: the trace ends inside a record\n' >told.1
is "a bad node before a cut record" wrote told.1

# ---- bad lines
printf 'plan\n# a comment\nplans\n' >bad.text
reason="unknown word 'plans': a line begins with node, model, start, bio, tick, plan, vrate, weight or raw"
run bytes bad.text
is "a bad line of a file" only_said 1 "trace: bad.text: line 3: $reason"
run bytes <bad.text
is "a bad line of standard input" only_said 1 "trace: standard input: line 3: $reason"
run bytes < <(printf 'plan\n\033[2J\n')
is "a bad word that would steer a terminal" only_said 1 \
    "trace: standard input: line 2: unknown word '?[2J': a line begins with node, model, start, bio, tick, plan, vrate, weight or raw"
run bytes < <(printf 'tick %.0s' 1; printf '7%.0s' {1..300})
is "a long bad word is said in part" only_said 1 \
    "trace: standard input: line 1: time: $(printf '7%.0s' {1..40}).. is too large, at most 18446744073709551615"

# ---- outputs that cannot be written
for words in 'text flight' 'bytes two.text' 'text --help'; do
    timeout "$limit" "$tool" $words >/dev/full 2>err
    status=$?
    is "$words to a full device" said 1 'trace: standard output: No space left on device'
    timeout "$limit" "$tool" $words >&- 2>err
    status=$?
    is "$words to a closed output" said 1 'trace: standard output: Bad file descriptor'
done
for to in /dev/full '&-'; do
    eval "timeout $limit '$tool' --help >$to" 2>err
    status=$?
    is "--help to $to" said 1 'trace: standard output cannot be written'
    eval "timeout $limit '$tool' text nothing >$to" 2>err
    status=$?
    is "nothing to $to" wrote nothing
done
timeout "$limit" "$tool" text missing >out 2>/dev/full
is "an error that cannot be said" [ $? -eq 1 ]
timeout "$limit" "$tool" text missing >out 2>&-
is "an error with nobody to say it to" [ $? -eq 1 ]

# ---- long inputs: some tens of MB in little memory
line='bio 1 0 7 123456789 4096 #'
count=2000000 # 38 MB of trace, which are more than the memory
yes "$line" | head -n $count >long.text
size=$(wc -c <long.text)
is "the long text is longer than the memory" [ "$size" -gt $((1024 * memory)) ]
run bytes long.text
is "a long text in fixed memory" [ "$status $(wc -c <out) $(wc -c <err)" = "0 $((19 * count)) 0" ]
mv out long
run text long
is "a long trace in fixed memory" [ "$status $(wc -l <out) $(wc -c <err)" = "0 $count 0" ]
is "and each of its lines is there" [ "$(sort -u out)" = "${line%% #*}" ]
run text < <(cat long)
is "the same by a pipe" [ "$status $(wc -l <out) $(wc -c <err)" = "0 $count 0" ]
run text < <(printf '\001\001\144\000'; cat long)
is "a bad node before a long trace" [ "$status $(wc -l <out) $(wc -c <err)" = "0 $((count + 1)) 0" ]
is "is named, and nothing behind it" [ "$(grep -n '#' out)" = "1:node 1 100 # refusal 21 1: the parent's number is not smaller" ]
run text < <(yes node 0 100 | head -n $count | "$program" bytes)
is "a long trace of nodes" [ "$status $(wc -l <out) $(wc -c <err)" = "0 $count 0" ]
is "has one that is bad, the 64th" [ "$(grep -n '#' out)" = '64:node 0 100 # refusal 20 0: there are at most 64 nodes, the root counted' ]
head -c 20000000 /dev/zero >zeros
run text zeros
is "20 MB that are no trace" [ "$status $(wc -l <out) $(wc -c <err)" = "0 625000 0" ]
run bytes < <(cat long.text; echo plans)
is "a bad line behind a long text" said 1 "trace: standard input: line $((count + 1)): $reason"
is "what was made before it is whole records" [ $(($(wc -c <out) % 19)) -eq 0 ]
too_long='too long: a line has at most 65536 bytes'
run bytes < <(echo plan; tr '\0' 7 <zeros)
is "a word of 20 MB" only_said 1 "trace: standard input: line 2: $too_long"
run bytes < <(echo '# plan'; echo; printf '# '; tr '\0' 7 <zeros; echo; echo plan)
is "a comment of 20 MB" only_said 1 "trace: standard input: line 3: $too_long"
run bytes < <(tr '\0' ' ' <zeros; echo plan)
is "20 MB of spaces" only_said 1 "trace: standard input: line 1: $too_long"
run bytes < <(printf 'plan #'; head -c 65530 zeros | tr '\0' '-'; printf '\nplan')
is "a line of 65536 bytes" wrote two
run bytes < <(printf 'plan #'; head -c 65531 zeros | tr '\0' '-'; printf '\nplan')
is "a line of one byte more" only_said 1 "trace: standard input: line 1: $too_long"
run bytes < <(printf 'raw '; head -c 65532 zeros | tr '\0' 0)
head -c 32766 /dev/zero >raw
is "a raw line of 65536 bytes" wrote raw

# ---- a reader that leaves: it ends soon and quietly, with 1, since not all was written
timeout "$limit" "$tool" text long 2>err | head -n 1 >out
ended=("${PIPESTATUS[@]}")
is "a reader that leaves after a line" [ "$(cat out)" = "${line%% #*}" ]
is "is no trouble to speak of" [ "${ended[0]} $(wc -c <err)" = '1 0' ]
timeout "$limit" "$tool" bytes long.text 2>err | head -c 1 >out
ended=("${PIPESTATUS[@]}")
is "a reader that leaves after a byte" [ "${ended[0]} $(wc -c <err) $(wc -c <out)" = '1 0 1' ]

# ---- terminals
./setting typed timeout "$limit" "$tool" text >out 2>err
status=$?
is "it says what it waits for on a terminal" only_said 0 'trace: waits for a trace on standard input'
./setting typed timeout "$limit" "$tool" bytes >out 2>err
status=$?
is "and so for a text" only_said 0 'trace: waits for lines of text on standard input'
./setting typed timeout "$limit" "$tool" text - >out 2>err
status=$?
is "and where the terminal is named" only_said 0 'trace: waits for a trace on standard input'
./setting typed timeout "$limit" "$tool" text flight >out 2>err
status=$?
is "but not where a file is" wrote flight.text

blank=".$(printf 's%.0s' {1..24})."
watched() {
    ./setting watched timeout "$limit" "$tool" "$@" >out 2>err
    status=$?
}
watched text long
is "a terminal is told how much of a trace was read" grep -q 'trace: 38 MB read' err
is "in one place" [ "$(tr -cd '\n' <err | wc -c)" -eq 0 ]
is "and nothing of it stays" [ "$(tail -c 26 err | tr ' \r' 's.')" = "$blank" ]
is "the lines are the same" [ "$status $(wc -l <out)" = "0 $count" ]
watched bytes long.text
is "a terminal is told how much of a text was read" grep -q "trace: $((size / 1000000)) MB read" err
is "and nothing of that stays" [ "$(tail -c 26 err | tr ' \r' 's.')" = "$blank" ]
watched text flight
is "short work shows nothing" wrote flight.text
{ head -n 100000 long.text; echo plans; } >bad.text
watched bytes bad.text
is "an error stands on a line of its own" \
    [ "$status $(tr '\r' '\n' <err | tail -n 2 | tr '\n' '.')" = "1 trace: bad.text: line 100001: $reason.." ]
head -c 2000000 long >shorter
./setting shown timeout "$limit" "$tool" text shorter 2>err
is "nothing is shown where the list is" [ "$(tr -d '\r' <err | sort -u | grep -cv '^bio ')" -eq 1 ]

# ---- how it is built: a copy of it with another program, which says what it is given
mkdir -p copy/second/src
cp "$tool" copy/trace
one() { printf 'fn main() { println!("%s {:?}", std::env::args().skip(1).collect::<Vec<_>>()); }\n' "$1"; }
one first >copy/second/src/main.rs
timeout "$limit" copy/trace text 'a b' - -- '' >out 2>err
status=$?
echo 'first ["text", "a b", "-", "--", ""]' >first
is "it builds the program, and hands on what it is given" wrote first
sleep 1
one second >copy/second/src/main.rs
timeout "$limit" copy/trace bytes >out 2>err
status=$?
echo 'second ["bytes"]' >second
is "and again when the source is newer" wrote second
is "and leaves nothing else there" [ "$(ls copy/target/second)" = second ]
sleep 1
echo 'fn main() {' >copy/second/src/main.rs
timeout "$limit" copy/trace text flight >out 2>err
status=$?
is "a program that does not compile" [ "$status $(tail -n 1 err)" = '1 trace: the second program does not compile' ]
is "is not there" [ "$(ls copy/target/second)" = second ]
mkdir tools
for needed in sh dirname readlink find mktemp mkdir rm mv; do ln -s "$(command -v $needed)" tools/; done
PATH=$work/tools copy/trace text flight >out 2>err
status=$?
is "without rustc" only_said 1 'trace: rustc is missing: install Rust, it builds the program that reads and writes traces'

close_count "$passed" "$failed" "$due"
