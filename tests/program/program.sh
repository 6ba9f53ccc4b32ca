#!/bin/sh
# Tests of the built program, ./bsonfind, over pipes and devices, with little memory, and as make installs it: standard output, standard
# error and exit statuses. What one run says of files and arguments is in tests/rows. A line for each test; the last line is
# 'N passed, M failed', and the status is 0 where nothing failed.
# shellcheck disable=SC2016 # $numberInt and others are names
set -u
cd "$(dirname "$0")/../.." || exit 1
root=$PWD
program=$root/bsonfind
tokens=$root/tests/program/tokens.py
people=$root/examples/people
shop=$root/examples/shop
room=$(mktemp -d) || exit 1
trap 'rm -rf "$room"' EXIT
cd "$room" || exit 1
passed=0
failed=0

# Runs the program, and keeps what it writes and how it ends.
run() {
	"$program" "$@" >out 2>err
	echo $? >status
}

# The same with both streams in one file, with a full standard output, and with a full standard error.
together() {
	"$program" "$@" >out 2>&1
	echo $? >status
	: >err
}
to_full() {
	"$program" "$@" >/dev/full 2>err
	echo $? >status
	: >out
}
mute() {
	"$program" "$@" >out 2>/dev/full
	echo $? >status
	: >err
}

# The bytes that are wanted: none, those of the file that @ names, or the text and a newline.
wanted() {
	case $1 in
	'') ;;
	@*) cat "${1#@}" ;;
	*) printf '%s\n' "$1" ;;
	esac
}

# expect NAME STATUS OUT ERR: the last run ended with that status, and wrote OUT to standard output and ERR to standard
# error, byte for byte.
expect() {
	wanted "$3" >wanted_out
	wanted "$4" >wanted_err
	status=$(cat status)
	if [ "$status" = "$2" ] && cmp -s out wanted_out && cmp -s err wanted_err; then
		printf 'ok: %s\n' "$1"
		passed=$((passed + 1))
	else
		printf 'FAILED: %s: status %s, wanted %s\n' "$1" "$status" "$2"
		diff wanted_out out | head -n 5
		diff wanted_err err | head -n 5
		failed=$((failed + 1))
	fi
	rm -f out err status
}

# told COUNT end|more FILE LAST [OPTION..]: the line that counts the first documents of an answer, the last of which has that
# number in the file. The token is made by another program.
told() {
	told_count=$1 told_end=$2 told_file=$3 told_last=$4
	shift 4
	echo "$told_count documents, $told_end, token $("$tokens" "$told_file" "$told_count" "$told_last" "$@")"
}

# The four bytes of a length.
length() {
	printf '%b' "\\0$(printf %o $(($1 % 256)))\\0$(printf %o $(($1 / 256)))\\0\\0"
}

# So many documents, each the field `a` of the one outside it, the innermost empty.
nested() {
	inside=$1
	while [ "$inside" -gt 0 ]; do
		inside=$((inside - 1))
		length $((8 * inside + 5))
		[ "$inside" -eq 0 ] || printf '\003a\000'
	done
	dd if=/dev/zero bs=1 count="$1" 2>/dev/null
}

# A text so many times.
copies() {
	left=$1
	while [ "$left" -gt 0 ]; do
		printf '%s' "$2"
		left=$((left - 1))
	done
}

# So many spaces.
spaces() {
	dd if=/dev/zero bs="$1" count=1 2>/dev/null | tr '\000' ' '
}

# Waits until a file has so many lines, ten seconds at most.
await_lines() {
	tries=100
	while [ "$(grep -c '' "$1")" -lt "$2" ] && [ "$tries" -gt 0 ]; do
		sleep 0.1
		tries=$((tries - 1))
	done
}

# Ends a run in the background whose input is held open as 3, and whose output was copied.
let_go() {
	exec 3>&-
	wait $!
	echo $? >status
}

# Puts bytes, in the form of printf, over those at a place of damaged.bson.
damage() {
	# shellcheck disable=SC2059 # the bytes are the form
	printf "$2" | dd of=damaged.bson bs=1 seek="$1" conv=notrunc 2>/dev/null
}

int32='{"a":{"$numberInt":"1"}}'
printf '\014\000\000\000\020a\000\001\000\000\000\000' >int32.bson
printf '\014\000\000\000\002s\000\000\000\000\000\000' >bad.bson
cat int32.bson bad.bson >one_bad.bson
printf '{"a":1}\n{"a":1.5}\n' >one_bad.jsonl
for number in 0 1 2 3 4; do echo "{\"a\":$number}"; done | "$program" pack - >five.bson 2>err
bad='document 0, byte 7, path "s": bad string length'
second_bad='bsonfind: document 1, byte 19, path "s": bad string length'
unwritten='bsonfind: cannot write'
one=$(told 1 end int32.bson 0 --query '{"a":1}')

# Standard input, and pipes.

run dump - <"$people.bson"
expect 'a file as standard input' 0 "@$people.jsonl" '500 objects found'

dd if="$people.bson" bs=1 2>/dev/null | run dump -
expect 'a pipe, one byte at a time' 0 "@$people.jsonl" '500 objects found'

"$program" pack "$shop.jsonl" 2>/dev/null | run dump -
expect 'a dump of what was packed is the text again' 0 "@$shop.jsonl" '400 objects found'

# The long one does not fit beside what waits, nor what waits beside it.
{ echo "$int32" && printf '{"a":"' && copies 20000 '\u0001' && printf '"}\n' && echo "$int32"; } >three.jsonl
"$program" pack three.jsonl 2>/dev/null | run dump -
expect 'a line of 120,008 bytes between short ones' 0 @three.jsonl '3 objects found'

mkfifo pipe
"$program" dump pipe >live 2>err &
exec 3>pipe
cat int32.bson >&3
await_lines live 1
cp live out
let_go
expect 'a line before the program waits for more' 0 "$int32" '1 objects found'

# The pipe stays open, and holds the front of a third document, until the two lines are copied.
"$program" dump - >live 2>err <pipe &
exec 3>pipe
cat int32.bson >&3
await_lines live 1
cp live out
{ cat int32.bson && printf '\014\000\000\000\020'; } >&3
await_lines live 2
cat live >>out
let_go
expect 'a line for each document that came' 1 "$int32
$int32
$int32" 'bsonfind: document 2, byte 24, path "": bad length
2 objects found'

"$program" check - >live 2>err <pipe &
exec 3>pipe
cat bad.bson >&3
await_lines live 1
cp live out
let_go
expect 'a line of a check before the program waits for more' 1 "$bad" '1 documents, 1 faulty'

"$program" serve five.bson >live 2>err <pipe &
exec 3>pipe
echo '{"find":{}}' >&3
await_lines live 1
cp live out
let_go
first='{"ok":true,"cursor":{"$numberLong":"1"}}'
expect 'a reply before the program waits for more' 0 "$first" ''

# A damaged file.

cp "$shop.bson" damaged.bson
chmod u+w damaged.bson
damage 90 '\002'                    # document 0: the byte of a boolean
damage 415 '\001'                   # document 1: the type of a field of an array's element
damage 814 '\377'                   # document 2: the second byte of a pattern
damage 1139 '\001'                  # document 3: its last byte
damage 1536 '\015'                  # document 4: the length of code with scope
damage 127644 '\377\377\377\177'    # document 399: its own length
run check damaged.bson
expect 'a check of a damaged file' 1 'document 0, byte 90, path "customer.vip": bad boolean
document 1, byte 415, path "items.2.qty": double
document 2, byte 814, path "match": not UTF-8
document 3, byte 1139, path "": no terminator
document 4, byte 1536, path "code": bad scope length
document 399, byte 127644, path "": bad length' '400 documents, 6 faulty'

# Both streams into one file: the lines stand before what is told of them.

together dump one_bad.bson
expect 'a dump into one file' 1 "$int32
$second_bad
1 objects found" ''

together check bad.bson
expect 'a check into one file' 1 "$bad
1 documents, 1 faulty" ''

together find int32.bson --query '{"a":1}'
expect 'find into one file' 0 "$int32
$one" ''

together pack one_bad.jsonl
{ cat int32.bson && printf 'bsonfind: line 2, byte 5: not in the profile\n1 objects packed\n'; } >packed_and_told
expect 'lines packed into one file' 1 @packed_and_told ''

{ printf '{"find":{}}\n{"killCursor":1}' && spaces 16777217; } >long_line
together serve five.bson <long_line
expect 'a session into one file' 1 "$first"'
bsonfind: input too long' ''

# Little memory. 262 MB through a pipe, in 48 MiB.

nested 200 >nested.bson
# shellcheck disable=SC3045 # each sh that is in use has -s
(ulimit -s 1024 && run dump nested.bson)
expect '200 levels in 1 MiB of stack' 0 "$(copies 199 '{"a":'){}$(copies 199 '}')" '1 objects found'

# Where the system does not let the stack grow, a program has 132 KiB of it. The words of the environment are there too.
in_96_kib() {
	# shellcheck disable=SC3045 # each sh that is in use has -s
	ulimit -s 96
	env -i "$@" >out 2>err
	echo $? >status
}
(in_96_kib "$program" find int32.bson --query '{"a":1}' --sort '{"a":1}' --index a)
expect 'find in 96 KiB of stack' 0 "$int32" "$(told 1 end int32.bson 0 --query '{"a":1}' --sort '{"a":1}')"
echo '{"find":{}}' | (in_96_kib "$program" serve five.bson)
expect 'serve in 96 KiB of stack' 0 "$first" ''
not_json='{"ok":false,"layer":"json","number":{"$numberInt":"1"},"text":"not JSON","at":{"$numberLong":"8"}}'
for name in bsonfind bsonwide; do
	(in_96_kib "$root/$name" find - --query '{"a":') <int32.bson
	expect "$name: a bad query in 96 KiB of stack" 1 '' "$name: query: byte 5: not JSON"
	printf '{"find":\n{"find":{}}\n' | (in_96_kib "$root/$name" serve five.bson)
	expect "$name: a bad command in 96 KiB of stack" 0 "$not_json
$first" ''
	echo '{"a":' | (in_96_kib "$root/$name" pack -)
	expect "$name: a bad line in 96 KiB of stack" 1 '' "$name: line 1, byte 5: not JSON
0 objects packed"
done
double='{"a":{"$numberDouble":"1.5"}}'
echo "$double" | "$root/bsonwide" pack - >double.bson 2>pack_err
(in_96_kib "$root/bsonwide" find - --query '{"a":{"$gt":1}}' --sort '{"a":1}' --bson) <double.bson
: >err # its token is in tests/program/tokens.txt
expect 'bsonwide: find by value in 96 KiB of stack' 0 @double.bson ''
echo '{"find":{"a":1.5},"sort":{"a":1}}' | (in_96_kib "$root/bsonwide" serve double.bson)
expect 'bsonwide: serve by value in 96 KiB of stack' 0 "$first" ''

cp "$shop.bson" some.bson
doublings=6
while [ "$doublings" -gt 0 ]; do
	cat some.bson some.bson >twice.bson
	mv twice.bson some.bson
	doublings=$((doublings - 1))
done

# So many copies of some.bson.
large() {
	left=$1
	while [ "$left" -gt 0 ]; do
		cat some.bson
		left=$((left - 1))
	done
}

# shellcheck disable=SC3045 # each sh that is in use has -v
large 32 | (
	ulimit -v 49152
	"$program" dump - 2>err
	echo $? >status
) | wc -l >out
expect 'a large dump in little memory' 0 819200 '819200 objects found'

# shellcheck disable=SC3045 # each sh that is in use has -v
large 32 | (ulimit -v 49152 && run check -)
expect 'a large check in little memory' 0 '' '819200 documents, 0 faulty'

# 64 MB of commands in 48 MiB of memory.
# shellcheck disable=SC3045 # each sh that is in use has -v
{
	lines=64
	while [ "$lines" -gt 0 ]; do
		spaces 1000000
		echo '{"find":{}}'
		lines=$((lines - 1))
	done
	printf '{"find":{}}\n{"killCursor":64}\n'
} | (ulimit -v 49152 && run serve five.bson)
tail -n 3 out >ends
mv ends out
expect 'many long commands in little memory' 0 '{"ok":true,"cursor":{"$numberLong":"64"}}
{"ok":false,"layer":"session","number":{"$numberInt":"5"},"text":"too many cursors"}
{"ok":true}' ''

# A session. A command is a line of standard input, and its reply one of standard output. tests/program/talk.py talks with one.

# Each command, and below it the reply.
talk=$root/tests/program/talk.txt
sed -n 'p;n' "$talk" >commands
sed -n 'n;p' "$talk" >replies
printf '{"a":[5,7,5]}\n{"a":5}\n' | "$program" pack - >several.bson 2>err

run serve several.bson <commands
expect 'a session' 0 @replies ''

dd if=commands bs=1 2>/dev/null | run serve several.bson
expect 'commands through a pipe, one byte at a time' 0 @replies ''

printf '%s' "$(cat commands)" | run serve several.bson
expect 'a last command without its newline' 0 @replies ''

{
	printf '\n \t\r\n\r\n'
	while read -r command; do
		printf ' %s \r\n \n\t\t\n\n' "$command"
	done <commands
	printf ' \t\r'
} | run serve several.bson
expect 'lines of white space passed over between commands' 0 @replies ''

# Where there is no dump no command is read: all are there for the next program.
for dump in one_bad.bson . missing.bson; do
	case $dump in
	one_bad.bson) said=$second_bad ;;
	.) said='bsonfind: cannot read' ;;
	*) said="bsonfind: cannot open $dump" ;;
	esac
	{
		run serve "$dump"
		cat >>out
	} <commands
	expect "a session over $dump" 1 @commands "$said"
done

run serve five.bson <.
expect 'commands of a directory' 1 '' 'bsonfind: cannot read'

to_full serve several.bson <commands
expect 'a session, and a full standard output' 1 '' "$unwritten"

mute serve several.bson <commands
expect 'a session, and a full standard error' 0 @replies ''

mute serve five.bson <long_line
expect 'a line that is too long, and a full standard error' 1 "$first" ''

: >ended
{
	"$program" serve five.bson <pipe >/dev/full 2>err
	echo $? >ended
} &
exec 3>pipe
echo '{"find":{}}' >&3
await_lines ended 1
cp ended status
exec 3>&-
wait $!
: >out
expect 'a full standard output ends a session before it waits for more' 1 '' "$unwritten"

# Devices that fail.

to_full pack "$people.jsonl"
expect 'a full standard output, of lines packed' 1 '' "$unwritten"

mute pack "$people.jsonl"
expect 'a full standard error, of lines packed' 1 "@$people.bson" ''

to_full check bad.bson
expect 'a check, and a full standard output' 1 '' "$unwritten"

mute check bad.bson
expect 'a check, and a full standard error' 1 "$bad" ''

to_full dump "$people.bson"
expect 'a full standard output' 1 '' "$unwritten"

{
	"$program" dump "$people.bson" 2>err
	echo $? >status
} | :
: >out
expect 'a closed pipe as standard output' 1 '' "$unwritten"

mute dump "$people.bson"
expect 'a full standard error' 1 "@$people.jsonl" ''

# A file that takes a part of what is written and then no more: what it holds is a front of the whole, and the program asks
# for no other write. The first limit is inside the first 65,536 bytes, the second inside the last write.
broken() {
	name=$1 blocks=$2
	shift 2
	"$program" "$@" >whole 2>/dev/null
	(
		trap '' XFSZ
		ulimit -f "$blocks"
		run "$@"
	)
	head -c "$(wc -c <out)" whole >front
	if [ -s out ] && [ "$(wc -c <out)" -lt "$(wc -c <whole)" ]; then
		expect "$name" 1 @front 'bsonfind: cannot write'
	else
		expect "$name" 1 'a front' 'bsonfind: cannot write'
	fi
}
broken 'lines cut off in a first write' 20 dump "$people.bson"
broken 'lines cut off in a last write' 260 dump "$people.bson"
broken 'documents cut off in a first write' 20 pack "$people.jsonl"
broken 'documents cut off in a last write' 180 pack "$people.jsonl"

# A few lines wait in the program's memory, so that a standard output that is full shows only when they are handed on.

to_full dump int32.bson
expect 'a full standard output, and one line' 1 '' "$unwritten"

to_full dump one_bad.bson
expect 'a full standard output, and a line before a fault' 1 '' "$unwritten"

to_full check one_bad.bson
expect 'a full standard output, and one line of a check' 1 '' "$unwritten"

to_full find int32.bson --query '{"a":1}'
expect 'a full standard output, and one line of find' 1 '' "$unwritten"

to_full find five.bson --after "$("$tokens" five.bson 1 9)"
expect 'the place of a token, before a write' 1 '' 'bsonfind: token: token place past the dump'

to_full pack one_bad.jsonl
expect 'a full standard output, and one line packed before a bad one' 1 '' "$unwritten"

to_full --help
expect 'a request for help, and a full standard output' 1 '' "$unwritten"

to_full dump - </dev/null
expect 'a full standard output, and nothing to write' 0 '' '0 objects found'

mute dump int32.bson
expect 'a full standard error, and one line' 1 "$int32" ''

"$program" dump int32.bson >/dev/full 2>/dev/full
echo $? >status
: >out
: >err
expect 'both outputs full' 1 '' ''

"$program" dump int32.bson >&- 2>err
echo $? >status
: >out
expect 'a closed standard output, and one line' 1 '' "$unwritten"

# The file would have the number of standard input, and commands be read from it.
run serve int32.bson <&-
expect 'a closed standard input' 1 '' 'bsonfind: cannot read'

run dump int32.bson <&-
expect 'a closed standard input that is not read' 0 "$int32" '1 objects found'

# shellcheck disable=SC2094 # it is a pipe
exec 3<>pipe 4>pipe 3>&-
"$program" dump int32.bson >&4 2>err
echo $? >status
exec 4>&-
: >out
expect 'a closed pipe as standard output, and one line' 1 '' "$unwritten"

: >ended
{
	"$program" dump pipe >/dev/full 2>err
	echo $? >ended
} &
exec 3>pipe
cat int32.bson >&3
await_lines ended 1
cp ended status
exec 3>&-
wait $!
: >out
expect 'a full standard output ends a dump before it waits for more' 1 '' "$unwritten"

# What make puts in place, of the programs that are there.

# With a word: install or uninstall.
installed() {
	MAKEFLAGS='' make -s -C "$(dirname "$program")" "$1" DESTDIR="$room/root" PREFIX=/usr >/dev/null 2>err
	echo $? >status
	(cd root && find . -type f | sort) >out
}

# The files of the package of Python, where this one looks for them.
packages=$("$root/tools/packages.py" /usr)
info=bsonfind-$(cat "$root/VERSION").dist-info
package=$(cd "$root/python" && printf ".$packages/%s\n" "$info/INSTALLER" "$info/METADATA" bsonfind/*.py bsonfind/*/*.py bsonfind/py.typed bsonfind/VERSION | sort)
documents=$(cd "$root" && printf './usr/share/doc/bsonfind/%s\n' CHANGELOG.md CONTRIBUTING.md LICENSE README.md SECURITY.md docs/*.md docs/*.svg examples/* python/README.md | sort)

installed install
expect 'make install' 0 "./usr/bin/bsonfind
./usr/bin/bsonkit
./usr/bin/bsonwide
$package
./usr/share/bash-completion/completions/bsonfind
./usr/share/bash-completion/completions/bsonkit
./usr/share/bash-completion/completions/bsonwide
$documents
./usr/share/fish/vendor_completions.d/bsonfind.fish
./usr/share/fish/vendor_completions.d/bsonkit.fish
./usr/share/fish/vendor_completions.d/bsonwide.fish
./usr/share/man/man1/bsonfind.1
./usr/share/man/man1/bsonkit.1
./usr/share/man/man1/bsonwide.1
./usr/share/zsh/site-functions/_bsonfind
./usr/share/zsh/site-functions/_bsonkit
./usr/share/zsh/site-functions/_bsonwide" ''

installed uninstall
expect 'make uninstall' 0 '' ''

echo "$passed passed, $failed failed"
[ "$failed" -eq 0 ]
