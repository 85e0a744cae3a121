#!/usr/bin/env bash
# Runs gclgrep from outside: what is written of files and of standard input, each refusal with its message and status, and that nothing is
# written if the query is refused.
program=gclgrep
. "$(dirname "$0")/common.sh"
printf 'to be or not to be' > a
printf '' > e
printf '<p>One two</p>\n<p>three\nfour <br/> five</p>\n' > t
failed=0
# expect STATUS OUTPUT MESSAGE WORD..: standard input is that of the caller, and MESSAGE is the beginning of standard error
expect() {
  local status=$1 output=$2 message=$3 got
  shift 3
  got=0
  "$gclgrep" "$@" > out 2> err || got=$?
  if [ "$got" != "$status" ] || [ "$(cat out; echo .)" != "$(printf '%b.' "$output")" ] || [ "$(head -c ${#message} err)" != "$message" ]; then
    echo "gclgrep $*: status $got, output:" >&2
    cat out err >&2
    failed=1
  fi
}
expect 0 'a:1:to be or not to be\n' '' '"to".."be"' a < /dev/null
expect 0 '(standard input):1:to be\n' '' -o '"to".."be"' <<< 'to be'
expect 0 '(standard input):1\na:2\n' '' -c '"to"' - a <<< 'to be'
expect 1 '' '' '"xyzzy"' a e t < /dev/null
expect 2 'a:2\na:2\n' 'gclgrep: missing: ' -c '"to"' a missing a < /dev/null
expect 2 'a:2\n' '' -s -c '"to"' a missing < /dev/null
expect 2 '' 'gclgrep: query at 7: operand expected' '"to" ..' a < /dev/null
expect 2 '' 'gclgrep: query at 0: unknown name' '$y' a < /dev/null
expect 2 '' 'gclgrep: $line: query at 0: empty term' -d 'line=""' '"to"' a < /dev/null
expect 2 '' 'usage: gclgrep' -o -c '"a"' a < /dev/null
expect 2 '' 'usage: gclgrep' < /dev/null
expect 2 '' 'usage: gclgrep' -m x '"a"' a < /dev/null
expect 2 '' 'usage: gclgrep' -t 17 '"a"' a < /dev/null
expect 2 '' 'usage: gclgrep' --nothing '"a"' a < /dev/null
expect 0 '' 'gclgrep: missing: ' -q '"to"' missing a < /dev/null
expect 0 'gclgrep 1\n' '' --version < /dev/null
printf '# parts\n\n \t\nx="to".."be"\r\n\r\ny=$x > "to"\n' > names
expect 0 'a:2\n' '' -D names -c '$y' a < /dev/null
# a query whose last bracket is open: the caret stands at its end, also behind a letter of two bytes
caret() { # caret QUERY LINE: the second and third lines of standard error
  "$gclgrep" "$1" a > out 2> err < /dev/null || true
  if [ -s out ] || [ "$(sed -n 2,3p err)" != "$(printf '  %s\n%s' "$1" "$2")" ]; then
    echo "gclgrep $1: the caret is not at its place:" >&2
    cat err >&2
    failed=1
  fi
}
caret '("to"' '       ^'
caret '("é"' '      ^'
caret '"to" .. ' '          ^'
# definitions: the line of a file that is refused is named, a file that is not there ends it, and so does one with a line that is too long
printf 'x="to"\nx y="be"\n' > bad
expect 2 '' 'gclgrep: x y="be": a definition is NAME=QUERY' -D bad '$x' a < /dev/null
printf 'x="to"\ny=$z\n' > unknown
expect 2 '' 'gclgrep: $y: query at 0: unknown name' -D unknown '$x' a < /dev/null
expect 2 '' 'gclgrep: the definitions file cannot be read' -D missing '"to"' a < /dev/null
{ printf 'x="'; head -c 70000 /dev/zero | tr '\0' a; printf '"\n'; } > long
expect 2 '' 'gclgrep: the definitions file has a line' -D long '"to"' a < /dev/null
seq 257 | sed 's/.*/x&="to"/' > many
expect 2 '' 'gclgrep: the definitions file has a line' -D many '"to"' a < /dev/null
# words: the last value counts, each definition does, and `--` ends the options
expect 0 'a:1:to be\n' '' -m 9 -o -m1 -t16 -t1 '"to".."be"' a < /dev/null
expect 0 'a:1\n' '' -d 'x="to"' -d 'x="or"' --count '$x' -- a < /dev/null
printf 'to\n' > -c
expect 0 '-c:1:to\n' '' -- '"to"' -c < /dev/null
expect 2 '' 'usage: gclgrep' -m < /dev/null
expect 2 '' 'usage: gclgrep' --cou '"to"' a < /dev/null
expect 2 '' 'usage: gclgrep' --count=1 '"to"' a < /dev/null
expect 2 '' 'usage: gclgrep' -m 1234567890123456789 '"to"' a < /dev/null
expect 2 '' 'usage: gclgrep' -t 0 '"to"' a < /dev/null
expect 1 '' '' -m 0 -q '"to"' a < /dev/null
# files: a folder and one of 64 MiB and a byte are left out, bytes that are no text are searched, and returns stay
mkdir folder
expect 2 'a:2\na:2\n' 'gclgrep: folder: ' -c '"to"' a folder a < /dev/null
truncate -s 67108865 big
expect 2 'a:2\na:2\n' 'gclgrep: big: has more than 67108864 bytes' -c '"to"' a big a < /dev/null
truncate -s 67108864 whole
expect 0 'whole:0\na:2\n' '' -c '"to"' whole a < /dev/null
printf 'to \377 be\r\nnot\r\n' > crlf
expect 0 'crlf:1:to \377 be\r\n' '' '"to".."be"' crlf < /dev/null
expect 0 'crlf:1:to \377 be\r\ncrlf-2-not\n' '' -o '"to".."not"' crlf < /dev/null
expect 0 '(standard input):1\na:2\n(standard input):0\n' '' -c '"to"' - a - < <(printf 'to be')
# threads change nothing: 300 files, some of them missing
for n in $(seq 300); do printf '<p>to %s</p>\nbe to\n' "$n" > "f$n"; done
rm f7 f150
"$gclgrep" -t 1 '"to"..("be" + "150")' $(seq -f f%g 300) > one 2> one.err < /dev/null || true
for threads in 2 4 16; do
  "$gclgrep" -t "$threads" '"to"..("be" + "150")' $(seq -f f%g 300) > several 2> several.err < /dev/null || true
  cmp one several && cmp one.err several.err || failed=1
done
[ "$(wc -l < one)" = 596 ] || { echo "gclgrep: 298 files gave $(wc -l < one) lines" >&2; failed=1; }
# a text that is much longer than its file is written whole
seq -s ' to ' 3000 > dense
"$gclgrep" -t 1 -o '[60]' a dense dense > one < /dev/null
"$gclgrep" -t 4 -o '[60]' a dense dense > several < /dev/null
cmp one several || failed=1
# a reader that goes, and a full disk
got=0
("$gclgrep" '"to"' $(seq -f f%g 300) || echo "status $?" >&2) 2> err < /dev/null | head -n 1 > out
[ "$(cat out)" = 'f1:1:<p>to 1</p>' ] || { echo "gclgrep | head: $(cat out)" >&2; failed=1; }
! grep -v '^status 2$' err | grep -v 'cannot be read' >&2 || failed=1
if [ -w /dev/full ]; then
  "$gclgrep" '"to"' a > /dev/full 2> err < /dev/null || got=$?
  [ "$got" = 2 ] && [ "$(cat err)" = 'gclgrep: cannot write to standard output' ] || { echo "gclgrep > /dev/full: status $got: $(cat err)" >&2; failed=1; }
fi
# a star behind the quotes asks for the words that begin so
expect 0 'a:3\n' '' -c '"o"* + "to"' a < /dev/null
expect 0 'a:1:or not\n' '' -o '"o"*.."n"*' a < /dev/null
expect 1 '' '' '"x"*' a < /dev/null
# notes
silent() { # silent STATUS OUTPUT WORD..: as expect, and nothing is said on standard error
  expect "$1" "$2" '' "${@:3}" < /dev/null
  [ ! -s err ] || { echo "gclgrep ${*:3} says:" >&2; cat err >&2; failed=1; }
}
expect 1 '' 'gclgrep: note: "to*" asks for the word to; for words that begin so write "to"*' '"to*" > "be"' a < /dev/null
expect 1 '' $'gclgrep: note: in no file: kin\ngclgrep: note: "kin*" asks for the word kin' '"kin*"' a < /dev/null
expect 1 '' $'gclgrep: note: in no file: <lien>\ngclgrep: note: in no file: q*' '("<lien>"+"q"*+"<p>"+"o"*) > "to be"' a t < /dev/null
expect 2 'a:0\n' $'gclgrep: missing: cannot be read: see that it is a file that is there and may be read\ngclgrep: note: in no file: xyzzy' -c '"xyzzy"' missing a < /dev/null
silent 1 'a:0\nt:0\n' -s -c '"xyzzy"' a t
silent 0 'a:2\n' -c '"to" + "xyzzy"' a
silent 0 't:2\n' -c '"<p>".."</p>"' t
silent 1 '' -m 0 '"to"' a
printf '<d>a\n<d>b</d>\n</d>\n' > nest
nested='gclgrep: note: 4 <d>, of which 2 hold no other <d>: "<d>".."</d>" finds these'
expect 0 'nest:1\na:0\nnest:1\n' "$nested" -c '"<d>".."</d>"' nest a nest < /dev/null
expect 0 'nest:1\na:0\nnest:1\n' "$nested" -t 1 -c '("<d>".."</d>") + ("<d>".."</d>")' nest a nest < /dev/null
silent 0 'nest:1\n' -s -c '"<d>".."</d>"' nest
silent 0 '' -q '"<d>".."</d>"' nest
expect 0 'a:1\n' 'gclgrep: note: attributes are not looked at: "<verse n=' -c "\"<verse n='3'>\" + \"not\"" a < /dev/null
expect 1 '' 'gclgrep: note: "<p>..</p>" is one phrase; write "<p>".."</p>"' '"<p>..</p>"' t < /dev/null
silent 1 '' -s '"<p>..</p>"' a
[ "$failed" = 0 ] && echo "gclgrep: all as expected"
exit "$failed"
