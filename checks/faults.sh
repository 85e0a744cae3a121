#!/usr/bin/env bash
# Each case lets something outside the program fail. It compares the exit status, what was written, the one line on standard error, and what
# the files hold afterwards. A case that this machine does not allow is skipped, and a line says so.
. "$(dirname "$0")/common.sh"
# a user who is not root is to run it too
cp "$gclq" gclq
chmod 755 . gclq
gclq=$work/gclq
usage='usage: gclq [--first ADDRESS] [--readers NUMBER] [--made NUMBER --count NUMBER] < SCRIPT; see docs/SCRIPT.md'
cases=0

# what a command of no fault says: nothing
none=''

# expects NAME STATUS TEXT LINE COMMAND..: runs the command over the file `script`
expects() {
  local name=$1 status=$2 text=$3 line=$4 got=0
  shift 4
  "$@" < script > written 2> told || got=$?
  compares "$name" "$status" "$got" "$text" "$line"
}

# compares what was written and told with what is wanted
compares() {
  local name=$1 status=$2 got=$3 text=$4 line=$5
  if [ -n "$text" ]; then printf '%s\n' "$text" > text; else : > text; fi
  if [ -n "$line" ]; then printf '%s\n' "$line" > line; else : > line; fi
  if [ "$got" != "$status" ] || ! cmp -s written text || ! cmp -s told line; then
    echo "$name: status $got for $status" >&2
    diff text written >&2 || true
    diff line told >&2 || true
    exit 1
  fi
  cases=$((cases + 1))
}

says() { printf '%s\n' "$@" > script; }

skips() { echo "skipped: $1" >&2; }

# what is said of a file that was to be read, or saved: its name, why, and in which line of the script, the first one unless that is given
cannot_read() { echo "gclq: line ${3:-1}: cannot read \"$1\": $2"; }

cannot_save() { echo "gclq: line ${3:-1}: cannot save \"$1\": $2"; }

no_file='there is no such file: give its path from the folder where gclq runs'
no_folder='there is no such folder: make it first'
a_folder='it is a folder: name a file'
a_device='it is a device or a pipe: name a file'
a_circle='its symbolic links lead in a circle: name the file itself'
too_long='its name is too long for the system: give a shorter one'
no_room='its disk has no room left: make some, or save elsewhere'
not_read='you may not read it: change its permissions'
not_written='you may not write in its folder: change that, or save elsewhere'
no_read='the system cannot read it: see that it is a file, and that its disk works'

input='gclq: cannot read the script from standard input: give it as a file or through a pipe'
output='gclq: cannot write the answers to standard output: see that its disk has room and its reader goes on'
memory='gclq: out of memory: add fewer or smaller files, or save an image and open it in another run'

printf 'to be or not to be' > a
added='file 0 0 7'

# the words of the command line
says 'add a'
unexpected() { echo "gclq: unexpected word $1; $usage"; }
expects 'a word that is none' 2 '' "$(unexpected '"in.txt"')" "$gclq" in.txt
expects 'a word over two lines' 2 '' "$(unexpected '"a\nb "')" "$gclq" $'a\nb '
expects 'an empty word' 2 '' "$(unexpected '""')" "$gclq" ''
expects 'a value that is missing' 2 '' "$(unexpected '"--first"')" "$gclq" --first
expects 'a value that is too great' 2 '' "$(unexpected '"--readers=17"')" "$gclq" --readers=17
pair="gclq: a word comes twice, or its pair is missing; $usage"
expects 'a word that comes twice' 2 '' "$pair" "$gclq" --first 1 --first 1
expects 'a pair of which one is missing' 2 '' "$pair" "$gclq" --made 3
expects 'a word that is not UTF-8' 2 '' "gclq: a word is not UTF-8; $usage" "$gclq" $'\xff'

# the script
got=0; "$gclq" < . > written 2> told || got=$?
compares 'a folder as the script' 3 "$got" '' "$input"
got=0; "$gclq" <&- > written 2> told || got=$?
compares 'no script' 3 "$got" '' "$input"
got=0; "$gclq" --made 0 --count 1 <&- > written 2> told || got=$?
compares 'no script where none is wanted' 0 "$got" $'made 0 1\nlines 4\nrefused 0\nbytes 24\nsum 1177' "$none"

# the answers
says 'add a' 'find "to"'
if [ -c /dev/full ]; then
  : > written
  got=0; "$gclq" < script > /dev/full 2> told || got=$?
  compares 'a full device' 4 "$got" '' "$output"
  got=0; "$gclq" < /dev/null > /dev/full 2> told || got=$?
  compares 'a full device, and nothing to say' 0 "$got" '' "$none"
else
  skips 'a full device: there is no /dev/full'
fi
: > written
got=0; "$gclq" < script >&- 2> told || got=$?
compares 'no output' 4 "$got" '' "$output"
# the reader is gone before the first answer
rm -f gone ended
{
  until [ -e gone ]; do sleep 0.05; done
  got=0; "$gclq" < script 2> told || got=$?
  echo "$got" > ended
} | {
  exec <&-
  : > gone
  until [ -e ended ]; do sleep 0.05; done
}
compares 'a closed pipe' 4 "$(cat ended)" '' "$none"
# the reader is gone after the first line of many
yes to | head -c 300000 > long
says 'add long' 'find "to"'
"$gclq" < script > whole
{ got=0; "$gclq" < script 2> told || got=$?; echo "$got" > ended; } | head -1 > written
compares 'a reader that ends' 4 "$(cat ended)" 'file 0 0 100001' "$none"
got=0; (trap '' XFSZ; ulimit -f 8; exec "$gclq") < script > written 2> told || got=$?
head -c 8192 whole | cmp - written
: > written
compares 'answers that fill a disk' 4 "$got" '' "$output"

# names
says 'add a' 'add missing' 'add a'
expects 'a name that is not there' 5 "$added" "$(cannot_read missing "$no_file" 2)" "$gclq"
says '' 'add a' 'count "to"' 'del 9' '' 'add missing'
expects 'the line that names it, after others' 5 $'file 0 0 7\n= 2\n! no file 9' "$(cannot_read missing "$no_file" 6)" "$gclq"
mkdir folder
says 'add a' 'add folder'
expects 'a folder' 5 "$added" "$(cannot_read folder "$a_folder" 2)" "$gclq"
says 'open folder'
expects 'a folder as an image' 5 '' "$(cannot_read folder "$a_folder")" "$gclq"
says 'open missing'
expects 'an image that is not there' 5 '' "$(cannot_read missing "$no_file")" "$gclq"
says 'add a' 'add /proc/self/mem'
expects 'a file of which a read fails' 5 "$added" "$(cannot_read /proc/self/mem "$no_read" 2)" "$gclq"
ln -s loop loop
says 'add a' 'add loop'
expects 'a link to itself' 5 "$added" "$(cannot_read loop "$a_circle" 2)" "$gclq"
: > told
got=0; "$gclq" < script > written 2>&- || got=$?
compares 'no standard error' 5 "$got" "$added" "$none"
says 'add  to_caf'$'\xc3\xa9'' and "more" '
expects 'a name with blanks and quotes' 5 '' "$(cannot_read 'to_caf'$'\xc3\xa9'' and \"more\"' "$no_file")" "$gclq"
# the longest name that has a line, and a longer one
long=$(head -c 65532 /dev/zero | tr '\0' n)
says "add $long"
expects 'a name as long as a line' 5 '' "$(cannot_read "$long" "$too_long")" "$gclq"
says "save ${long%n}"
expects 'a name as long as a line to save as' 5 '' "$(cannot_save "${long%n}" "$too_long")" "$gclq"
says "add ${long}nnnn"
expects 'a name of 65,536 bytes' 1 '! long line' "$none" "$gclq"
says 'add /dev/zero'
expects 'a file without an end' 1 '! file too long' "$none" "$gclq"

# runs as a user who is not root
as_nobody() {
  if [ "$(id -u)" != 0 ]; then "$@"; else setpriv --reuid=65534 --regid=65534 --clear-groups "$@"; fi
}
if as_nobody "$gclq" < /dev/null > /dev/null 2>&1; then
  printf 'hidden' > hidden
  chmod 000 hidden
  mkdir shut
  printf 'old' > shut/i
  chmod 555 shut
  says 'add a' 'add hidden'
  expects 'a file that may not be read' 5 "$added" "$(cannot_read hidden "$not_read" 2)" as_nobody "$gclq"
  says 'open hidden'
  expects 'an image that may not be read' 5 '' "$(cannot_read hidden "$not_read")" as_nobody "$gclq"
  says 'add a' 'save shut/i'
  expects 'a folder that may not be written' 5 "$added" "$(cannot_save shut/i "$not_written" 2)" as_nobody "$gclq"
  [ "$(cat shut/i)" = old ]
  chmod 755 shut
else
  skips 'files without rights: no other user can be taken'
fi

# files that grow: the program's own answers, and a pipe whose end comes later
says 'add a' 'add answers' 'add answers'
got=0; "$gclq" < script > answers 2> told || got=$?
cp answers written
compares 'a file that grew since it was added' 0 "$got" $'file 0 0 7\nfile 1 8 13\nfile 2 14 23' "$none"
mkfifo growing
{ printf 'to be '; sleep 0.3; printf 'or not'; } > growing &
says 'add growing' 'find "be or"'
expects 'a file that grows while it is read' 0 $'file 0 0 5\n2 3\n= 1' "$none" "$gclq"
wait

# saving: the old image stands until the new one takes its name
says 'add a' 'save i' 'save /dev/null'
expects 'a device' 5 $'file 0 0 7\nsaved 97' "$(cannot_save /dev/null "$a_device" 3)" "$gclq"
cp i old
says 'save folder'
expects 'a folder to save as' 5 '' "$(cannot_save folder "$a_folder")" "$gclq"
says 'save nowhere/i'
expects 'a folder that is not there' 5 '' "$(cannot_save nowhere/i "$no_folder")" "$gclq"
for ((n = 0; n < 20000; n++)); do echo "w$n"; done > big
says 'add big' 'save i' 'add a'
fills() { (trap '' XFSZ; ulimit -f 8; "$gclq"); }
expects 'a disk that fills up' 5 'file 0 0 20001' "$(cannot_save i "$no_room" 2)" fills
cmp i old
[ "$(find . -name '.gclq-*' | wc -l)" = 0 ]
killed() { (ulimit -c 0; ulimit -f 8; exec "$gclq"); }
got=0; { killed < script > written; } 2> /dev/null || got=$?
: > told
compares 'a program that is killed while it saves' 153 "$got" 'file 0 0 20001' "$none"
cmp i old
[ "$(find . -name '.gclq-*' | wc -l)" = 1 ]
says 'open i' 'save i' 'find "to"'
expects 'what it left stands in nobody'"'"'s way' 0 $'opened 1\nsaved 97\n1 1\n5 5\n= 2' "$none" "$gclq"
cmp i old
[ "$(find . -name '.gclq-*' | wc -l)" = 1 ]
full=$work/full
mkdir full
on_full() { unshare -m sh -c "mount -t tmpfs -o size=64k none $full && cp $work/old $full/i && { $gclq; got=\$?; cmp $full/i $work/old && exit \$got; }"; }
if unshare -m sh -c "mount -t tmpfs -o size=64k none $full" 2> /dev/null; then
  says 'add big' 'save full/i'
  expects 'a full disk' 5 'file 0 0 20001' "$(cannot_save full/i "$no_room" 2)" on_full
else
  skips 'a full disk of its own: nothing may be mounted'
fi

# a run of adds, of which one names a missing file: the same bytes with any number of readers, and the files behind it are not asked for
for place in 1 2 3 4 5 6; do
  lines=() files=''
  for ((line = 1; line <= 6; line++)); do
    [ $line = $place ] && lines+=('add missing') || lines+=('add a')
    [ $line -ge $place ] || files+="file $((line - 1)) $((8 * line - 8)) $((8 * line - 1))"$'\n'
  done
  says "${lines[@]}"
  for readers in 1 4 16; do
    expects "a missing file at line $place of a run of adds, $readers readers" 5 "${files%$'\n'}" "$(cannot_read missing "$no_file" $place)" "$gclq" --readers $readers
  done
done

# memory
small() { (ulimit -v 40000; exec "$gclq"); }
says 'add a' 'add /dev/zero'
expects 'memory that does not suffice' 6 "$added" "$memory" small
says 'open /dev/zero'
expects 'memory that does not suffice for an image' 6 '' "$memory" small

echo "$cases faults end as they should"
