#!/usr/bin/env bash
# A line is answered before the next one is read. The program runs between two pipes, and each line is written only when all answers to the
# lines before it were read: every kind of command, an empty line, refused lines, lines that come in two halves, and a last one without a
# newline. Then a script that can be read only in part, whose lines before the fault are answered; one as long as a script may be, and one a
# byte longer. The last two are zeros without a newline, and a program that keeps no more of a line than it has to needs little memory for
# them. They are skipped if they take more than 20 seconds.
. "$(dirname "$0")/common.sh"
patience=5
printf 'to be or not to be' > a
printf 'w%d ' {1..40} > b
lines=0

fails() {
  echo "streams: $1" >&2
  exit 1
}

# Ends the check unless these lines are read from the answers, within some seconds each.
reads() {
  local wanted line
  for wanted in "$@"; do
    IFS= read -r -t $patience -u 4 line || fails "no answer \`$wanted\` within $patience seconds to line $lines, or an end in front of it"
    [ "$line" = "$wanted" ] || fails "the answer to line $lines is \`$line\`, not \`$wanted\`"
  done
}

# Writes text that ends a line, and reads the answers to it.
asks() {
  lines=$((lines + 1))
  printf '%s\n' "$1" >&3
  shift
  reads "$@"
}

# Writes the first half of a line, which has no answer yet.
begins() {
  printf '%s' "$1" >&3
  if IFS= read -r -t 0.3 -u 4; then fails "there is an answer to the first half of line $((lines + 1))"; fi
}

mkfifo script answers
timeout 60 "$gclq" < script > answers 2> told &
program=$!
exec 3> script 4< answers
trap '' PIPE
asks 'add b' 'file 0 0 41'
asks 'add a' 'file 1 42 49'
asks 'find "to be"' '43 44' '47 48' '= 2'
asks ''
asks 'count "to"' '= 2'
asks 'top 1 "to".."be"' '43 44' '= 1'
asks $'count "be"\ncount "or"\n\nfind "not"' '= 2' '= 1' '46 46' '= 1'
asks 'files' '0 0 41 b' '1 42 49 a' '= 2'
asks 'find "to" ..' '! query at 7: operand expected'
asks 'shards' 'shards 2'
asks 'merge' 'merging'
asks ' '
asks 'count "w7"' '= 1'
asks 'shards' 'shards 1'
asks 'del 0' 'gone 0'
asks 'del 0' '! no file 0'
asks 'merge' 'merging'
asks 'find "to" ^ "not"' '43 46' '46 47' '= 2'
asks 'save image' 'saved 97'
[ "$(stat -c %s image)" = 97 ] || fails 'the image is not there when its line was answered'
asks 'open image' '! not empty'
begins 'count "be" +'
asks ' "or"' '= 3'
half=$(head -c 100000 /dev/zero | tr '\0' x)
begins "$half"
asks "$half" '! long line'
asks 'look' '! command'
asks 'add a' 'file 2 50 57'
printf 'count "to"' >&3
exec 3>&-
reads '= 4'
if IFS= read -r -t $patience -u 4 || [ -n "$REPLY" ]; then fails 'there is an answer behind the last one'; fi
exec 4<&-
status=0
wait $program || status=$?
[ $status = 1 ] || fails "status $status for 1"
[ ! -s told ] || fails "on standard error is \`$(cat told)\`"

# ends NAME STATUS TEXT LINE: compares the status, the answers and what is on standard error
ends() {
  [ $status = "$2" ] || fails "$1: status $status for $2"
  [ "$(cat written)" = "$3" ] || fails "$1: the answers are \`$(head -c 200 written)\`, not \`$3\`"
  [ "$(cat told)" = "$4" ] || fails "$1: on standard error is \`$(cat told)\`, not \`$4\`"
}

# the script is the end of a page of memory, behind which there is none
cat > part.py <<'P'
import ctypes, mmap, os, subprocess, sys
page, script = mmap.PAGESIZE, b'add a\ncount "to"\ncount "or'
held = mmap.mmap(-1, 2 * page)
held[page - len(script):page] = script
start = ctypes.addressof(ctypes.c_char.from_buffer(held))
ctypes.CDLL(None).munmap(ctypes.c_void_p(start + page), ctypes.c_size_t(page))
memory = os.open("/proc/self/mem", os.O_RDONLY)
os.lseek(memory, start + page - len(script), os.SEEK_SET)
os._exit(subprocess.run([sys.argv[1]], stdin=memory).returncode)
P
status=0
python3 part.py "$gclq" > written 2> told || status=$?
ends 'a script that ends in a fault' 3 $'file 0 0 7\n= 2' \
  'gclq: cannot read the script from standard input: give it as a file or through a pipe'

# Runs the program over so many zeros, in two gigabytes of addresses.
zeros() {
  status=0
  head -c "$1" /dev/zero | (ulimit -v 2000000; exec timeout 20 "$gclq") > written 2> told || status=$?
  if [ $status = 124 ]; then
    echo "skipped: a script of $1 bytes takes more than 20 seconds" >&2
  else
    ends "a script of $1 zeros" "$2" "$3" "$4"
  fi
}
zeros 4294967296 1 '! long line' ''
zeros 4294967297 7 '' 'gclq: the script has more than 4294967296 bytes: cut it, and save an image between its parts'
echo "streams: each of $lines parts of a script was answered before the next one was written"
