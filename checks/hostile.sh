#!/usr/bin/env bash
# What surrounds the program may be slow, odd or made to harm: each case shows from outside that it does not stop, slow or surprise anybody.
# A case that this machine does not allow is skipped, and a line says so.
. "$(dirname "$0")/common.sh"
cases=0

fails() { echo "$1" >&2; exit 1; }

# is NAME GOT WANTED
is() {
  [ "$2" = "$3" ] || fails "$1: $2 for $3"
  cases=$((cases + 1))
}

skips() { echo "skipped: $1" >&2; }

# runs SCRIPT: the answers, with the status as the last line; what is said on standard error goes to `told`
runs() { local got=0; printf "$1" | "$gclq" 2> told || got=$?; echo "status $got"; }

printf 'to be or not to be' > a

# a width is counted by one subtraction: the image of 48 bytes has no file, and a hole of 2^56 addresses
is 'widths' "$(runs 'add a\ncount [1]\ncount [3]\ncount [8]\ncount [9]\n')" $'file 0 0 7\n= 8\n= 6\n= 1\n= 0\nstatus 0'
{
  printf 'GCLIMG02'
  printf '\0\0\0\0\0\0\0\0' # the first address
  printf '\0\0\0\0\0\0\0\1' # the next one
  printf '\1\0\0\0\0\0\0\0' # the next id
  printf '\0\0\0\0\0\0\0\0' # files
  printf '\0\0\0\0\0\0\0\0' # terms
} > wide
is 'widths over 2^56 addresses' "$(runs 'open wide\ncount [1]\ncount [3]\n')" $'opened 0\n= 72057594037927936\n= 72057594037927934\nstatus 0'

says='open wide\ncount [2] < [3]\ncount [3] > [2]\ncount [3] /> [5]\ncount [2] /< [3]\ncount [2] > [3]\n'
answer=$'opened 0\n= 72057594037927935\n= 72057594037927934\n= 72057594037927934\n= 0\n= 0\nstatus 0'
is 'containments of two widths' "$(runs "$says")" "$answer"

# a save follows symbolic links, and leaves the link
mkdir links
ln -s links/i link
is 'a save through a link to nothing' "$(runs 'add a\nsave link\n')" $'file 0 0 7\nsaved 97\nstatus 0'
is 'what the link leads to' "$(readlink link) $(stat -c %s links/i)" 'links/i 97'
ln -s ../a links/up
cp a b
is 'a save through a link upwards' "$(runs 'add b\nsave links/up\n')" $'file 0 0 7\nsaved 97\nstatus 0'
is 'what that leads to' "$(readlink links/up) $(stat -c %s a)" '../a 97'
cp b a

# a save keeps the mode of what it replaces, and a new file has the mask's
for mode in 600 640 444; do
  chmod $mode links/i
  runs 'add a\nsave links/i\n' > /dev/null
  is 'the mode of what is replaced' "$(stat -c %a links/i)" $mode
done
(umask 077; runs 'add a\nsave fresh\n' > /dev/null)
is 'the mode of a new file' "$(stat -c %a fresh)" 600

# a save waits until the disk has the file and, after that, its name
if command -v strace > /dev/null && strace -o /dev/null true 2> /dev/null; then
  printf 'add a\nsave synced\n' | strace -f -o calls -e trace=fsync,rename,renameat,renameat2 "$gclq" > /dev/null
  is 'the order of a save' "$(grep -oE '(fsync|rename)' calls | tr '\n' ' ')" 'fsync rename fsync '
else
  skips 'the order of the calls: there is no strace'
fi

# an image above 1 MiB is kept and opened as any other
seq -f 'w%.0f' 1 150000 > words
is 'a long image' "$(runs 'add words\nsave long\n' | tr -d 0-9)" $'file   \nsaved \nstatus '
[ "$(stat -c %s long)" -gt 1048576 ] || fails 'a long image is short'
is 'a long image is opened' "$(runs 'open long\ncount "w77777"\n')" $'opened 1\n= 1\nstatus 0'
rm long

# the hashes of a run begin with random bytes, and where there are none a run answers the same
if command -v strace > /dev/null && strace -o /dev/null true 2> /dev/null; then
  printf 'add a\n' | strace -f -o calls -e trace=getrandom "$gclq" > /dev/null
  is 'random bytes' "$(grep -c ', 16, ' calls)" 1
  got=$(printf 'add a\ncount "to"\n' | strace -f -o calls -e trace=getrandom -e inject=getrandom:error=EIO "$gclq")
  is 'no random bytes' "$got" $'file 0 0 7\n= 2'
else
  skips 'random bytes: there is no strace'
fi

# what 1,000 killed saves left is in nobody's way, and is left as it is
mkdir left
for ((n = 0; n < 1000; n++)); do echo "$n" > left/.gclq-$n.new; done
is 'a save beside 1,000 leftovers' "$(runs 'add a\nsave left/i\n')" $'file 0 0 7\nsaved 97\nstatus 0'
is 'the leftovers' "$(cat left/.gclq-*.new | sort -n | md5sum)" "$(seq 0 999 | md5sum)"

# a stream that does not wait is waited for
yes 'to be' | head -c 200000 > many
if command -v python3 > /dev/null; then
  got=$(python3 - "$gclq" <<'PYTHON'
import fcntl, os, subprocess, sys, threading, time
def open_pipe(side):
    ends = os.pipe()
    flags = fcntl.fcntl(ends[side], fcntl.F_GETFL)
    fcntl.fcntl(ends[side], fcntl.F_SETFL, flags | os.O_NONBLOCK)
    return ends
asked, asking = open_pipe(0)
told, telling = open_pipe(1)
run = subprocess.Popen([sys.argv[1]], stdin=asked, stdout=telling)
os.close(asked)
os.close(telling)
def write():
    time.sleep(0.3)
    os.write(asking, b'add many\n')
    time.sleep(0.3)
    os.write(asking, b'top 20000 [1]\n')
    os.close(asking)
threading.Thread(target=write).start()
time.sleep(1)
size = 0
while True:
    piece = os.read(told, 4096)
    if not piece:
        break
    size += len(piece)
    time.sleep(0.001)
print(size > 200000, run.wait())
PYTHON
)
  is 'pipes that do not wait' "$got" 'True 0'
else
  skips 'pipes that do not wait: there is no python3'
fi

# names go to standard error with escapes, and are taken as they are
runs $'add to\xc2\x9bbe\n' > /dev/null
is 'a control character of eight bits' "$(cut -d: -f2-3 told)" ' line 1: cannot read "to\u{9b}be"'
runs $'add to\xe2\x80\xaebe\n' > /dev/null
is 'a name from right to left' "$(cut -d: -f2-3 told)" ' line 1: cannot read "to\u{202e}be"'
for name in '~/a' '"a"' "'a'" '*.txt'; do
  runs "add $name\\n" > /dev/null
  is 'a name for a shell' "$(grep -c 'a name is taken as it is' told)" 1
done

# a reader that has gone is no fault that is told
: > told
yes to | head -c 300000 > long
printf 'add long\nfind "to"\n' > script
{ got=0; "$gclq" < script 2> told || got=$?; echo "$got" > ended; } | head -1 > /dev/null
is 'a reader that has gone' "$(cat ended) $(wc -c < told)" '4 0'

# a terminal is told what it is to give
if command -v script > /dev/null; then
  got=$(printf '\004' | script -qec "$gclq" /dev/null 2>&1 | grep -c 'waits for a script' || true)
  is 'a terminal' "$got" 1
  got=$(printf '\004' | script -qec "$gclq --made 0 --count 1" /dev/null 2>&1 | grep -c 'waits for a script' || true)
  is 'a terminal that is not asked' "$got" 0
else
  skips 'a terminal: there is no command script'
fi

# small memory ends with status 6 or goes well, and with no signal
for ((size = 2900; size <= 3300; size += 20)); do
  got=0
  (ulimit -v $size; printf 'add a\nsave i\n' | exec "$gclq") > /dev/null 2>&1 || got=$?
  # 127 is the loader's
  case $got in 0 | 6 | 127) ;; *) fails "memory of $size kB: status $got" ;; esac
done
cases=$((cases + 1))

echo "hostile: $cases cases"
