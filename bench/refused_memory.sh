#!/usr/bin/env bash
# Refuses each numbered request for memory of `gclq` in turn, over a script with every command, an image that is opened and one that is
# saved, and threads during a merge. Each run must end with status 6 and a beginning of the whole text, or with the whole text and the
# status of a run that is refused nothing; the saved image is complete or does not exist. An argument K tries only each Kth request. It
# needs a C compiler, since the requests are counted in a library that is loaded before the C library.
. "$(dirname "$0")/common.sh"
need_gclq
step=${1:-1}
compiler=${CC:-$(command -v cc || command -v clang || true)}
if [ -z "$compiler" ]; then
  echo "skipped: there is no C compiler" >&2
  exit 0
fi
cd "$work"
cat > refuse.c <<'C'
#include <errno.h>
#include <fcntl.h>
#include <stdlib.h>
#include <unistd.h>
extern void *__libc_malloc(size_t);
extern void *__libc_calloc(size_t, size_t);
extern void *__libc_realloc(void *, size_t);
extern void *__libc_memalign(size_t, size_t);
static long left;
__attribute__((constructor)) static void begin(void) {
  const char *n = getenv("REFUSED_REQUEST");
  left = n ? atol(n) : 0;
}
/* the request is refused, and a file says that it was made */
static int refused(void) {
  if (__atomic_sub_fetch(&left, 1, __ATOMIC_SEQ_CST) != 0) return 0;
  close(open("refused", O_CREAT | O_WRONLY, 0600));
  errno = ENOMEM;
  return 1;
}
void *malloc(size_t n) { return refused() ? 0 : __libc_malloc(n); }
void *calloc(size_t n, size_t m) { return refused() ? 0 : __libc_calloc(n, m); }
void *realloc(void *p, size_t n) { return refused() ? 0 : __libc_realloc(p, n); }
void *memalign(size_t a, size_t n) { return refused() ? 0 : __libc_memalign(a, n); }
void *aligned_alloc(size_t a, size_t n) { return refused() ? 0 : __libc_memalign(a, n); }
int posix_memalign(void **p, size_t a, size_t n) {
  if (refused()) return ENOMEM;
  *p = __libc_memalign(a, n);
  return *p ? 0 : ENOMEM;
}
C
"$compiler" -shared -fPIC -O2 -fno-builtin -o refuse.so refuse.c
cat > try.py <<'P'
import os, subprocess, sys
program, step = sys.argv[1], int(sys.argv[2])
play = "<speech><speaker>Ada</speaker><line>To be, or not to be</line></speech>\n"
with open("a", "w") as out:
    out.write("to be or not to be")
with open("p", "w") as out:
    out.write(play * 20)
with open("old-script", "w") as out:
    out.write("add a\nadd p\ndel 0\nsave old\n")
queries = ['find "to be"', 'count "to" .. "be"', 'top 2 ("<line>".."</line>") > "not"', 'find [3] < ("<speech>".."</speech>")',
           'find ("to" ^ "be") /> "or"', 'count "to" /< ("be" + "or")']
script = ["open old", "add a", "add p", "files", "shards", "merge"] + queries * 12 + ["shards", "del 1", "merge", "find \"be\"",
          "add a", "save new", "open old", "del 7", "frob", "find \"to", "", "files", "merge"]
with open("script", "w") as out:
    out.write("\n".join(script) + "\n")

def run(script, request):
    for name in ("refused", "new"):
        if os.path.exists(name):
            os.remove(name)
    environment = dict(os.environ, LD_PRELOAD="./refuse.so", REFUSED_REQUEST=str(request))
    done = subprocess.run([program, "--readers", "4"], stdin=open(script), env=environment, capture_output=True, timeout=120)
    image = open("new", "rb").read() if os.path.exists("new") else None
    return done.returncode, done.stdout, done.stderr, image, os.path.exists("refused")

assert run("old-script", 0)[0] == 0
status, text, told, image, refused = run("script", 0)
assert status == 1 and not refused and image and not told, (status, told)
ends, request = {6: 0, status: 0}, 1
while True:
    got, written, told, kept, refused = run("script", request)
    whole = got == status and written == text and kept == image and not told
    part = got == 6 and text.startswith(written) and kept in (None, image) and told.startswith(b"gclq: out of memory") and told.count(b"\n") == 1
    if not (whole or part):
        print(f"request {request}: status {got}, {len(written)} of {len(text)} bytes, {told!r}")
        sys.exit(1)
    if not refused:
        break
    ends[got] += 1
    request += step
print(f"{sum(ends.values())} requests for memory refused, one in a run, of {request - step}: {ends[6]} runs ended with status 6 and a beginning of the text, {ends[status]} with all of it")
P
python3 try.py "$program" "$step"
