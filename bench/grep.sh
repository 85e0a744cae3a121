#!/usr/bin/env bash
# Searches a folder of text with gclgrep: bench/grep.sh [FOLDER]. It takes the files that LIST.txt names there, or all of them; without a
# folder it makes 400 files of tagged text. It prints for a phrase, elements with a word and a near: seconds with one thread to counting the
# tokens of the same bytes (target 2.5), seconds with four threads to one (target 0.4 on four processors, 0.65 on two), and the peak memory
# next to twice the largest file for each thread plus 8 MB. Next to these, `grep -c -w`, and sgrep without an index if it is installed.
# GCLGREP, MEASURE and SGREP name programs.
. "$(dirname "$0")/common.sh"
need_measure
gclgrep=${GCLGREP:-$here/crates/gclgrep/out/gclgrep}
[ -n "${GCLGREP:-}" ] || "$here/gclgrep" --version > /dev/null
sgrep=${SGREP:-$(command -v sgrep || true)}
folder=${1:-}
if [ -z "$folder" ]; then
  folder=$work/made
  mkdir "$folder"
  python3 - "$folder" <<'P'
import random, sys
random.seed(11)
words = ["class", "method", "king", "public", "the", "of"] * 8 + ["w%d" % n for n in range(4000)]
for n in range(400):
    with open(f"{sys.argv[1]}/f{n:03}", "w") as out:
        for _ in range(random.randint(100, 2500)):
            out.write("<p>%s <b>%s</b></p>\n" % (" ".join(random.choices(words, k=9)), random.choice(words)))
P
fi
python3 - "$folder" "$gclgrep" "$counter" "$sgrep" "$work" <<'P'
import os, re, resource, subprocess, sys, time

folder, gclgrep, measure, sgrep, work = sys.argv[1:]
chosen = os.path.join(folder, "LIST.txt")
names = open(chosen).read().split() if os.path.exists(chosen) else sorted(os.listdir(folder))
sizes = [os.path.getsize(os.path.join(folder, name)) for name in names]

def seconds(command):
    """The least of three runs, which begin in the folder."""
    best = 1e9
    for _ in range(3):
        begin = time.perf_counter()
        run = subprocess.run(command, cwd=folder, stdout=subprocess.DEVNULL, stderr=subprocess.DEVNULL)
        best = min(best, time.perf_counter() - begin)
        if run.returncode > 1:
            sys.exit(f"status {run.returncode}: {command[:6]}")
    return best

def kilobytes(command):
    """The most memory of one run, as the system has it just before its end: what is told of a child that has ended counts this process too."""
    most = 0
    with subprocess.Popen(command, cwd=folder, stdout=subprocess.DEVNULL, stderr=subprocess.DEVNULL) as run:
        while run.poll() is None:
            try:
                with open(f"/proc/{run.pid}/status") as status, open(f"/proc/{run.pid}/comm") as name:
                    peak = re.search(r"VmHWM:\s*(\d+)", status.read())
                    if peak and name.read().startswith(os.path.basename(command[0])[:15]):
                        most = max(most, int(peak[1]))
            except OSError:
                pass
            time.sleep(0.001)
    return most

def cut():
    """The time of cutting all bytes into tokens, in pieces of whole files below 60 MB."""
    pieces, size = [[]], 0
    for name, more in zip(names, sizes):
        if size + more > 60_000_000 and pieces[-1]:
            pieces.append([])
            size = 0
        pieces[-1].append(name)
        size += more
    total = 0.0
    for piece in pieces:
        path = os.path.join(work, "piece")
        with open(path, "wb") as out:
            for name in piece:
                out.write(open(os.path.join(folder, name), "rb").read() + b"\n")
        total += min(int(re.search(r"in (\d+) ns", subprocess.run([measure, "tokens", path], capture_output=True, text=True, check=True).stdout)[1]) for _ in range(3)) / 1e9
    return total

text = b" ".join(open(os.path.join(folder, name), "rb").read().lower() for name in names[:20])
element = next((tag for tag in ("verse", "p", "li", "div") if b"<%s>" % tag.encode() in text or b"<%s " % tag.encode() in text), "p")
words = [word for word in ("king", "class", "method", "the") if re.search(rb"\b%s\b" % word.encode(), text)] or ["the"]
queries = {
    "phrase": f'"of {words[-1]}"',
    "elements": f'("<{element}>".."</{element}>") > "{words[0]}"',
    "near": f'("{words[0]}"^"{words[-1]}") < [12]',
}
counted = cut()
largest = max(sizes)
print(f"{len(names)} files, {sum(sizes) / 1e6:.1f} MB, the largest {largest / 1e6:.1f} MB; {os.cpu_count()} processors; tokens cut in {counted:.3f} s")
for kind, query in queries.items():
    for mode in ("-c", "-l"):
        one = seconds([gclgrep, "-s", "-t", "1", mode, query, *names])
        four = seconds([gclgrep, "-s", "-t", "4", mode, query, *names])
        print(f"{kind} {mode}: 1 thread {one:.3f} s, {one / counted:.2f} of cutting (target 2.5); 4 threads {four:.3f} s, {four / one:.2f} of one (target 0.4)   {query}")
    one = seconds([gclgrep, "-s", "-t", "1", query, *names])
    four = seconds([gclgrep, "-s", "-t", "4", query, *names])
    print(f"{kind}, lines: 1 thread {one:.3f} s, {one / counted:.2f} of cutting (target 2.5); 4 threads {four:.3f} s, {four / one:.2f} of one (target 0.4)")
for threads in (1, 2, 4, 16):
    took = kilobytes([gclgrep, "-s", "-t", str(threads), queries["elements"], *names])
    print(f"memory, {threads} threads: {took / 1e3:.1f} MB (target {(2 * largest * threads) / 1e6 + 8:.1f} MB)")
print(f"grep -c -w {words[0]}: {seconds(['grep', '-c', '-w', words[0], *names]):.3f} s")
if sgrep:
    open(os.path.join(work, "names"), "w").write("\n".join(names) + "\n")
    for query in (f'"<{element}>" .. "</{element}>" containing "{words[0]}"',):
        print(f"sgrep without an index: {seconds([sgrep, '-c', '-F', os.path.join(work, 'names'), query]):.3f} s   {query}")
P
