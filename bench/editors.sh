#!/usr/bin/env bash
# 2,000 made files by four editors alongside a settling lane, to one editor alongside it, as a ratio of one run (target 0.7 on four
# processors, once indexes are made outside the lock). It builds `gclshare` if it has to.
set -eu
here=$(cd "$(dirname "${BASH_SOURCE[0]}")/.." && pwd)
program=$here/crates/gclshare/out/gclshare
"$here/gclshare" --made 1 --count 1 --editors 1 > /dev/null
seconds() {
  local best=999 start end i
  for i in 1 2 3 4 5; do
    start=$(date +%s.%N)
    "$program" --made 11 --count 2000 --editors "$1" > /dev/null
    end=$(date +%s.%N)
    best=$(awk -v b="$best" -v s="$start" -v e="$end" 'BEGIN { t = e - s; print (t < b) ? t : b }')
  done
  echo "$best"
}
one=$(seconds 1)
four=$(seconds 4)
awk -v one="$one" -v four="$four" -v n="$(nproc)" 'BEGIN { printf "2,000 files on %s processors: one editor %.3f s, four %.3f s: ratio %.2f (target 0.7)\n", n, one, four, four / one }'
