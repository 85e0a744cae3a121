#!/usr/bin/env bash
# No byte depends on the number of readers: a script of 500 lines in which merges are requested throughout gives the same bytes with 1, 2, 4
# and 16 readers, twenty times, and a made corpus the same five lines.
. "$(dirname "$0")/common.sh"
for ((i = 0; i < 5; i++)); do
  printf '<l>to be or not to be</l>\n<l>that is w%d</l>\n' $i > "f$i"
done
for ((i = 0; i < 50; i++)); do
  printf '%s\n' "add f$((i % 5))" merge 'find "to be"' 'count [3]' 'top 2 ("<l>".."</l>") > "w3"' \
    "del $((i * 3 % (i + 2)))" merge 'count "be" .. "not"' 'find ("<l>".."</l>") /> "or"' shards
done > script
[ "$(wc -l < script)" -eq 500 ]
# answers READERS: a refusal is a status of 1
answers() { "$gclq" --readers "$1" < script || [ $? -eq 1 ]; }
answers 1 > first
for ((round = 0; round < 20; round++)); do
  for readers in 1 2 4 16; do
    answers $readers > again
    cmp first again
  done
done
made() { "$gclq" --made 7 --count 500 --readers "$1" < /dev/null || [ $? -eq 1 ]; }
made 1 > five
[ "$(wc -l < five)" -eq 5 ]
for readers in 4 16; do
  made $readers > again
  cmp five again
done
echo "readers: 80 runs over $(wc -c < first) bytes of answers and 3 over a made corpus, no byte differs"
