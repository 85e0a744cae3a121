#!/usr/bin/env bash
# Ten thousand files are added, some deleted, and the rest saved: a later run that opens the image answers each query of a table as the
# first run does, and saves the same bytes.
. "$(dirname "$0")/common.sh"
words=(to be or not that is the question whether tis nobler)
for ((i = 0; i < 10000; i++)); do
  printf '<l>%s %s %s</l>\n<l>w%d the %s</l>\n' "${words[i % 11]}" "${words[i % 7]}" "${words[i % 5]}" $((i % 4999)) "${words[i % 3]}" > "f$i"
done
cat > table <<'T'
find "question"
count "the"
count "to" + "be" + "to"
find "w4998"
find "w17" .. "w18"
count "be or not"
count ("<l>".."</l>") > ("to" ^ "be")
top 7 ("<l>".."</l>") /> "the"
find "w1" < ("<file!>".."</file!>")
count [3] > "nobler"
find "absent"
files
T
{
  for ((i = 0; i < 10000; i++)); do echo "add f$i"; done
  for ((i = 0; i < 10000; i += 97)); do echo "del $i"; done
  echo 'save image'
  cat table
} > adding
{
  echo 'open image'
  cat table
  echo 'save again'
} > opening
"$gclq" < adding > added
"$gclq" < opening > opened
sed '1,/^saved /d' added > first
sed '1d;$d' opened > later
cmp first later
cmp image again
head -1 opened | grep -qx 'opened 9896'
[ "$(wc -l < first)" -gt 10000 ]
echo "an image of 9,896 files answers as the files do"
