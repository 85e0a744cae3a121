#!/usr/bin/env bash
# A query with prefix terms has the members that the same query has with the words in their place: a table of queries over three files in
# two slots, of which one file is deleted, so that some words are only in a dead range. Then 3,000 words of one prefix in three files, of
# which one is deleted, listed, counted and in a containment, before and after a merge.
. "$(dirname "$0")/common.sh"

fails() {
  echo "prefixes: $1" >&2
  exit 1
}

# The answers to a script that begins with these lines
answers() { printf '%s\n' "$@" | "$gclq" || [ $? -eq 1 ]; }

printf 'to tower tea be bees or orb to be not note x x x x x x x x x' > first
printf 'dead deal to be toad x x x x x x x x x x x x x x x' > second
printf 'to tot be orb deft or x' > third
rows=0
files=('add first' 'add second' 'add third' 'del 1')
while IFS=$'\t' read -r asked spelled; do
  for command in find count 'top 2'; do
    got=$(answers "${files[@]}" "$command $asked" | tail -n +5)
    wanted=$(answers "${files[@]}" "$command $spelled" | tail -n +5)
    [ "$got" = "$wanted" ] || fails "$command $asked: $got, and $wanted for $spelled"
    rows=$((rows + 1))
  done
done << 'ROWS'
"to"*	"to"+"tot"+"tower"
"tow"*	"tower"
"te"*	"tea"
"bee"*	"bees"
"be"*	"be"+"bees"
"or"*	"or"+"orb"
"orb"*	"orb"
"no"*	"not"+"note"
"de"*	"deft"
"dea"*	"none"
"toa"*	"none"
"z"*	"none"
"t"*	"tea"+"to"+"tot"+"tower"
"to"*+"be"*	"to"+"tot"+"tower"+"be"+"bees"
"z"*+"be"*	"be"+"bees"
"te"*^"no"*	"tea"^("not"+"note")
"z"*^"be"*	"none"^"be"
"tot"*^"de"*	"tot"^"deft"
"to"*.."be"*	("to"+"tot"+"tower")..("be"+"bees")
"be"*.."to"*.."or"*	("be"+"bees")..("to"+"tot"+"tower")..("or"+"orb")
("to"*.."be"*)>"te"*	(("to"+"tot"+"tower")..("be"+"bees"))>"tea"
("to".."to")>"or"*	("to".."to")>("or"+"orb")
("to".."to")/>"de"*	("to".."to")/>"deft"
"or"*<("be"*.."to"*)	("or"+"orb")<(("be"+"bees")..("to"+"tot"+"tower"))
"or"*/<("be".."to")	("or"+"orb")/<("be".."to")
[5]>"te"*	[5]>"tea"
("bee"*^"no"*)<[7]	("bees"^("not"+"note"))<[7]
"to tot"+"or"*	"to tot"+"or"+"orb"
("<file!>".."</file!>")>"te"*	("<file!>".."</file!>")>"tea"
("<file!>".."</file!>")/>"dea"*	"<file!>".."</file!>"
ROWS
[ "$(answers "${files[@]}" shards 'count "to"*' | tail -1)" = '= 5' ] || fails 'the words that begin with to'

# each third number from the first one to 2,999, as words of four digits
for first in 0 1 2; do seq -f 'w%04.0f' "$first" 3 2999 | tr '\n' ' ' > "many$first"; done
for merged in '' merge; do
  script=('add many0' 'add many1' 'add many2' 'del 1' ${merged:+merge 'count "w0000"'})
  whole='("<file!>".."</file!>")'
  got=$(answers "${script[@]}" 'count "w"*' 'top 1 "w"*' "count $whole > \"w0\"*" "count \"w2999\" < ($whole > \"w0000\")" | tail -5 | tr '\n' ' ')
  [ "$got" = '= 2000 1 1 = 1 = 2 = 0 ' ] || fails "3,000 words${merged:+, merged}: $got"
  got=$(answers "${script[@]}" 'find "w"*' | tail -1)
  [ "$got" = '= 2000' ] || fails "3,000 words listed${merged:+, merged}: $got"
done
echo "prefixes: $rows rows and 3,000 words of one prefix"
