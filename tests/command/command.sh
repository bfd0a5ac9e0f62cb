#!/bin/sh
# The command line on real files, by the program that the gate built: for each case standard output, standard error and
# the status are compared.
set -eu
cd "$(dirname "$0")/../.."
nursery=$PWD/crates/nursery/out/nursery
folder=$(mktemp -d)
trap 'rm -rf "$folder"' EXIT
cd "$folder"
mkdir a_folder

cases=0
name=

fail() {
    echo "command.sh: $name: $1" >&2
    exit 1
}

# Compares what a run wrote with what was wanted: standard output in `out`, standard error in `err`, the status in $1.
compare() {
    [ "$1" = "$2" ] || fail "status $1, wanted $2: $(cat err)"
    printf "$3" | cmp -s - out || fail "standard output: $(cat out)"
    printf "$4" | cmp -s - err || fail "standard error: $(cat err)"
    cases=$((cases + 1))
}

# wants STATUS OUT ERR WORD..: runs the program on the words, with the file `in` as standard input, and stops it after a
# minute; OUT and ERR are formats of printf, so a `%` is written `%%`.
wants() {
    status=$1 out=$2 err=$3
    shift 3
    name="nursery $*"
    got=0
    timeout 60 "$nursery" "$@" < in > out 2> err || got=$?
    compare "$got" "$status" "$out" "$err"
}

# shows WORD TEXT..: the last run's standard output ($1 is `out`) or standard error (`err`) holds each text.
shows() {
    file=$1
    shift
    for text in "$@"; do
        grep -qF -- "$text" "$file" || fail "$file has no line with: $text"
    done
}

# holds STATUS FILE TEXT..: runs the program on $words, and looks for texts in what it wrote.
holds() {
    status=$1 file=$2
    shift 2
    name="nursery $words"
    got=0
    # The words of these cases hold no spaces.
    "$nursery" $words < in > out 2> err || got=$?
    [ "$got" = "$status" ] || fail "status $got, wanted $status: $(cat err)"
    if [ "$file" = out ]; then [ ! -s err ] || fail "standard error: $(cat err)"; fi
    if [ "$file" = err ]; then [ ! -s out ] || fail "standard output: $(cat out)"; fi
    shows "$file" "$@"
    cases=$((cases + 1))
}

# helps COMMAND TEXT: the command's help shows each line of the text, four columns further right.
helps() {
    "$nursery" "$1" --help > help
    printf "$2" > lines
    while IFS= read -r line; do
        grep -qxF -- "    $line" help || fail "help of $1 has no line: $line"
    done < lines
}

: > in
printf 'trio-job 1\njob main {\n  find "er";\n}\n' > find.job
printf 'trio-job 1\njob main { sleep 2; raise Boom; }\n' > raise.job
printf 'trio-job 1\njob main { forever; }\n' > forever.job
printf 'error\nok\n' > log.txt
report='job main 0\ntask main 0 0 done\n  line 0+5 error\n'

# ---- 0 and 1: a job that ended

wants 0 "$report" '' run find.job log.txt
wants 0 "$report" '' run find.job log.txt --workers 64 --limit 0
without='job main 0\ntask main 0 0 done\n'
wants 0 "$without" '' run find.job /dev/null
wants 0 "$without" '' run find.job
wants 1 'job main 2\ntask main 0 2 raised Boom(main@2)\n' '' run raise.job log.txt
wants 0 'trio-job 1\njob main { find "er"; }\n' '' check find.job
wants 0 'trio-job 1\njob main{find"er";}\n' '' check find.job --canonical

# Format 3 counts rounds: the failure is seen in its tick. `upgrade` says that the report is another one.
printf 'trio-job 1\njob a { nursery n { start b { sleep 2; raise X; } forever; } }\n' > late.job
wants 1 'job a 3\ntask a 0 3 raised n[X(b@2)]\n  nursery n 3 caught\ntask b 0 2 raised X(b@2)\n' '' run late.job log.txt
wants 0 'trio-job 3\njob a{nursery n{start b{sleep 2;raise X;}forever;}}\n' \
    'over an empty input the report is another one in format 3; the first lines that differ:\n- job a 3\n+ job a 2\n' upgrade late.job --canonical
mv out late3.job
wants 1 'job a 2\ntask a 0 2 raised n[X(b@2)]\n  nursery n 2 caught\ntask b 0 2 raised X(b@2)\n' '' run late3.job log.txt
wants 0 'trio-job 3\njob a{nursery n{start b{sleep 2;raise X;}forever;}}\n' '' upgrade late3.job --to 2 --canonical
late3='trio-job 3\njob a {\n  nursery n {\n    start b {\n      sleep 2;\n      raise X;\n    }\n    forever;\n  }\n}\n'
wants 0 "$late3" 'over an empty input the report is another one in format 3; the first lines that differ:\n- job a 3\n+ job a 2\n' upgrade late.job
wants 0 "$late3" '' upgrade late3.job
wants 0 "$late3" '' check late3.job
# A text that has the format already keeps its comments.
printf 'trio-job 3\n# why\njob a{}\n' > why.job
wants 0 'trio-job 3\n# why\njob a {}\n' '' upgrade why.job
wants 0 'trio-job 3\n# why\njob a {}\n' '' check why.job
wants 0 'trio-job 3\njob a{}\n' '' check why.job --canonical

# ---- standard input

cp log.txt in
wants 0 "$report" '' run find.job -
cp find.job in
wants 0 "$report" '' run - log.txt
wants 0 'trio-job 1\njob main { find "er"; }\n' '' check -
wants 0 "$without" '' run -
wants 0 'trio-job 2\njob main { find "er"; }\n' '' upgrade - --to 2
wants 0 'trio-job 3\njob main { find "er"; }\n' 'over an empty input the report is the same in format 3\n' upgrade -
{ cat find.job; echo %input; cat log.txt; } > in
wants 0 "$report" ''
{ cat raise.job; echo %input; } > in
wants 1 'job main 2\ntask main 0 2 raised Boom(main@2)\n' ''
: > in
wants 2 'refused J3 Version at 0\n' 'standard input:1:1: a job text begins with the line `trio-job 1`, `trio-job 2` or `trio-job 3`, ended by a newline alone\n\n^\nthe line with the format is missing: begin a new job text with the line `trio-job 3`\n'

# ---- feeds: a job file that holds its input

{ cat find.job; echo %input; cat log.txt; } > feed.feed
wants 0 "$report" '' run feed.feed
wants 0 "$report" '' run feed.feed --workers 64
cp feed.feed in
wants 0 "$report" '' run -
: > in
wants 0 'tick 0\n  main  starts\n  main  finds 1 line\n  main  ends: done\n' '' explain feed.feed
wants 0 '      0\nmain  | done\n' '' chart feed.feed
wants 0 '0 hairs: no race\n' '' races feed.feed
wants 0 '    as it is  0 done\n0 faults: 0 stuck, 0 cut a cleanup, 0 lost, 0 not reached\n' '' faults feed.feed
wants 0 '' '' lint feed.feed
words='trio feed.feed'
holds 0 out 'import trio'
two='error: `feed.feed` has its input after the line `%%input`: leave out INPUT, which is `log.txt`\n'
for command in run explain chart faults races page; do
    wants 2 '' "$two" $command feed.feed log.txt
done
wants 2 '' "$two" sweep feed.feed log.txt --at 1:10 --values 1..2
wants 2 '' 'error: `feed.feed` has its input after the line `%%input`: leave out INPUT, which is `-`\n' run feed.feed -
wants 4 '' 'cannot read the input file\nnone.txt: no such file\n' run feed.feed none.txt
# `fmt` and `upgrade` keep the input, byte for byte, and `check` writes the job alone.
held='%%input\nerror\nok\n'
find='job main { find "er"; }\n'
wants 0 "trio-job 1\n$find$held" '' fmt feed.feed
wants 0 "trio-job 1\n$find" '' check feed.feed
wants 0 "trio-job 2\n$find$held" '' upgrade feed.feed --to 2
wants 0 "trio-job 2\njob main{find\"er\";}\n$held" '' upgrade feed.feed --to 2 --canonical
wants 1 '' 'feed.feed:2:11: not formatted from here on\njob main {\n          ^\n' fmt feed.feed --check
wants 0 '' '' fmt feed.feed --write
printf "trio-job 1\n$find$held" | cmp -s - feed.feed || fail 'the feed is not formatted, or has another input'
wants 0 '' '' fmt feed.feed --check
printf 'trio-job 1\njob main { find "o"; }\n%%input\n\377\0\no' > bytes.feed
cp bytes.feed kept.feed
wants 0 '' '' fmt bytes.feed --write
cmp -s kept.feed bytes.feed || fail 'a formatted feed was changed'
printf 'trio-job 1\njob main { sleep }\n%%input\nx\n' > wrong.feed
for command in run explain check fmt upgrade lint trio; do
    wants 2 'refused J6 Syntax at 28\n' 'wrong.feed:2:18: expected a number\njob main { sleep }\n                 ^\n' $command wrong.feed
done

# ---- the story

story='tick 0\n  main  starts\n  main  sleeps until 2\ntick 2\n  main  raises Boom\n  main  ends: raised Boom(main@2)\n'
wants 0 'tick 0\n  main  starts\n  main  finds 1 line\n  main  ends: done\n' '' explain find.job log.txt
wants 0 'tick 0\n  main  starts\n  main  finds no line\n  main  ends: done\n' '' explain find.job
printf 'trio-job 3\njob main { need "zz" Gone; }\n' > need.job
missed='tick 0\n  main  starts\n  main  finds no line and raises Gone\n  main  ends: raised Gone(main@0)\n'
wants 1 "$missed" '' explain need.job log.txt
printf 'trio-job 3\njob main { scope s after 2 { nursery n { start a { forever; } forever; } } }\n' > leave.job
left='tick 0\n  a  starts in nursery n\n  a  sleeps forever\ntick 2\n  a  is cancelled while sleeping since 0 by scope s (deadline)\n  a  ends: cancelled\n'
wants 0 "$left" '' explain leave.job --task a
wants 1 "$story" '' explain raise.job log.txt
wants 1 "$story" '' explain raise.job --limit 2 --workers 64
wants 1 "$story" '' explain raise.job --task main
wants 3 'tick 0\n  main  starts\n  main  sleeps until 2\nlimit 1\n  main  sleeping until 2 since 0\n' '' explain raise.job --limit 1
wants 3 'tick 0\n  main  starts\n  main  sleeps forever\nlimit 1000000\n  main  sleeping forever since 0\n' '' explain forever.job
wants 2 '' 'error: no task has the label `mian`: did you mean `main`?\n' explain raise.job --task mian
longest=$(head -c 384 /dev/zero | tr '\0' a)
wants 2 '' "error: no task has the label \`$longest\`: did you mean \`main\`?\n" explain raise.job --task "$longest"
wants 2 '' 'error: no task has the label of `--task`: a label has at most 384 bytes\n' explain raise.job --task "a$longest"
printf 'trio-job 3\njob hedge {\n  nursery calls {\n    start fast { sleep 2; cancel calls; }\n    start slow { sleep 9; }\n  }\n}\n' > hedge.job
slow='tick 0\n  fast  starts in nursery calls\n  fast  sleeps until 2\n  slow  starts in nursery calls\n  slow  sleeps until 9\ntick 2\n  fast  cancels nursery calls from 2\n  fast  ends: done\n  slow  is cancelled while sleeping since 0 by nursery calls (cancelled by fast at 2)\n  slow  ends: cancelled\n'
wants 0 "$slow" '' explain hedge.job --task slow
helps explain "$slow"
cp raise.job in
wants 1 "$story" '' explain -
: > in

# ---- fmt

formatted='trio-job 1\njob main {\n  sleep 2;\n  raise Boom;\n}\n'
differs='2:11: not formatted from here on\njob main { sleep 2; raise Boom; }\n          ^\n'
wants 0 "$formatted" '' fmt raise.job
wants 1 '' "raise.job:$differs" fmt raise.job --check
cp raise.job in
wants 0 "$formatted" '' fmt -
words='fmt --check -'
holds 1 err '-:2:11: not formatted from here on'
: > in
cp raise.job mine.job
chmod 640 mine.job
ln -s mine.job link.job
# What lies at the name of the new file is left alone: the next free name is taken, and after 100 the command refuses.
echo theirs > theirs
ln -s theirs mine.job.nursery-new
ln theirs mine.job.nursery-new-1
mkfifo mine.job.nursery-new-2
mkdir mine.job.nursery-new-3
wants 0 '' '' fmt link.job --write
[ "$(cat theirs)" = theirs ] && [ -L mine.job.nursery-new ] && [ -p mine.job.nursery-new-2 ] || fail 'a file at the name of the new file was touched'
[ ! -e mine.job.nursery-new-4 ] || fail 'a file was left beside the job file'
cp raise.job full.job
: > full.job.nursery-new
for number in $(seq 1 99); do : > "full.job.nursery-new-$number"; done
wants 4 '' "cannot write the job file\\n$PWD/full.job.nursery-new-99: already there, as 99 files with lower numbers are\\n" fmt full.job --write
cmp -s raise.job full.job || fail 'the job file is not as it was'
rm -r mine.job.nursery-new* full.job.nursery-new*
cp raise.job kept.job
chmod a-w kept.job
wants 4 '' "cannot write the job file\\n$PWD/kept.job: permission denied\\n" fmt kept.job --write
cmp -s raise.job kept.job || fail 'a file without write permission was replaced'
# What is not a regular file is refused before it is read: this FIFO has no writer.
mkfifo pipe.job
wants 4 '' "cannot write the job file\\n$PWD/pipe.job: not a regular file\\n" fmt pipe.job --write
[ -p pipe.job ] || fail 'a FIFO was replaced'
mkdir folder.job
wants 4 '' "cannot write the job file\\n$PWD/folder.job: not a regular file\\n" fmt folder.job --write
printf "$formatted" | cmp -s - mine.job || fail 'the job file is not formatted'
[ -L link.job ] || fail 'the link was replaced'
[ "$(stat -c %a mine.job)" = 640 ] || fail 'the job file has other permissions'
[ ! -e mine.job.nursery-new ] || fail 'a file was left beside the job file'
for mode in '' --check --write; do
    # An empty mode is no word.
    wants 0 "$([ "$mode" ] || printf '%s' "$formatted")" '' fmt mine.job $mode
done
printf 'trio-job 1\njob main { sleep }\n' > wrong.job
wrong='wrong.job:2:18: expected a number\njob main { sleep }\n                 ^\n'
wants 2 'refused J6 Syntax at 28\n' "$wrong" fmt wrong.job
wants 2 '' "$wrong" fmt wrong.job --check
wants 2 '' "$wrong" fmt wrong.job --write
printf 'trio-job 1\njob main { sleep }\n' | cmp -s - wrong.job || fail 'a refused job was written'
{
    printf 'trio-job 1\njob a{'
    for depth in $(seq 31); do printf 'scope s%s{' "$depth"; done
    for step in $(seq 900); do printf 'checkpoint;'; done
    for depth in $(seq 32); do printf '}'; done
} > deep.job
cp deep.job kept.job
for mode in '' --check --write; do
    wants 2 '' 'error: the formatted text would have 70830 bytes: a job text has at most 65536\n' fmt deep.job $mode
done
cmp -s kept.job deep.job || fail 'a job with a text that is too long was written'
wants 4 '' 'cannot read the job file\nnone.job: no such file\n' fmt none.job --write
wants 4 '' 'cannot read the job file\na_folder: is a directory\n' fmt a_folder
helps fmt 'job hedge { nursery both { start fast { sleep 2; cancel both; } start slow { sleep 9; } } }\n'
printf 'trio-job 3\njob hedge { nursery both { start fast { sleep 2; cancel both; } start slow { sleep 9; } } }\n' > hedge_in_a_line.job
wants 0 'trio-job 3\njob hedge {\n  nursery both {\n    start fast {\n      sleep 2;\n      cancel both;\n    }\n    start slow { sleep 9; }\n  }\n}\n' '' fmt hedge_in_a_line.job
printf 'trio-job 3\njob m { channel q 1 { limiter pool 2 { nursery n { start a { acquire pool { send q; } } start b { receive q { # kept\nclose q; } } } } } }\n' > objects.job
wants 0 'trio-job 3\njob m {\n  channel q 1 {\n    limiter pool 2 {\n      nursery n {\n        start a {\n          acquire pool { send q; }\n        }\n        start b {\n          receive q { # kept\n            close q;\n          }\n        }\n      }\n    }\n  }\n}\n' '' fmt objects.job
helps fmt 'trio-job 3\njob hedge {\n  nursery both {\n    start fast {\n      sleep 2;\n      cancel both;\n    }\n    start slow { sleep 9; }\n  }\n}\n'

# ---- scale

printf 'trio-job 3\njob call {\n  repeat 3 {\n    scope attempt after 2 { sleep 5; }\n  }\n}\n' > call.job
scaled='trio-job 3\njob call {\n  repeat 3 {\n    scope attempt after 2000 { sleep 5000; }\n  }\n}\n'
wants 0 "$scaled" '' scale 1000 call.job
helps scale "$scaled"
wants 0 "$(cat call.job)\n" '' scale 1 call.job
printf 'trio-job 3\n# in seconds\njob a { nursery n after 3 { start b over 2 { head 4; pace 7; sleep 0; } } } # end\n' > all.job
wants 0 'trio-job 3\n# in seconds\njob a { nursery n after 30 { start b over 2 { head 4; repeat 10 { pace 7; } sleep 0; } } } # end\n' '' scale 10 all.job
printf 'trio-job 1\njob a { scope s at 4 { sleep 1; } }\n%%input\nsleep 1;\n' > held.feed
wants 0 'trio-job 2\njob a { scope s at 12 { sleep 3; } }\n%%input\nsleep 1;\n' '' scale 3 held.feed
wants 2 '' 'call.job times 200000001:4:43: a number that is out of its range or has a leading zero\n    scope attempt after 400000002 { sleep 1000000005; }\n                                          ^\nthe number here is from 0 to 1000000000\n' scale 200000001 call.job
wants 2 'refused J6 Syntax at 28\n' "$wrong" scale 2 wrong.job
words='scale 0 call.job'; holds 2 err "'<N>'" '1..=1000000000'
words='scale call.job'; holds 2 err "'call.job'" "'<N>'"
words='scale 3'; holds 2 err '<JOB>'
wants 4 '' 'cannot read the job file\nnone.job: no such file\n' scale 2 none.job

# ---- lint, trio, completions, man

printf 'trio-job 3\njob late {\n  try { sleep 5; } except Timeout { find "late"; }\n}\n' > late.job
late='late.job:3:20: nothing in this `try` raises Timeout, so its handler never runs\n  try { sleep 5; } except Timeout { find "late"; }\n                   ^\n'
wants 1 "$late" '' lint late.job
helps lint "$late"
printf 'trio-job 1\njob m { try { } except A { }\n\n  try { } except B { } }' > twice.job
twice='twice.job:2:17: nothing in this `try` raises A, so its handler never runs\njob m { try { } except A { }\n                ^\ntwice.job:4:11: nothing in this `try` raises B, so its handler never runs\n  try { } except B { } }\n          ^\n'
wants 1 "$twice" '' lint twice.job
wants 0 '' '' lint raise.job
# The scope `due` of the heartbeat has no deadline, and shows when its block is cut off.
sed '/^%input$/,$d' "${nursery%/crates/*}/examples/heartbeat.feed" > heartbeat.job
wants 0 '' '' lint heartbeat.job
printf 'trio-job 2\njob late {\n  scope budget fail {\n    scope call after 1 {\n      try { sleep 4; } finally { cancel budget; }\n    }\n  }\n}\n' > outer.job
outer='outer.job:5:34: `cancel budget` in a cleanup or handler takes effect a tick later than in Trio, which may change the outcome: format 3 has Trio'\''s outcome\n      try { sleep 4; } finally { cancel budget; }\n                                 ^\n'
wants 1 "$outer" '' lint outer.job
sed 's/trio-job 2/trio-job 3/' outer.job > outer_in_rounds.job
wants 0 '' '' lint outer_in_rounds.job
wants 2 'refused J6 Syntax at 28\n' "$wrong" lint wrong.job
wants 4 '' 'cannot read the job file\nnone.job: no such file\n' lint none.job
words='trio raise.job'
holds 0 out 'as a program on plain Trio' 'import trio' 'await trio.sleep(2)' 'raise Boom' '--ticks' '--seeds'
wants 2 'refused J6 Syntax at 28\n' "$wrong" trio wrong.job
words='completions bash'
holds 0 out 'complete -o filenames -F _nursery nursery'
words='completions zsh'
holds 0 out '#compdef nursery'
words='completions fish'
holds 0 out 'complete -c nursery'
words='man'
holds 0 out '.TH NURSERY 1 "" "nursery 0.1.0"'
words='completions tcsh'
holds 2 err 'bash, zsh, fish'

# ---- chart

wants 0 '      0\nmain  | done\n' '' chart find.job
wants 0 '      0\nmain  | done\n' '' chart find.job log.txt --width 20
drawn='      0  2\nmain  |--! raised Boom(main@2)\n'
wants 1 "$drawn" '' chart raise.job log.txt
wants 1 "$drawn" '' chart raise.job --workers 64
wants 1 '      0\n       2\nmain  |! raised Bo..\n' '' chart raise.job --width 20
wants 3 '      0 1\nmain  |-- running\nlimit 1\n' 'these tasks have not ended:\n  main  sleeping until 2 since 0\n' chart raise.job --limit 1
wants 3 '      0                    1000000\nmain  |--------------------- running\nlimit 1000000\n' 'these tasks have not ended:\n  main  sleeping forever since 0\n' chart forever.job
# A chart that is too wide is continued below: no tick is left out.
printf 'trio-job 3\njob main { repeat 30 { sleep 1; } }\n' > ticks.job
panels='      0 2 4 6 8\n       1 3 5 7 9\nmain  |---------~\n      10 13 16 19\n       11 14 17\n        12 15 18\nmain ~----------~\n'
panels="$panels"'      20 23 26 29\n       21 24 27\n        22 25 28\nmain ~----------~\n      30\nmain ~| done\n'
wants 0 "$panels" '' chart ticks.job --width 20
# Before that the gaps are narrower: here by two places, with which twelve columns fit into 29 places.
printf 'trio-job 3\njob main { repeat 5 { sleep 1; } sleep 95; repeat 5 { sleep 1; } }\n' > gap.job
wants 0 '      0 2 4      100 102 104\n       1 3 5       101 103 105\nmain  |--------------------| done\n' '' chart gap.job --width 40
COLUMNS=20
export COLUMNS
wants 1 '      0\n       2\nmain  |! raised Bo..\n' '' chart raise.job
wants 1 "$drawn" '' chart raise.job --width 80
COLUMNS=wide
wants 1 "$drawn" '' chart raise.job
unset COLUMNS
cp raise.job in
wants 1 "$drawn" '' chart -
: > in
printf 'trio-job 3\njob both {\n  nursery calls {\n    start user { sleep 3; raise Refused; }\n    start mail { sleep 9; }\n  }\n}\n' > both.job
both='                 0  3\nboth             |--| raised calls[Refused(user@3)]\n  nursery calls  (==x caught\nuser             |--! raised Refused(user@3)\nmail             |--x cancelled\n'
wants 1 "$both" '' chart both.job
helps chart "$both"
words='chart both.job --svg'
holds 1 out '<svg xmlns="http://www.w3.org/2000/svg"' '<title>both</title>' 'nursery calls is cancelled from 3' '</svg>'

# ---- page

printf '<script>alert(1)</script>\n]]>\n' > markup.txt
printf 'trio-job 3\njob main { find "<"; find "]]>"; }\n' > markup.job
words='page markup.job markup.txt'
holds 0 out '<!DOCTYPE html>' '<h1>main</h1>' '  line 0+25 &lt;script&gt;alert(1)&lt;/script&gt;' '  line 26+3 ]]&gt;' \
    'nursery page markup.job markup.txt --limit 1000000</footer>'
if "$nursery" page markup.job markup.txt | grep -q '<script'; then fail 'a line of the input is markup in a page'; fi
words='page both.job --workers 64'
holds 1 out '<p class="outcome">both: 3 raised calls[Refused(user@3)]; cancelled: mail</p>' '<a href="#line-5">5:7</a>'
name='nursery page forever.job --limit 7' got=0
"$nursery" page forever.job --limit 7 > out 2> err || got=$?
[ "$got" = 3 ] || fail "status $got, wanted 3"
shows out '<summary>Report</summary><pre>limit 7'
shows err 'main  sleeping forever since 0'
wants 4 '' 'cannot read the input file\nnone.txt: no such file\n' page both.job none.txt
wants 2 'refused J6 Syntax at 28\n' "$wrong" page wrong.job

# ---- faults

none='    as it is  0 done\n0 faults: 0 stuck, 0 cut a cleanup, 0 lost, 0 not reached\n'
wants 0 "$none" '' faults find.job
wants 0 "$none" '' faults find.job log.txt --deny stuck,cut,lost
hung='2:12  sleep 2  hangs       stuck at 1000000; sleeping forever: main\n'
faulty="               as it is    2 raised Boom(main@2)\n2:12  sleep 2  fails       0 raised Fault(main@0)\n2:12  sleep 2  fails late  2 raised Fault(main@2)\n${hung}2:12  sleep 2  cancelled   1 done\n4 faults: 1 stuck, 0 cut a cleanup, 0 lost, 0 not reached\n"
wants 0 "$faulty" '' faults raise.job log.txt
wants 0 "$faulty" '' faults raise.job --workers 64
wants 0 "$faulty" '' faults raise.job --deny cut,lost
wants 1 "$faulty" "$hung" faults raise.job --deny stuck
wants 1 "$faulty" "$hung" faults raise.job --deny lost,stuck --workers 3
wants 0 "$(printf "$faulty" | sed 's/Fault/Late/g')\n" '' faults raise.job --name Late
at_one=$(printf "$faulty" | sed 's/2 raised Boom(main@2)/stuck at 1/; s/2 raised Fault(main@2)/stuck at 1; not reached/; s/1000000/1/; s/^4 faults: 1 stuck, 0 cut a cleanup, 0 lost, 0/4 faults: 2 stuck, 0 cut a cleanup, 0 lost, 1/')
wants 0 "$at_one\n" '' faults raise.job --limit 1
cp raise.job in
wants 0 "$faulty" '' faults -
: > in
wants 2 '' 'error: `late` cannot be denied: --deny takes `stuck`, `cut` and `lost`, with commas between them\n' faults raise.job --deny stuck,late
for word in sleep Cancelled TooSlow 1st a-b ''; do
    wants 2 '' "error: no step can raise \`$word\`: --name takes names with commas between them, each a letter, then letters, digits and \`_\`, at most 32 in all, and no keyword, \`Cancelled\` or \`TooSlow\`\n" faults raise.job --name "$word"
done

printf 'trio-job 1\njob cut {\n  nursery both {\n    start hung { scope safe shield { sleep 5; } }\n    start quick { try { forever; } finally { sleep 2; } }\n    start stop { sleep 1; cancel both; }\n  }\n}\n' > cut.job
# What is cut without a fault too is not denied, and is not counted; what is cut with a fault alone is.
words='faults cut.job --deny cut'; holds 0 out 'cleanup cut: quick' 'stuck, 0 cut a cleanup'
printf 'trio-job 3\njob cut {\n  nursery both {\n    start quick { try { sleep 1; } finally { sleep 2; } }\n    start other { sleep 5; }\n  }\n}\n' > cuts.job
all_cut='4:25  sleep 1  cancelled   0 done; cancelled: quick, other; cleanup cut: quick\n4:46  sleep 2  cancelled   1 done; cancelled: quick, other; cleanup cut: quick\n5:19  sleep 5  fails       0 raised both[Fault(other@0)]; cancelled: quick; cleanup cut: quick\n5:19  sleep 5  cancelled   0 done; cancelled: quick, other; cleanup cut: quick\n'
words='faults cuts.job --deny cut'; holds_denied=$("$nursery" $words 2>&1 > /dev/null || true)
name="nursery $words"
printf '%s\n' "$holds_denied" > err
shows err "$(printf "$all_cut")"
printf 'trio-job 3\njob calls {\n  nursery all {\n    start user { sleep 2; }\n    start mail { scope limit after 5 { sleep 3; } }\n  }\n}\n' > calls.job
calls='               as it is    3 done\n4:18  sleep 2  fails       0 raised all[Fault(user@0)]; cancelled: mail\n4:18  sleep 2  fails late  2 raised all[Fault(user@2)]; cancelled: mail\n4:18  sleep 2  hangs       stuck at 1000000; sleeping forever: user\n4:18  sleep 2  cancelled   0 done; cancelled: user, mail\n5:40  sleep 3  fails       0 raised all[Fault(mail@0)]; cancelled: user\n5:40  sleep 3  fails late  3 raised all[Fault(mail@3)]\n5:40  sleep 3  hangs       5 done\n5:40  sleep 3  cancelled   0 done; cancelled: user, mail\n8 faults: 1 stuck, 0 cut a cleanup, 0 lost, 0 not reached\n'
wants 0 "$calls" '' faults calls.job
helps faults "$calls"
# Several exceptions, single copies and passes, and only what differs.
printf 'trio-job 3\njob read {\n  nursery all {\n    start shard over 2 { sleep 2; }\n  }\n}\n' > shards.job
wants 0 '               as it is               2 done\n4:26  sleep 2  fails                  0 raised all[Fault(shard.0@0), Fault(shard.1@0)]\n4:26  sleep 2  fails late             2 raised all[Fault(shard.0@2), Fault(shard.1@2)]\n4:26  sleep 2  hangs                  stuck at 1000000; sleeping forever: shard.0, shard.1\n4:26  sleep 2  cancelled              0 done; cancelled: shard.0, shard.1\n4:26  sleep 2  fails in shard.0       0 raised all[Fault(shard_0.0@0)]; cancelled: shard_after_0.0\n4:26  sleep 2  fails late in shard.0  2 raised all[Fault(shard_0.0@2)]\n4:26  sleep 2  hangs in shard.0       stuck at 1000000; sleeping forever: shard_0.0\n4:26  sleep 2  cancelled in shard.0   0 done; cancelled: shard_0.0, shard_after_0.0\n4:26  sleep 2  fails in shard.1       0 raised all[Fault(shard_1.0@0)]; cancelled: shard.0\n4:26  sleep 2  fails late in shard.1  2 raised all[Fault(shard_1.0@2)]\n4:26  sleep 2  hangs in shard.1       stuck at 1000000; sleeping forever: shard_1.0\n4:26  sleep 2  cancelled in shard.1   0 done; cancelled: shard.0, shard_1.0\n12 faults: 3 stuck, 0 cut a cleanup, 0 lost, 0 not reached\n' '' faults shards.job --each
wants 0 '               as it is      2 done\n4:26  sleep 2  fails A       0 raised all[A(shard.0@0), A(shard.1@0)]\n4:26  sleep 2  fails B       0 raised all[B(shard.0@0), B(shard.1@0)]\n4:26  sleep 2  fails late A  2 raised all[A(shard.0@2), A(shard.1@2)]\n4:26  sleep 2  fails late B  2 raised all[B(shard.0@2), B(shard.1@2)]\n4:26  sleep 2  hangs         stuck at 1000000; sleeping forever: shard.0, shard.1\n4:26  sleep 2  cancelled     0 done; cancelled: shard.0, shard.1\n6 faults: 1 stuck, 0 cut a cleanup, 0 lost, 0 not reached\n' '' faults shards.job --name A,B
printf 'trio-job 3\njob tries {\n  repeat 2 {\n    scope attempt after 1 { sleep 5; }\n  }\n}\n' > tries.job
wants 0 '               as it is                   2 done\n4:29  sleep 5  fails                      0 raised Fault(tries@0)\n4:29  sleep 5  cancelled                  0 done\n4:29  sleep 5  fails in pass 1 of 2       0 raised Fault(tries@0)\n4:29  sleep 5  cancelled in pass 1 of 2   0 done\n4:29  sleep 5  fails in pass 2 of 2       1 raised Fault(tries@1)\n4:29  sleep 5  cancelled in pass 2 of 2   1 done\n12 faults: 0 stuck, 0 cut a cleanup, 0 lost, 3 not reached\n' '' faults tries.job --each --brief
words='faults tries.job --each --brief --json'; holds 0 out '"part":"pass 2 of 2"' '"exception":"Fault"' '"more":false}'
printf 'trio-job 3\njob parts {\n  nursery all {\n    start shard over 2 { pace 1; }\n    start other { find "a"; sleep 1; }\n  }\n}\n' > parts.job
printf 'a\nb\nc\n' > parts.txt
untried='copies or passes that pace or need lines were not tried singly: each has its own part of the input\n'
wants 0 "               as it is    2 done\n4:26  pace 1   fails       0 raised all[Fault(shard.0@0), Fault(shard.1@0)]; cancelled: other\n4:26  pace 1   fails late  1 raised all[Fault(shard.1@1)]; cancelled: shard.0\n4:26  pace 1   hangs       stuck at 1000000; sleeping forever: shard.0, shard.1\n4:26  pace 1   cancelled   0 done; cancelled: shard.0, shard.1, other\n5:29  sleep 1  fails       0 raised all[Fault(other@0)]; cancelled: shard.0, shard.1\n5:29  sleep 1  fails late  1 raised all[Fault(other@1)]; cancelled: shard.0\n5:29  sleep 1  hangs       stuck at 1000000; sleeping forever: other\n5:29  sleep 1  cancelled   0 done; cancelled: shard.0, shard.1, other\n8 faults: 2 stuck, 0 cut a cleanup, 0 lost, 0 not reached\n$untried" '' faults parts.job parts.txt --each
words='faults parts.job parts.txt --each --json'; holds 0 out '"divided":true'
words='faults parts.job --each'; holds 0 out 'fails in shard.0' 'hangs in shard.1' '16 faults: '
printf 'trio-job 3\njob tries {\n  repeat 1000 {\n    checkpoint;\n  }\n}\n' > many.job
words='faults many.job --each'; holds 0 out 'fails in pass 1 of 1000' 'fails in pass 334 of 1000' '1003 faults: ' 'only the first 1000 faults in single copies and passes were tried'

# ---- races

printf 'trio-job 3\njob both {\n  nursery pair {\n    start a { sleep 5; cancel pair; }\n    start b { sleep 5; }\n  }\n}\n' > both.job
hairs='4:15  sleep 5  earlier  both: other lines or scopes; b: done -> cancelled\n 5:5  start b  later    both: other lines or scopes; b: done -> cancelled\n5:15  sleep 5  later    both: other lines or scopes; b: done -> cancelled\n'
both="${hairs}6 hairs: 3 races\n"
wants 0 "$both" '' races both.job
wants 0 "$both" '' races both.job log.txt --workers 64
wants 1 "$both" "$hairs" races both.job --deny
wants 0 "$both" '' races both.job --limit 6
helps races "$both"
wants 0 '0 hairs: no race\n' '' races find.job log.txt --deny
wants 0 '2 hairs: no race\n' '' races raise.job --deny --workers 3
wants 3 'limit 1\n' 'these tasks have not ended:\n  main  sleeping until 2 since 0\n' races raise.job --limit 1
printf 'trio-job 2\njob untried {\n  nursery ws {\n    start w over 8 { repeat 64 { pace 100; } }\n    start x { sleep 5; cancel ws; }\n  }\n}\n' > untried.job
untried='                finer    not tried: J11 at 0\n 4:5  start w   later    not tried: J11 at 0\n4:34  pace 100  later    not tried: J11 at 0\n 5:5  start x   later    not tried: J11 at 0\n5:15  sleep 5   earlier  not tried: J11 at 0\n5:15  sleep 5   later    not tried: J11 at 0\n'
wants 0 "${untried}5 hairs: 0 races, 5 hairs not tried\n" '' races untried.job
wants 1 "${untried}5 hairs: 0 races, 5 hairs not tried\n" "$untried" races untried.job --deny
printf 'trio-job 1\njob round { sleep 1000000; }\n' > round.job
wants 0 '2 hairs: no race\n' '' races round.job --limit 2000000 --deny
printf 'trio-job 2\njob long {\n  nursery n {\n    start f { forever; }\n    repeat 1000 { repeat 2 { sleep 1000000; } }\n    cancel n;\n  }\n}\n' > long.job
wants 0 '3 hairs: no race\n' '' races long.job --limit 4294967295 --deny
printf 'trio-job 1\njob late { scope s after 100000000 { sleep 1; } }\n' > late.job
wants 2 '' 'error: a `sleep`, `after` or `at` of more than 99999999 ticks has no finer ticks: use a coarser unit of time\n' races late.job
cp both.job in
wants 1 "$both" "$hairs" races - --deny
: > in

# ---- sweeps

printf 'trio-job 3\njob fetch {\n  scope limit after 5 fail { sleep 3; sleep 4; }\n}\n' > fetch.job
fetch='as it is  raised TooSlow(limit), ends 5\n1..7      raised TooSlow(limit), ends 1..7\n8..20     done, ends 7\n20 values: 0 stuck, 0 cut a cleanup\n'
wants 0 "$fetch" '' sweep fetch.job --of limit --values 1..20
wants 0 "$fetch" '' sweep fetch.job log.txt --at 3:21 --values 1..20:1 --workers 64
helps sweep "$fetch"
two='as it is  raised TooSlow(limit), ends 5\n7         raised TooSlow(limit), ends 7\n8         done, ends 7\n2 values: 0 stuck, 0 cut a cleanup\n'
wants 0 "$two" '' sweep fetch.job --at 3:21 --values 7..8
helps sweep "$two"
wants 0 'as it is  raised TooSlow(limit), ends 5\n6         raised TooSlow(limit), ends 6\n11..16    done, ends 7\n3 values: 0 stuck, 0 cut a cleanup\n' '' sweep fetch.job --of limit --values 6..20:5
wants 0 'as it is  raised TooSlow(limit), ends 5\n5         raised TooSlow(limit), ends 5\n1 value: 0 stuck, 0 cut a cleanup\n' '' sweep fetch.job --of limit --values 5..5
wants 0 'as it is                raised TooSlow(limit), ends 5\n1000000000              done, ends 7\n1000000001..1000000002  refused\n3 values: 0 stuck, 0 cut a cleanup, 2 refused\n' '' sweep fetch.job --of limit --values 1000000000..1000000002
wants 0 'as it is  stuck at 4\n1..4      raised TooSlow(limit), ends 1..4\n5         stuck at 4\n5 values: 1 stuck, 0 cut a cleanup\n' '' sweep fetch.job --of limit --values 1..5 --limit 4
cp fetch.job in
wants 0 "$fetch" '' sweep - --of limit --values 1..20
: > in
wants 2 '' 'error: no scope or nursery has the name `limt`: did you mean `limit`?\n' sweep fetch.job --of limt --values 1..2
wants 2 '' 'error: no scope or nursery has the name `limit`: the job has none\n' sweep raise.job --of limit --values 1..2
wants 2 '' 'error: `calls` has no deadline that could be varied: give it `after N`\n' sweep hedge.job --of calls --values 1..2
wants 2 '' 'error: the job text has no line 3 with a column 50\n' sweep fetch.job --at 3:50 --values 1..2
wants 2 '' 'error: the job text has no line 0 with a column 1\n' sweep fetch.job --at 0:1 --values 1..2
wants 2 '' 'fetch.job:3:9: no number begins here\n  scope limit after 5 fail { sleep 3; sleep 4; }\n        ^\n' sweep fetch.job --at 3:9 --values 1..2
wants 2 '' 'fetch.job:5:1: no number begins here\n\n^\n' sweep fetch.job --at 5:1 --values 1..2
wants 2 '' 'error: `a b` is no name: --of takes the name of a scope or nursery\n' sweep fetch.job --of 'a b' --values 1..2
for place in 3 3: :21 a:1 3:21:4; do
    wants 2 '' "error: \`$place\` is no place: --at takes LINE:COL, as 4:18\n" sweep fetch.job --at "$place" --values 1..2
done
for span in '' 1 1.. ..5 5..4 1..9:0 1..9: a..b 1..5000000000 1..2..3; do
    wants 2 '' "error: \`$span\` gives no values: --values takes A..B or A..B:STEP, as 1..60 or 10..100:5, with A at most B and STEP at least 1\n" sweep fetch.job --of limit --values "$span"
done
wants 2 '' 'error: `0..100000` has more than 100000 values\n' sweep fetch.job --of limit --values 0..100000
name='nursery sweep with 100000 values'
"$nursery" sweep fetch.job --of limit --values 1..100000 --workers 4 > out 2> err || fail "$(cat err)"
printf 'as it is   raised TooSlow(limit), ends 5\n1..7       raised TooSlow(limit), ends 1..7\n8..100000  done, ends 7\n100000 values: 0 stuck, 0 cut a cleanup\n' | cmp -s - out || fail "standard output: $(cat out)"
cases=$((cases + 1))

# ---- 2: a refused job, printed with its place

# refuses TEXT LINE TOLD: the job text is refused by all six commands, with that line and that text after `bad.job:`.
refuses() {
    printf "$1" > bad.job
    wants 2 "$2\n" "bad.job:$3\n" run bad.job log.txt
    wants 2 "$2\n" "bad.job:$3\n" check bad.job
    wants 2 "$2\n" "bad.job:$3\n" upgrade bad.job
    wants 2 "$2\n" "bad.job:$3\n" explain bad.job
    wants 2 "$2\n" "bad.job:$3\n" faults bad.job
    wants 2 "$2\n" "bad.job:$3\n" sweep bad.job --at 1:1 --values 1..2
}

refuses 'trio-job 1\njob main { sleep }\n' 'refused J6 Syntax at 28' \
    '2:18: expected a number\njob main { sleep }\n                 ^'
refuses 'trio-job 1\njob main {\n  sleep 1\n}\n' 'refused J6 Syntax at 32' '4:1: expected `;`\n}\n^\na `;` is missing after the step before it'
refuses 'trio-job 1\njob main {\n\tfind "\303\244";\n}\n' 'refused J2 NotAscii at 29' \
    '3:8: this byte is not ASCII\n find "??";\n       ^'
refuses 'trio-job 4\n' 'refused J3 Version at 0' \
    '1:1: a job text begins with the line `trio-job 1`, `trio-job 2` or `trio-job 3`, ended by a newline alone\ntrio-job 4\n^\nthe formats are 1, 2 and 3: begin a new job text with the line `trio-job 3`'
refuses 'trio-job 1\r\njob main { }\n' 'refused J3 Version at 0' \
    '1:1: a job text begins with the line `trio-job 1`, `trio-job 2` or `trio-job 3`, ended by a newline alone\ntrio-job 1 \n^\nits line ends are carriage returns and newlines: save it with newlines alone'
refuses 'trio-job 1\njob main { sleep 1s; }\n' 'refused J4 Token at 28' \
    '2:18: a letter or `_` directly follows this number\njob main { sleep 1s; }\n                 ^\na number is digits alone: times are whole ticks without a unit, as in `sleep 500;`'
refuses 'trio-job 1\njob main { pace 0; }\n' 'refused J5 Number at 27' \
    '2:17: a number that is out of its range or has a leading zero\njob main { pace 0; }\n                ^\nthe number after `pace` is from 1 to 1000000'
refuses 'trio-job 1\njob main { scope s { } scope s { } }\n' 'refused J8 Twice at 40' \
    '2:30: this name was given before: jobs, scopes, nurseries, events, limiters, channels and starts need names of their own\njob main { scope s { } scope s { } }\n                             ^\nit was first given at bad.job:2:18'
refuses 'trio-job 1\njob main { slep 1; }\n' 'refused J6 Syntax at 22' \
    '2:12: expected a step, as `sleep 1;`, or `}` (a `start` only directly inside a nursery or a `repeat` there)\njob main { slep 1; }\n           ^\ndid you mean `sleep`?'
refuses 'trio-job 1\njob main { repeat 2 { } }\n' 'refused J6 Syntax at 22' \
    '2:12: expected a step, as `sleep 1;`, or `}` (a `start` only directly inside a nursery or a `repeat` there)\njob main { repeat 2 { } }\n           ^\nformat 2 has this: begin the job text with the line `trio-job 2`'
refuses 'trio-job 2\njob main { repeat 1000 { repeat 1000 { } } }\n' 'refused J11 TooLarge at 0' \
    '1:1: the job has more than 1000000 steps, in format 1 more than 100000, the copies that `over` makes and the passes of `repeat` counted\ntrio-job 2\n^\nthe job has 1002001 steps'
refuses 'trio-job 1\njob main {\n  scope s {\n    sleep 1;\n}\n' 'refused J6 Syntax at 49' \
    '6:1: expected a step, as `sleep 1;`, or `}` (a `start` only directly inside a nursery or a `repeat` there)\n\n^\nthe innermost block that is not closed begins at bad.job:2:10'
refuses 'trio-job 1\njob main { cancel x; }\n' 'refused J9 NotEnclosing at 29' \
    '2:19: no enclosing scope or nursery has this name\njob main { cancel x; }\n                  ^\nno scope or nursery is around this `cancel`'
refuses 'trio-job 1\njob main { raise Cancelled; }\n' 'refused J10 Reserved at 28' \
    '2:18: this name is reserved: a name must not be a keyword or `Cancelled`, and `TooSlow` is allowed only after `except`\njob main { raise Cancelled; }\n                 ^'
nest=$(printf 'scope s%d { ' 1 2 3 4 5 6 7 8 9 10 11 12 13 14 15 16 17 18 19 20 21 22 23 24 25 26 27 28 29 30 31 32)
printf 'trio-job 1\njob main { %s' "$nest" > bad.job
for _ in 0 1 2 3 4 5 6 7 8 9 10 11 12 13 14 15 16 17 18 19 20 21 22 23 24 25 26 27 28 29 30 31 32; do printf '}' >> bad.job; done
words='check bad.job'
name="nursery $words"
got=0
"$nursery" check bad.job > out 2> err || got=$?
[ "$got" = 2 ] || fail "status $got"
shows out 'refused J7 Depth at '
shows err ': blocks are nested more than 32 deep'
cases=$((cases + 1))

# A file's name with a control character is printed escaped, on one line.
odd=$(printf 'odd\nname.job')
printf 'trio-job 1\njob main { sleep }\n' > "$odd"
wants 2 'refused J6 Syntax at 28\n' '"odd\\nname.job":2:18: expected a number\njob main { sleep }\n                 ^\n' check "$odd"

# So is a word of the command line: it can neither write a line of its own nor command the terminal.
forged=$(printf 'x\n9 passed\033[1m')
escapes() {
    name="nursery $*"
    got=0
    "$nursery" "$@" < in > out 2> err || got=$?
    [ "$got" != 0 ] || fail "status 0"
    [ ! -s out ] || fail "standard output: $(cat -v out)"
    shows err 'x\n9 passed\u{1b}[1m'
    if LC_ALL=C tr -d '\n' < err | LC_ALL=C grep -q '[[:cntrl:]]'; then fail "a control character in: $(cat -v err)"; fi
    if grep -q '^9 passed' err; then fail "a line of its own in: $(cat -v err)"; fi
    cases=$((cases + 1))
}
escapes "$forged"
escapes "$forged.job"
escapes "$forged.feed"
escapes "--$forged"
escapes completions "$forged"
escapes run find.job log.txt "--limit=$forged"
escapes run find.job log.txt --workers "$forged"
escapes run find.job "$forged"
escapes run "$forged" log.txt
escapes explain find.job log.txt --task "$forged"
escapes explain find.job log.txt --json --task "$forged"
escapes chart find.job log.txt --width "$forged"
escapes faults find.job --name "$forged"
escapes faults find.job --deny "$forged"
escapes sweep find.job --of "$forged" --values 1..2
escapes sweep find.job --at "$forged" --values 1..2
escapes sweep find.job --at 3:3 --values "$forged"
escapes completions "$forged"

# A job text of one byte too many, and one without end.
{ printf 'trio-job 1\njob main { }'; head -c 65600 /dev/zero | tr '\0' ' '; } > long.job
head -c 65536 long.job > longest.job
wants 0 'trio-job 1\njob main {}\n' '' check longest.job
for job in long.job /dev/zero; do
    name="nursery check $job"
    got=0
    "$nursery" check $job > out 2> err || got=$?
    [ "$got" = 2 ] || fail "status $got"
    printf 'refused J1 TooLong at 65536\n' | cmp -s - out || fail "standard output: $(cat out)"
    shows err ': the job text has more than 65536 bytes'
    cases=$((cases + 1))
done

# ---- 2: a refused command line

words='run find.job log.txt --workers 0'; holds 2 err "'--workers <N>'" '1..=64'
words='run find.job log.txt --workers 65'; holds 2 err "'--workers <N>'" '1..=64'
words='run find.job log.txt --limit 4294967296'; holds 2 err "'--limit <T>'" '4294967295'
words='run'; holds 2 err '<JOB>' 'Usage: nursery run '
words='explain'; holds 2 err '<JOB>' 'Usage: nursery explain '
words='explain find.job log.txt --workers 0'; holds 2 err "'--workers <N>'" '1..=64'
words='explain find.job --limit 4294967296'; holds 2 err "'--limit <T>'" '4294967295'
words='faults'; holds 2 err '<JOB>' 'Usage: nursery faults '
words='faults find.job --workers 65'; holds 2 err "'--workers <N>'" '1..=64'
words='races'; holds 2 err '<JOB>' 'Usage: nursery races '
words='races find.job --deny cut'; holds 4 err 'cannot read the input file'
words='sweep find.job'; holds 2 err '--of <NAME>' '--at <LINE:COL>' '--values <A..B[:STEP]>'
words='sweep find.job --of s'; holds 2 err '--values <A..B[:STEP]>'
words='sweep find.job --values 1..2'; holds 2 err '--of <NAME>' '--at <LINE:COL>'
words='sweep find.job --of s --at 1:1 --values 1..2'; holds 2 err '--of <NAME>' 'cannot be used with'
words='check'; holds 2 err '<JOB>' 'Usage: nursery check '
words='upgrade'; holds 2 err '<JOB>' 'Usage: nursery upgrade '
words='upgrade find.job --to 1'; holds 2 err "'--to <N>'"
words='check find.job log.txt'; holds 2 err "'log.txt'"
words='go'; holds 2 err "'go'" 'Usage: nursery '
words='--fast'; holds 2 err "'--fast'"
wants 2 '' 'error: JOB and INPUT cannot both be `-`: there is one standard input\n' run - -
wants 2 '' 'error: JOB and INPUT cannot both be `-`: there is one standard input\n' explain - -
wants 2 '' 'error: JOB and INPUT cannot both be `-`: there is one standard input\n' faults - -
wants 2 '' 'error: JOB and INPUT cannot both be `-`: there is one standard input\n' races - -
wants 2 '' 'error: JOB and INPUT cannot both be `-`: there is one standard input\n' sweep - - --of s --values 1..2
wants 2 '' 'error: an argument is not UTF-8 text\n' check "$(printf 'a\377b')"

# ---- help and version

wants 0 'nursery 0.1.0\n' '' --version
words='explain --help'; holds 0 out 'Usage: nursery explain [OPTIONS] <JOB> [INPUT]' '--task <LABEL>' '--workers <N>' '--limit <T>'
words='--help'; holds 0 out 'Usage: nursery <COMMAND>' '  run ' '  explain ' '  faults ' '  races ' '  sweep ' '  check ' '  upgrade ' '$ nursery run first.job log.txt' '  line 0+5 error' 'Exit status'
words='help'; holds 0 out 'Usage: nursery <COMMAND>'
# Each command that the help lists has an example of itself in its own help.
for command in $("$nursery" --help | sed -n '/^Commands/,/^$/s/^  \([a-z]*\)  *[A-Z].*/\1/p'); do
    [ "$command" = help ] || { words="help $command"; holds 0 out 'Example' "nursery $command "; }
done
words='run --help'; holds 0 out 'Usage: nursery run [OPTIONS] <JOB> [INPUT]' '--workers <N>' '--limit <T>' '  line 6+10 ERROR disk'
words='faults --help'; holds 0 out 'Usage: nursery faults [OPTIONS] <JOB> [INPUT]' '--name <NAMES>' '--each' '--brief' '--deny <KINDS>' '--workers <N>' '--limit <T>'
words='races --help'; holds 0 out 'Usage: nursery races [OPTIONS] <JOB> [INPUT]' '--deny' '--workers <N>' '--limit <T>'
words='sweep --help'; holds 0 out 'Usage: nursery sweep [OPTIONS]' '--of <NAME>' '--at <LINE:COL>' '--values <A..B[:STEP]>' '--workers <N>' '--limit <T>'
words='check --help'; holds 0 out 'Usage: nursery check [OPTIONS] <JOB>' '--canonical' 'expected a number'
words='upgrade --help'; holds 0 out 'Usage: nursery upgrade [OPTIONS] <JOB>' '--to <N>' '--canonical' 'job main { find "er"; }'

# The example that the help of `run` shows is true.
printf 'trio-job 3\njob watch {\n  scope limit after 10 { pace 2; find "ERROR"; }\n}\n' > watch.job
printf 'start\nERROR disk\n' > in
watched='job watch 1\ntask watch 0 1 done\n  line 6+10 ERROR disk\n  scope limit 1 passed\n'
wants 0 "$watched" '' run watch.job - --limit 100
helps run "$watched"
: > in

# ---- 3: the limit

# Standard error names the tasks that still run.
wants 3 'limit 1\n' 'these tasks have not ended:\n  main  sleeping until 2 since 0\n' run raise.job log.txt --limit 1
wants 3 'limit 1000000\n' 'these tasks have not ended:\n  main  sleeping forever since 0\n' run forever.job log.txt
wants 3 'limit 4294967295\n' 'these tasks have not ended:\n  main  sleeping forever since 0\n' run forever.job log.txt --limit 4294967295
# It names ten at most, and counts the others.
printf 'trio-job 3\njob main { event ready { nursery n { start w over 12 { wait ready; } } } }\n' > stuck.job
wants 3 'limit 1000000\n' 'these tasks have not ended:\n  main  waiting for nursery n since 0\n  w.0   waiting for event ready since 0; nothing sets it\n  w.1   waiting for event ready since 0; nothing sets it\n  w.2   waiting for event ready since 0; nothing sets it\n  w.3   waiting for event ready since 0; nothing sets it\n  w.4   waiting for event ready since 0; nothing sets it\n  w.5   waiting for event ready since 0; nothing sets it\n  w.6   waiting for event ready since 0; nothing sets it\n  w.7   waiting for event ready since 0; nothing sets it\n  w.8   waiting for event ready since 0; nothing sets it\n  and 3 more\n' run stuck.job

# ---- 4 and 5: files that cannot be read, an input too long, little memory, an output that cannot be written

wants 4 '' 'cannot read the job file\nno.job: no such file\n' run no.job log.txt
wants 4 '' 'cannot read the job file\nno.job: no such file\n' check no.job
wants 4 '' 'cannot read the job file\nno.job: no such file\n' upgrade no.job
wants 4 '' 'cannot read the job file\nno.job: no such file\n' explain no.job
wants 4 '' 'cannot read the input file\nno.txt: no such file\n' explain find.job no.txt
wants 4 '' 'cannot read the job file\nno.job: no such file\n' faults no.job
wants 4 '' 'cannot read the job file\nno.job: no such file\n' sweep no.job --of s --values 1..2
wants 4 '' 'cannot read the input file\nno.txt: no such file\n' sweep fetch.job no.txt --of limit --values 1..2
wants 4 '' 'cannot read the input file\nno.txt: no such file\n' run find.job no.txt
wants 4 '' 'cannot read the job file\nno.job: no such file\n' run no.job no.txt
wants 4 '' 'cannot read the job file\na_folder: is a directory\n' run a_folder log.txt
wants 4 '' 'cannot read the job file\na_folder: is a directory\n' check a_folder
wants 4 '' 'cannot read the input file\na_folder: is a directory\n' run find.job a_folder
wants 4 '' 'cannot read the input file\n"": no such file\n' run find.job ''
cp find.job shut.job
chmod 000 shut.job
if ! cat shut.job > /dev/null 2>&1; then
    wants 4 '' 'cannot read the job file\n' run shut.job log.txt
    wants 4 '' 'cannot read the input file\n' run find.job shut.job
fi
# A file that opens and cannot be read, whoever runs this.
if [ -e /proc/self/mem ]; then
    wants 4 '' 'cannot read the job file\n/proc/self/mem: a read failed\n' check /proc/self/mem
    wants 4 '' 'cannot read the input file\n/proc/self/mem: a read failed\n' run find.job /proc/self/mem
fi
name='nursery from a folder'
got=0
"$nursery" < a_folder > out 2> err || got=$?
compare "$got" 4 '' 'cannot read the input file\nstandard input: a read failed\n'

head -c 16777216 /dev/zero > most.txt
{ cat most.txt; printf x; } > over.txt
wants 0 "$without" '' run find.job most.txt
# 5: the input alone fills the memory that there is.
if (ulimit -v 16384) 2> /dev/null; then
    name='nursery in little memory'
    got=0
    (ulimit -v 16384 && exec "$nursery" run find.job most.txt < in > out 2> err) || got=$?
    compare "$got" 5 '' 'no memory\n'
fi
wants 4 '' 'input too long\n' run find.job over.txt
wants 4 '' 'input too long\n' run bad.job over.txt
wants 4 '' 'input too long\n' run no.job over.txt
wants 4 '' 'input too long\n' run find.job /dev/zero
{ cat find.job; echo %input; cat over.txt; } > in
wants 4 '' 'input too long\n'
{ cat find.job; echo %input; cat most.txt; } > in
wants 0 "$without" ''
cp in held.feed
wants 0 "$without" '' run held.feed
printf x >> held.feed
for command in run explain chart faults races check fmt upgrade lint trio; do
    wants 4 '' 'input too long\n' $command held.feed
done
cp held.feed kept.feed
wants 4 '' 'input too long\n' fmt held.feed --write
cmp -s kept.feed held.feed || fail 'a feed with a too long input was written'
rm held.feed kept.feed
rm over.txt most.txt
: > in

# full WORD..: standard output is a full disk.
full() {
    name="nursery $* on a full disk"
    got=0
    "$nursery" "$@" < in > /dev/full 2> err || got=$?
    : > out
    compare "$got" 4 '' 'cannot write\n'
}
if [ -c /dev/full ]; then
    full run find.job log.txt
    full run raise.job log.txt
    full run bad.job log.txt
    full run forever.job log.txt
    full explain raise.job
    full faults raise.job
    full races both.job
    full sweep fetch.job --of limit --values 1..20
    full check find.job
    full upgrade find.job
    full upgrade find.job --to 2
    full upgrade find.job --canonical
    full fmt feed.feed
    full upgrade feed.feed
    full --help
    full --version
    # Standard error is: the refusal stands on standard output already, and the status stays.
    printf 'trio-job 1\njob main { sleep }\n' > wait.job
    name='nursery check with standard error on a full disk'
    got=0
    "$nursery" check wait.job < in > out 2> /dev/full || got=$?
    : > err
    compare "$got" 2 'refused J6 Syntax at 28\n' ''
fi

# Nobody reads the pipe any more: its reader has ended before the program begins, which waits for the file that says so.
name='nursery into a closed pipe'
{
    while [ ! -e ended ]; do sleep 0.1; done
    got=0
    "$nursery" run find.job log.txt 2> err || got=$?
    echo "$got" > got
} | { exec < /dev/null; : > ended; }
: > out
compare "$(cat got)" 4 '' 'cannot write\n'

echo "command.sh: $cases cases"
