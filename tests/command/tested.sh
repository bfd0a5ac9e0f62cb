#!/bin/sh
# `nursery test` on real files, by the program that the gate built: for each case standard output, standard error and the status are compared, and what
# stands in the files afterwards.
set -eu
cd "$(dirname "$0")/../.."
top=$PWD
nursery=$PWD/crates/nursery/out/nursery
folder=$(mktemp -d)
trap 'chmod -R u+w "$folder"; rm -rf "$folder"' EXIT
cd "$folder"

cases=0

# wants STATUS OUT ERR WORD..: `nursery test` with these words, stopped after a minute; OUT and ERR are formats of printf.
wants() {
    status=$1 out=$2 err=$3
    shift 3
    got=0
    timeout 60 "$nursery" test "$@" > out 2> err || got=$?
    [ "$got" = "$status" ] || { echo "tested.sh: test $*: status $got, wanted $status" >&2; cat out err >&2; exit 1; }
    printf "$out" | cmp -s - out || { echo "tested.sh: test $*: standard output:" >&2; cat out >&2; exit 1; }
    printf "$err" | cmp -s - err || { echo "tested.sh: test $*: standard error:" >&2; cat err >&2; exit 1; }
    cases=$((cases + 1))
}

mkdir jobs jobs/inner jobs/.hidden empty
printf 'trio-job 1\njob wait {\n  sleep 3;\n}\n%%input\n' > jobs/wait.feed
printf 'trio-job 1\njob find {\n  find "er";\n}\n%%input\nerror\n' > jobs/inner/find.feed
cp jobs/wait.feed jobs/.hidden/wait.feed
cp jobs/wait.feed jobs/wait.txt

# Nothing to compare with, and its report kept.
wants 4 '0 passed, 0 failed, 1 not tested\n' \
    'jobs/wait.feed: nothing is kept beside it: no .report, .story, .chart, .faults, .races, .sweep or .expect (`--accept` keeps a report)\n' jobs/wait.feed
wants 0 'jobs/wait.report: accepted\n0 passed, 1 accepted, 0 failed\n' '' --accept jobs/wait.feed
printf 'job wait 3\ntask wait 0 3 done\n' | cmp - jobs/wait.report
[ "$(echo jobs/wait.*)" = 'jobs/wait.feed jobs/wait.report jobs/wait.txt' ]

# A folder, its folders and not those that begin with a dot.
wants 0 'jobs/inner/find.report: accepted\njobs/wait.report: passed\n1 passed, 1 accepted, 0 failed\n' '' jobs --accept
wants 0 'jobs/inner/find.report: passed\njobs/wait.report: passed\n2 passed, 0 failed\n' '' jobs
wants 0 'jobs/inner/find.report: passed\njobs/wait.report: passed\n2 passed, 0 failed\n' '' jobs --workers 3
wants 0 'jobs/wait.report: passed\njobs/inner/find.report: passed\n2 passed, 0 failed\n' '' jobs/wait.feed jobs/inner

# A name cannot forge a line, or reach the terminal with an escape.
weird=$(printf 'x\n9 passed, 0 failed\033[1m')
cp jobs/wait.feed "$weird.feed"
cp jobs/wait.report "$weird.report"
wants 0 '"x\\n9 passed, 0 failed\\u{1b}[1m.report": passed\n1 passed, 0 failed\n' '' "$weird.feed"
rm "$weird.feed" "$weird.report"

# Each kind of file.
touch jobs/wait.story jobs/wait.chart jobs/wait.faults jobs/wait.races
wants 0 'jobs/wait.report: passed\njobs/wait.story: accepted\njobs/wait.chart: accepted\njobs/wait.faults: accepted\njobs/wait.races: accepted\n1 passed, 4 accepted, 0 failed\n' '' \
    jobs/wait.feed --accept
sed '/^%input$/,$d' jobs/wait.feed > wait.job
"$nursery" explain wait.job | cmp - jobs/wait.story
"$nursery" chart wait.job --width 80 | cmp - jobs/wait.chart
"$nursery" faults wait.job | cmp - jobs/wait.faults
"$nursery" races wait.job | cmp - jobs/wait.races
wants 0 'jobs/wait.report: passed\njobs/wait.story: passed\njobs/wait.chart: passed\njobs/wait.faults: passed\njobs/wait.races: passed\n5 passed, 0 failed\n' '' jobs/wait.feed
rm jobs/wait.story jobs/wait.chart jobs/wait.faults jobs/wait.races

# What differs: an earlier line, a line too many, a line too few, another end.
printf 'job wait 4\ntask wait 0 4 done\n' > jobs/wait.report
wants 1 'jobs/wait.report: failed: line 1 differs\n  kept: job wait 4\n  now:  job wait 3\n0 passed, 1 failed\n' '' jobs/wait.feed
printf 'job wait 3\n' > jobs/wait.report
wants 1 'jobs/wait.report: failed: line 2 differs\n  kept: \n  now:  task wait 0 3 done\n0 passed, 1 failed\n' '' jobs/wait.feed
printf 'job wait 3\ntask wait 0 3 done\nmore\n' > jobs/wait.report
wants 1 'jobs/wait.report: failed: line 3 differs\n  kept: more\n  now:  \n0 passed, 1 failed\n' '' jobs/wait.feed
printf 'job wait 3' > jobs/wait.report
wants 1 'jobs/wait.report: failed: line 2 differs\n  kept: (no such line)\n  now:  task wait 0 3 done\n0 passed, 1 failed\n' '' jobs/wait.feed
printf 'job \033[1mwait\t3\n' > jobs/wait.report
wants 1 'jobs/wait.report: failed: line 1 differs\n  kept: job ?[1mwait 3\n  now:  job wait 3\n0 passed, 1 failed\n' '' jobs/wait.feed
wants 0 'jobs/wait.report: accepted\n0 passed, 1 accepted, 0 failed\n' '' jobs/wait.feed --accept

# A refused job and a limit are outputs too.
printf 'trio-job 1\njob main { sleep }\n' > refused.feed
printf 'refused J6 Syntax at 28\n' > refused.report
wants 0 'refused.report: passed\n1 passed, 0 failed\n' '' refused.feed
printf 'limit 2\n' > wait.report
cp jobs/wait.feed wait.feed
wants 0 'wait.report: passed\n1 passed, 0 failed\n' '' wait.feed --limit 2
rm wait.report wait.feed

# Expectations.
cp jobs/wait.feed wait.feed
printf '# a comment\n\nwait sleeps until 3\ntask  wait * done  \n! * raised *\nraces: none\nfaults: no cut, no lost\n' > wait.expect
wants 0 'wait.expect: passed\n1 passed, 0 failed\n' '' wait.feed
printf 'wait is cancelled *\n! wait ends: done\n! task*\nfaults: no stuck\nraces: few\nfaults:\n' > wait.expect
wants 1 'wait.expect:1: failed: no line of the report or the story matches `wait is cancelled *`
wait.expect:2: failed: `! wait ends: done`: line 5 of the story matches
    wait  ends: done
wait.expect:3: failed: `! task*`: line 2 of the report matches
  task wait 0 3 done
wait.expect:4: failed: `faults: no stuck`
  3:3  sleep 3  hangs       stuck at 1000000; sleeping forever: wait
wait.expect:5: failed: `races: few` is neither `races: none` nor `faults:` with `no stuck`, `no cut` and `no lost`
wait.expect:6: failed: `faults:` is neither `races: none` nor `faults:` with `no stuck`, `no cut` and `no lost`
0 passed, 1 failed\n' '' wait.feed
# A file that demands nothing.
: > wait.expect
wants 1 'wait.expect: failed: no line of it is an expectation\n0 passed, 1 failed\n' '' wait.feed
printf '\n  # races: none\n \t\n' > wait.expect
wants 1 'wait.expect: failed: no line of it is an expectation\n0 passed, 1 failed\n' '' wait.feed

# A demand with another word, one that is negated, and patterns that can match no line. The other lines are still examined.
printf 'race: none\nfault: no stuck\nends: done\nwait ends: done\n! races: none\n! faults: no stuck\n! task raised\n' > wait.expect
wants 1 'wait.expect:1: failed: `race: none`: demands begin with `races:` or `faults:`, and no line of a report or a story begins so
wait.expect:2: failed: `fault: no stuck`: demands begin with `races:` or `faults:`, and no line of a report or a story begins so
wait.expect:3: failed: `ends: done`: demands begin with `races:` or `faults:`, and no line of a report or a story begins so
wait.expect:5: failed: `! races: none`: only a pattern can be negated, not a demand with `races:` or `faults:`
wait.expect:6: failed: `! faults: no stuck`: only a pattern can be negated, not a demand with `races:` or `faults:`
wait.expect:7: failed: `! task raised`: no line of this job'"'"'s report or story begins so; `*` in front stands for any beginning
0 passed, 1 failed\n' '' wait.feed
printf '! raised *\n! weit *\n! wait raised *\ntask weit * done\n! task wait.1 *\n! wai*\n' > wait.expect
wants 1 'wait.expect:1: failed: `! raised *`: no line of this job'"'"'s report or story begins so; `*` in front stands for any beginning
wait.expect:2: failed: `! weit *`: no line of this job'"'"'s report or story begins so; `*` in front stands for any beginning
wait.expect:3: failed: `! wait raised *`: no line of this job'"'"'s report or story begins so; `*` in front stands for any beginning
wait.expect:4: failed: `task weit * done`: no line of this job'"'"'s report or story begins so; `*` in front stands for any beginning
wait.expect:6: failed: `! wai*`: line 2 of the story matches
    wait  starts
0 passed, 1 failed\n' '' wait.feed

printf 'faults: no stuck\nraces: none\n' > refused.expect
wants 1 'refused.report: passed
refused.expect:1: failed: `faults: no stuck`: the job is refused, does not end by the limit, or has too large a number of ticks
refused.expect:2: failed: `races: none`: the job is refused, does not end by the limit, or has too large a number of ticks
1 passed, 1 failed\n' '' refused.feed
printf 'trio-job 1\njob both {\n  nursery n {\n    start a { sleep 5; raise A; }\n    start b { sleep 5; raise B; }\n  }\n}\n' > both.feed
printf 'races: none\n' > both.expect
got=0
"$nursery" test both.feed > out || got=$?
[ "$got" = 1 ] && [ "$(head -n 1 out)" = 'both.expect:1: failed: `races: none`' ] && grep -q '  4:15  sleep 5' out || { cat out >&2; exit 1; }
rm both.* refused.* wait.feed wait.expect

# Each line of a report and of a story is a pattern that it matches itself: none is refused.
mkdir told
for feed in "$top"/examples/*.feed "$top"/tests/rounds/*.feed "$top"/tests/events/*.feed "$top"/tests/sharing/*.feed "$top"/tests/ticks/*.feed "$top"/tests/limits/endless/*.feed; do
    copy=told/$(basename "$(dirname "$feed")")-$(basename "$feed" .feed)
    cp "$feed" "$copy.feed"
    touch "$copy.report" "$copy.story"
done
timeout 60 "$nursery" test told --accept --limit 1000 > out
for feed in told/*.feed; do
    cat "${feed%.feed}.report" "${feed%.feed}.story" > "${feed%.feed}.expect"
done
[ "$(cat told/*.expect | wc -l)" -gt 500 ]
timeout 60 "$nursery" test told --limit 1000 > out || { grep failed out >&2; exit 1; }
rm -r told

# A sweep, whose first line has the words of the command.
cp jobs/wait.feed wait.feed
echo '--at 3:9 --values 2..3' > wait.sweep
wants 1 'wait.sweep: failed: line 2 differs\n  kept: \n  now:  as it is  done, ends 3\n0 passed, 1 failed\n' '' wait.feed
wants 0 'wait.sweep: accepted\n0 passed, 1 accepted, 0 failed\n' '' wait.feed --accept
printf '%s\n' '--at 3:9 --values 2..3' 'as it is  done, ends 3' '2..3      done, ends 2..3' '2 values: 0 stuck, 0 cut a cleanup' | cmp - wait.sweep
"$nursery" sweep wait.job --at 3:9 --values 2..3 > swept
tail -n +2 wait.sweep | cmp - swept
wants 0 'wait.sweep: passed\n1 passed, 0 failed\n' '' wait.feed
wants 0 'wait.sweep: passed\n1 passed, 0 failed\n' '' wait.feed --workers 3
printf '%s' '--at 3:9 --values 2..3' > wait.sweep
wants 1 'wait.sweep: failed: line 2 differs\n  kept: (no such line)\n  now:  as it is  done, ends 3\n0 passed, 1 failed\n' '' wait.feed
printf '%s\n' '--at 3:9 --values 2..3' 'as it is  done, ends 4' > wait.sweep
wants 1 'wait.sweep: failed: line 2 differs\n  kept: as it is  done, ends 4\n  now:  as it is  done, ends 3\n0 passed, 1 failed\n' '' wait.feed
# Its limit is the one of its words, or else that of `test`. Its output may be a JSON document.
{ echo '--at 3:9 --values 2..3'; "$nursery" sweep wait.job --at 3:9 --values 2..3 --limit 2; } > wait.sweep
wants 0 'wait.sweep: passed\n1 passed, 0 failed\n' '' wait.feed --limit 2
{ echo '--at 3:9 --values 2..3 --limit 2'; "$nursery" sweep wait.job --at 3:9 --values 2..3 --limit 2; } > wait.sweep
wants 0 'wait.sweep: passed\n1 passed, 0 failed\n' '' wait.feed
{ echo '--json --at 3:9 --values 2..3'; "$nursery" sweep wait.job --at 3:9 --values 2..3 --json; } > wait.sweep
wants 0 'wait.sweep: passed\n1 passed, 0 failed\n' '' wait.feed
# Words that are not those of a sweep are refused, also with `--accept`, and nothing is replaced.
printf '%s\n' '--at 3:9 --values 3..2' 'kept' > wait.sweep
cp wait.sweep before
for accept in '' --accept; do
    wants 1 'wait.sweep:1: failed: `--at 3:9 --values 3..2` is not what follows `nursery sweep JOB`
  error: `3..2` gives no values: --values takes A..B or A..B:STEP, as 1..60 or 10..100:5, with A at most B and STEP at least 1
0 passed, 1 failed\n' '' wait.feed $accept
    cmp before wait.sweep
done
echo '--at 3:9 --values 1..2 wait.txt' > wait.sweep
wants 1 'wait.sweep:1: failed: `--at 3:9 --values 1..2 wait.txt` is not what follows `nursery sweep JOB`
  error: the feed has the input: give only options
0 passed, 1 failed\n' '' wait.feed
echo '--help' > wait.sweep
wants 1 'wait.sweep:1: failed: `--help` is not what follows `nursery sweep JOB`
  error: these words ask for help, and not for a sweep
0 passed, 1 failed\n' '' wait.feed
"$nursery" sweep wait.job --at 3:9 --values 2..3 > wait.sweep
got=0
"$nursery" test wait.feed > out || got=$?
[ "$got" = 1 ] && [ "$(head -n 1 out)" = 'wait.sweep:1: failed: `as it is  done, ends 3` is not what follows `nursery sweep JOB`' ] || { cat out >&2; exit 1; }
# A number that the job does not have.
echo '--of limit --values 1..2' > wait.sweep
wants 1 'wait.sweep:1: failed: `--of limit --values 1..2`: the job text has no such number\n0 passed, 1 failed\n' '' wait.feed
# A refused job.
printf 'trio-job 1\njob main { sleep }\n' > refused.feed
printf '%s\n' '--at 2:18 --values 1..2' 'refused J6 Syntax at 28' > refused.sweep
wants 0 'refused.sweep: passed\n1 passed, 0 failed\n' '' refused.feed
rm refused.* wait.feed wait.sweep before swept

# What is not tested does not stop the others.
wants 4 '0 passed, 0 failed, 1 not tested\n' 'none.feed: no such file\n' none.feed
wants 4 '0 passed, 0 failed, 1 not tested\n' 'empty: no feed in this folder\n' empty
wants 4 '0 passed, 0 failed, 1 not tested\n' 'wait.job: not a feed: its name does not end with `.feed`\n' wait.job
wants 4 'jobs/wait.report: passed\n1 passed, 0 failed, 2 not tested\n' 'none.feed: no such file\nempty: no feed in this folder\n' none.feed empty jobs/wait.feed
mkdir jobs/wait.story
wants 4 'jobs/wait.report: passed\n1 passed, 0 failed, 1 not tested\n' 'jobs/wait.story: is a directory\n' jobs/wait.feed
rmdir jobs/wait.story
mkdir other.feed
wants 4 '0 passed, 0 failed, 1 not tested\n' 'other.feed: no feed in this folder\n' other.feed

# Where the new file cannot be written, the old one is as it was.
printf 'old\n' > jobs/wait.report
chmod a-w jobs jobs/wait.report
if [ "$(id -u)" != 0 ]; then
    wants 4 '0 passed, 0 failed, 1 not tested\n' "jobs/wait.report: cannot be written\\n$PWD/jobs/wait.report: permission denied\\n" jobs/wait.feed --accept
    printf 'old\n' | cmp - jobs/wait.report
fi
chmod u+w jobs jobs/wait.report
# What is not a regular file is refused before it is read: this FIFO has no writer.
mkfifo fifo
mv jobs/wait.report old
ln -s ../fifo jobs/wait.report
wants 4 '0 passed, 0 failed, 1 not tested\n' "jobs/wait.report: cannot be written\\n$PWD/fifo: not a regular file\\n" jobs/wait.feed --accept
rm jobs/wait.report
mv old jobs/wait.report
echo theirs > theirs
ln -s ../theirs jobs/wait.report.nursery-new
wants 0 'jobs/wait.report: accepted\n0 passed, 1 accepted, 0 failed\n' '' jobs/wait.feed --accept
[ "$(cat theirs)" = theirs ]
rm jobs/wait.report.nursery-new
printf 'old\n' > jobs/wait.report
mv jobs/wait.report kept
ln -s ../kept jobs/wait.report
wants 0 'jobs/wait.report: accepted\n0 passed, 1 accepted, 0 failed\n' '' jobs/wait.feed --accept
[ -L jobs/wait.report ] && printf 'job wait 3\ntask wait 0 3 done\n' | cmp - kept

echo "tested.sh: $cases cases"
