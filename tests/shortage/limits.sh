#!/bin/sh
# The program where memory, stack and streams are short: it answers what it would answer, or the refusal that fits, with nothing
# on standard output but a front of the right answer, and no signal ends it.
set -eu
cd "$(dirname "$0")/../.."
nursery=$PWD/crates/nursery/out/nursery
folder=$(mktemp -d)
trap 'rm -rf "$folder"' EXIT
cd "$folder"

cases=0
name=

fail() {
    echo "limits.sh: $name: $1" >&2
    exit 1
}

# starts KIB: the program can be loaded in that much address space at all.
starts() {
    (ulimit -v "$1" && "$nursery" --version) > /dev/null 2>&1
}

# in_memory KIB WORD..: under that limit of address space the program gives the bytes in `right`, or `no memory` and status 5.
in_memory() {
    kib=$1
    shift
    name="nursery $* in $kib KiB"
    got=0
    (ulimit -v "$kib" && exec "$nursery" "$@" < /dev/null > out 2> err) 2> /dev/null || got=$?
    case $got in
        0) cmp -s out right || fail "another answer" ;;
        5) [ ! -s out ] || fail "bytes on standard output"
           [ "$(cat err)" = 'no memory' ] || fail "standard error: $(cat err)"
           refused=$((refused + 1)) ;;
        *) fail "status $got: $(cat err)" ;;
    esac
    cases=$((cases + 1))
}

# from_little_to_enough WORD..: the program on the words, from 1 MB of address space to 200.
from_little_to_enough() {
    "$nursery" "$@" < /dev/null > right
    refused=0
    mib=1
    while [ "$mib" -le 200 ]; do
        if starts $((mib * 1024)); then in_memory $((mib * 1024)) "$@"; fi
        mib=$((mib + 1 + mib / 16))
    done
    [ "$refused" -gt 0 ] || fail "memory was never short"
}

# ---- little memory ----

printf 'trio-job 1\njob main { find "er"; }\n' > find.job
printf 'trio-job 1\njob main { nursery n { start a over 64 { nursery m { start b over 64 { sleep 1; find "er"; } } } } }\n' > grid.job
printf 'trio-job 1\njob main { nursery n { start a { sleep 2; find "er"; } start b { forever; } } }\n' > few.job
printf 'trio-job 1\njob main { nursery n { start a over 2 { sleep 2; find "er"; cancel n; } start b { sleep 2; } } }\n' > pair.job
printf 'trio-job 1\njob main { head 1000000000; }\n' > head.job
printf 'trio-job 1\njob main { nursery n { start p over 64 { find "er"; } } }\n' > parts.job
printf 'error\nok\n' > log.txt
yes 'an error in a line' | head -c 4000000 > lines.txt
from_little_to_enough run find.job lines.txt
from_little_to_enough run head.job lines.txt
from_little_to_enough run grid.job lines.txt
from_little_to_enough run grid.job lines.txt --workers 64
# A thread that cannot be started is none: the others compute.
from_little_to_enough run parts.job lines.txt --workers 64
from_little_to_enough explain grid.job lines.txt
{ printf 'trio-job 1\njob main { '; yes 'longest;' | head -c 45000; printf ' }\n'; } > wide.job
from_little_to_enough fmt wide.job
from_little_to_enough lint wide.job
from_little_to_enough trio wide.job
from_little_to_enough run grid.job lines.txt --json
from_little_to_enough explain grid.job lines.txt --json
from_little_to_enough chart grid.job lines.txt
from_little_to_enough chart grid.job lines.txt --svg
from_little_to_enough faults few.job lines.txt
from_little_to_enough page pair.job lines.txt
from_little_to_enough races pair.job lines.txt
from_little_to_enough sweep few.job lines.txt --at 2:40 --values 1..9
from_little_to_enough check wide.job
from_little_to_enough check wide.job --canonical
from_little_to_enough upgrade wide.job --to 2
from_little_to_enough upgrade wide.job --to 2 --canonical
{ cat find.job; echo %input; cat lines.txt; } > find.feed
from_little_to_enough run find.feed
from_little_to_enough fmt find.feed
from_little_to_enough lint wide.job --json
from_little_to_enough faults few.job lines.txt --json
from_little_to_enough races pair.job lines.txt --json
from_little_to_enough sweep few.job lines.txt --at 2:40 --values 1..9 --json
head -c 1000000 lines.txt > some.txt
{ cat grid.job; printf '%%input\n'; cat some.txt; } > grid.feed
"$nursery" run grid.job some.txt > grid.report
from_little_to_enough test grid.feed

# ---- little stack: 256 KiB for each legal job, the deepest too ----

# in_little_stack WORD..: the same answer in 256 KiB of stack.
in_little_stack() {
    name="nursery $* in 256 KiB of stack"
    want=0
    "$nursery" "$@" < /dev/null > right 2> right_err || want=$?
    got=0
    (ulimit -s 256 && exec "$nursery" "$@" < /dev/null > out 2> err) || got=$?
    [ "$got" = "$want" ] || fail "status $got, wanted $want: $(cat err)"
    cmp -s out right || fail "another answer"
    cases=$((cases + 1))
}

# nested FRONT BACK INNER: blocks nested 31 deep, each with a name of its own.
nested() {
    printf 'trio-job 1\njob main { '
    for i in 1 2 3 4 5 6 7 8 9 10 11 12 13 14 15 16 17 18 19 20 21 22 23 24 25 26 27 28 29 30 31; do printf "$1" $i; done
    printf '%s' "$3"
    for i in 1 2 3 4 5 6 7 8 9 10 11 12 13 14 15 16 17 18 19 20 21 22 23 24 25 26 27 28 29 30 31; do printf "$2"; done
    printf ' }\n'
}

nested 'scope s%d { ' '} ' 'find "a"; sleep 1; cancel s1;' > scopes.job
nested 'nursery n%d { ' '} ' 'raise A;' > nurseries.job
nested 'try { ' '} finally { sleep 1; } ' 'raise A;' > cleanups.job
nested 'try { ' '} except A { raise A; } ' 'raise A;' > handlers.job
printf 'trio-job 1\njob main { nursery n { start a over 64 { nursery m { start b over 64 { sleep 1; sleep 1; sleep 1; } } } } }\n' > sleeps.job
{ printf 'trio-job 1\njob main { '; yes 'longest;' | head -c 64998; printf ' }\n'; } > leaves.job
for job in scopes nurseries cleanups handlers sleeps leaves grid; do
    in_little_stack run $job.job log.txt
    in_little_stack run $job.job log.txt --workers 64
    in_little_stack explain $job.job log.txt
    in_little_stack chart $job.job log.txt
    in_little_stack chart $job.job log.txt --svg
    in_little_stack faults $job.job log.txt --workers 2
    in_little_stack races $job.job log.txt --workers 2
    in_little_stack check $job.job
    in_little_stack check $job.job --canonical
    in_little_stack fmt $job.job
    in_little_stack lint $job.job
    in_little_stack trio $job.job
    in_little_stack run $job.job log.txt --json
    in_little_stack explain $job.job log.txt --json
    in_little_stack upgrade $job.job
    in_little_stack upgrade $job.job --canonical
    in_little_stack lint $job.job --json
    in_little_stack faults $job.job log.txt --workers 2 --json
    in_little_stack races $job.job log.txt --workers 2 --json
    { cat $job.job; printf '%%input\n'; cat log.txt; } > $job.feed
    in_little_stack test $job.feed
done
in_little_stack run parts.job lines.txt --workers 64
column=$(awk 'NR == 2 { print index($0, "sleep 1") + 6 }' cleanups.job)
in_little_stack sweep cleanups.job --at "2:$column" --values 1..9 --workers 2
{ printf 'trio-job 1\njob main '; head -c 65000 /dev/zero | tr '\0' '{'; } > open.job
in_little_stack check open.job

# ---- standard output closed, and a reader that leaves ----

name='nursery with standard output closed'
got=0
"$nursery" run head.job lines.txt < /dev/null >&- 2> err || got=$?
[ "$got" = 4 ] || fail "status $got"
[ "$(cat err)" = 'cannot write' ] || fail "standard error: $(cat err)"
cases=$((cases + 1))

name='nursery into a reader that leaves'
"$nursery" run head.job lines.txt > right
rm -f got
{
    got=0
    "$nursery" run head.job lines.txt < /dev/null 2> err || got=$?
    echo "$got" > got
} | head -c 100000 > out
[ "$(cat got)" = 4 ] || fail "status $(cat got)"
[ "$(cat err)" = 'cannot write' ] || fail "standard error: $(cat err)"
head -c 100000 right | cmp -s - out || fail "no front of the right answer"
cases=$((cases + 1))

# ---- inputs that are no plain files ----

name='nursery on a FIFO'
mkfifo pipe
cat log.txt > pipe &
got=0
"$nursery" run find.job pipe < /dev/null > out 2> err || got=$?
wait
[ "$got" = 0 ] || fail "status $got: $(cat err)"
printf 'job main 0\ntask main 0 0 done\n  line 0+5 error\n' | cmp -s - out || fail "another answer"
cases=$((cases + 1))

# unreadable INPUT SENTENCE: status 4, that sentence, and nothing on standard output.
unreadable() {
    name="nursery on the input $1"
    got=0
    "$nursery" run find.job "$1" < /dev/null > out 2> err || got=$?
    [ "$got" = 4 ] || fail "status $got"
    [ ! -s out ] || fail "bytes on standard output"
    [ "$(cat err)" = "$2" ] || fail "standard error: $(cat err)"
    cases=$((cases + 1))
}

unreadable . 'cannot read the input file
.: is a directory'
unreadable /dev/zero 'input too long'
unreadable /dev/full 'input too long'

echo "limits.sh: $cases cases"
