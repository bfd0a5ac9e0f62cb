#!/bin/sh
# The line that helps with a refused text, a file or a command line, by the program that the gate built: one case for each hint.
set -eu
cd "$(dirname "$0")/../.."
nursery=$PWD/crates/nursery/out/nursery
folder=$(mktemp -d)
trap 'rm -rf "$folder"' EXIT
cd "$folder"

cases=0

# hints HINT TEXT: `check` refuses the job text, a format of printf, and the last line on standard error is the hint.
hints() {
    printf "$2" > text.job
    status=0
    "$nursery" check text.job > out 2> err || status=$?
    [ "$status" = 2 ] || { echo "hints.sh: status $status for: $2" >&2; exit 1; }
    [ "$(tail -n 1 err)" = "$1" ] || { echo "hints.sh: wanted: $1" >&2; cat err >&2; exit 1; }
    cases=$((cases + 1))
}

# job_hints HINT STEPS: the same of a job of format 1 with these steps.
job_hints() {
    hints "$1" "trio-job 1\njob main {\n  $2\n}\n"
}

hints 'the text begins with a byte order mark: save it as plain ASCII' '\357\273\277trio-job 1\njob main { sleep 1; }\n'
hints 'the text begins with a byte order mark: save it as plain ASCII' '\377\376t\000'
hints 'a blank follows the number: the first line ends right after it' 'trio-job 1 \njob main { sleep 1; }\n'
hints 'a blank follows the number: the first line ends right after it' 'trio-job 2 \njob main { sleep 1; }\n'
hints 'its line ends are carriage returns and newlines: save it with newlines alone' 'trio-job 1\r\njob main { sleep 1; }\r\n'

job_hints 'format 3 has comments: begin the job text with the line `trio-job 3`' '# wait'
job_hints 'a comment begins with `#`, in a job text of format 3' '// wait'
job_hints 'times are whole ticks: choose a smaller tick, and multiply every number' 'sleep 0.5;'
job_hints 'times are whole ticks: choose a smaller tick, and multiply every number' 'sleep .5;'
dots='Trio'\''s names are written here without `trio.`: `sleep 1;`, `scope NAME after 5 { .. }`, `nursery NAME { .. }`'
job_hints "$dots" 'trio.sleep 1;'
job_hints "$dots" 'await trio.sleep(1);'
job_hints 'a string is written in double quotes, as in `find "error";`' "find 'er';"
hints 'a name has letters, digits and `_`: `my_job`, and not `my-job`' 'trio-job 1\njob my-job { sleep 1; }\n'
job_hints 'a step has no parentheses: `sleep 1;`, and not `sleep(1)`' 'sleep(1);'
job_hints 'a block is written between braces, without a colon: `scope work after 5 { .. }`' 'scope work after 5:'
job_hints 'a handler has one name: for another one, put a second `try` around this one' 'try { sleep 1; } except A | B { }'
job_hints '`except NAME { .. }` is Python'\''s `except*` already: leave out the star' 'try { sleep 1; } except* A { }'

named='each job, scope, nursery, event, limiter, channel and start has a name, as in `scope work after 5 { .. }`'
job_hints "$named" 'scope { sleep 1; }'
job_hints "$named" 'scope after 5 { sleep 1; }'
job_hints "$named" 'scope shield { sleep 1; }'
job_hints "$named" 'nursery { start task { sleep 1; } }'
job_hints "$named" 'nursery tasks { start { sleep 1; } }'
job_hints "$named" 'nursery tasks { start over 3 { sleep 1; } }'
job_hints 'the head of a scope is `scope NAME after N shield fail`, in this order' 'scope work fail shield { sleep 1; }'
job_hints 'the head of a scope is `scope NAME after N shield fail`, in this order' 'scope work shield after 5 { sleep 1; }'

move_on='Trio'\''s `move_on_after` is `scope NAME after N { .. }` here'
job_hints "$move_on" 'move_on_after 5 { sleep 9; }'
job_hints "$move_on" 'move_on_at 5 { sleep 9; }'
job_hints "$move_on" 'with move_on_after(5) { sleep 9; }'
job_hints 'Trio'\''s `fail_after` is `scope NAME after N fail { .. }` here' 'fail_after 5 { sleep 9; }'
job_hints 'Trio'\''s `fail_after` is `scope NAME after N fail { .. }` here' 'fail_at 5 { sleep 9; }'
job_hints 'there is no `await` here: a step that waits is written as `sleep 1;`' 'await sleep 1;'
job_hints 'there is no `async` here: a nursery is `nursery NAME { .. }`, a task `start NAME { .. }`' 'async with tasks { sleep 1; }'
job_hints 'Trio'\''s `open_nursery` is `nursery NAME { .. }` here' 'open_nursery tasks { }'
job_hints 'Trio'\''s `start_soon` is `start NAME { .. }` here, right inside a nursery' 'nursery tasks { start_soon task { } }'
job_hints 'Trio'\''s `sleep_forever` is `forever;` here' 'sleep_forever;'
job_hints 'Trio'\''s `Event` is `event NAME { .. }` here, around the tasks that use it' 'Event ready;'
job_hints 'Trio'\''s `Event` is `event NAME { .. }` here, around the tasks that use it' 'ready trio.Event();'
job_hints 'Trio'\''s `NAME.set()` is `set NAME;` here' 'ready.set();'
job_hints 'Trio'\''s `await NAME.wait()` is `wait NAME;` here' 'await ready.wait();'

job_hints '`fail` is a keyword: choose another name' 'nursery tasks { start fail { sleep 1; } }'
job_hints '`repeat` is a keyword: choose another name' 'scope repeat { sleep 1; }'
job_hints "$named" 'scope fail { sleep 1; }'
job_hints 'did you mean `sleep`?' 'slepe 1;'
job_hints 'format 2 has this: begin the job text with the line `trio-job 2`' 'repeat 3 { sleep 1; }'
job_hints 'format 3 has this: begin the job text with the line `trio-job 3`' 'event ready { set ready; }'
hints 'format 3 has this: begin the job text with the line `trio-job 3`' 'trio-job 2\njob main { event ready { set ready; } }\n'
for step in 'limiter pool 2 { sleep 1; }' 'acquire pool { sleep 1; }' 'channel work 0 { sleep 1; }' 'send work;' 'receive work { sleep 1; }' 'close work;'; do
    job_hints 'format 3 has this: begin the job text with the line `trio-job 3`' "$step"
    hints 'format 3 has this: begin the job text with the line `trio-job 3`' "trio-job 2\njob main { $step }\n"
done
loops='a `start` is directly inside a nursery, in format 3 also in a `repeat` without `over` there: `nursery NAME { repeat 3 { start NAME { .. } } }`'
hints "$loops" 'trio-job 3\njob main { repeat 3 { start task { sleep 1; } } }\n'
hints "$loops" 'trio-job 3\njob main { nursery tasks { repeat over 3 { start task { sleep 1; } } } }\n'
hints "$loops" 'trio-job 2\njob main { nursery tasks { repeat 3 { start task { sleep 1; } } } }\n'
job_hints 'what can be cancelled here: `tasks`, `work`' 'scope work { nursery tasks { start task { cancel wrok; } } }'
job_hints 'what can be cancelled here: `work`' 'scope work { cancel wrok; } scope other { sleep 1; }'
job_hints 'no scope or nursery is around this `cancel`' 'cancel main;'
hints 'the events around this step: `stop`, `ready`' 'trio-job 3\njob main { event ready { event stop { scope s { set raedy; } } } }\n'
hints 'no event is around this step' 'trio-job 3\njob main { event ready { sleep 1; } wait ready; }\n'
hints 'what can be cancelled here: `s`' 'trio-job 3\njob main { event ready { scope s { cancel ready; } } }\n'
hints 'the limiters around this step: `inner`, `outer`' \
    'trio-job 3\njob main { limiter outer 1 { channel work 0 { limiter inner 1 { acquire work { sleep 1; } } } } }\n'
hints 'the channels around this step: `work`' 'trio-job 3\njob main { limiter pool 1 { channel work 0 { send pool; } } }\n'
hints 'no limiter is around this step' 'trio-job 3\njob main { channel work 0 { acquire work { sleep 1; } } }\n'
hints 'no channel is around this step' 'trio-job 3\njob main { channel work 0 { sleep 1; } close work; }\n'
job_hints 'the job has 532609 steps' \
    'nursery a { start b over 64 { nursery c { start d over 64 { nursery e { start f over 64 { sleep 1; } } } } } }'
hints 'the innermost block that is not closed begins at text.job:2:10' 'trio-job 1\njob main {\n  sleep 1;\n'
job_hints 'it was first given at text.job:3:9' 'scope work { scope work { sleep 1; } }'

# ---- words of other languages and libraries, where a step may begin and where they are called

# words HINT WORD..: each of these words, where a step may begin, has this hint.
words() {
    hint=$1
    shift
    for word in "$@"; do
        job_hints "$hint" "$word task { sleep 1; }"
        job_hints "$hint" "nursery tasks { $word(task); }"
    done
}

words 'Trio'\''s `open_memory_channel(N)` is `channel NAME N { .. }` here, around the tasks that use it' open_memory_channel
words 'Trio'\''s `CapacityLimiter(N)` is `limiter NAME N { .. }` here, around the tasks that use it' CapacityLimiter
words 'a queue is `channel NAME N { .. }` here, in format 3, with `send NAME;` and `receive NAME { .. }`' Queue
words 'a lock is `limiter NAME 1 { .. }` here, a semaphore `limiter NAME N { .. }`, in format 3, with `acquire NAME { .. }`' Lock Semaphore
job_hints 'Trio'\''s `open_memory_channel(N)` is `channel NAME N { .. }` here, around the tasks that use it' 'trio.open_memory_channel(1);'
job_hints 'Trio'\''s `CapacityLimiter(N)` is `limiter NAME N { .. }` here, around the tasks that use it' 'trio.CapacityLimiter(1);'
job_hints 'Trio'\''s `await NAME.send(..)` is `send NAME;` here' 'await work.send(1);'
job_hints 'Trio'\''s `await NAME.receive()` is `receive NAME { .. }` here' 'await work.receive();'
job_hints 'Trio'\''s `await NAME.acquire()` is `acquire NAME { .. }` here: the token comes back at the end of the block' 'await pool.acquire();'
job_hints 'Trio'\''s `NAME.close()` is `close NAME;` here' 'work.close();'
job_hints 'Trio'\''s `NAME.close()` is `close NAME;` here' 'await work.aclose();'
words 'there are no conditions: only an exception or a cancellation changes the course of a job' if else elif
words 'a loop is `repeat N { .. }`, in formats 2 and 3; a `raise` in it leaves it, with a `try` around it' while for loop
words 'a loop or a block is left by `raise NAME;`, with `try { .. } except NAME { .. }` around it' break continue return
words 'a handler is `try { .. } except NAME { .. }` here' catch
job_hints 'a handler is `try { .. } except NAME { .. }` here' 'try { sleep 1; } catch Failed { }'
job_hints 'a handler is `try { .. } except NAME { .. }` here' 'try { sleep 1; } except Failed { } catch Missing { }'
words 'a task is `start NAME { .. }` here, right inside a nursery' launch go spawn create_task
words 'leave out `with`: a block is `scope NAME after 5 { .. }` or `nursery NAME { .. }` here' with
words 'a timeout is `scope NAME after N fail { .. }` here' timeout withTimeout wait_for
words '`defer` is `try { .. } finally { .. }` here' defer
words '`select` is a nursery here which its first task cancels: `nursery first { start a { sleep 1; cancel first; } .. }`' select
words 'a group of tasks is `nursery NAME { .. }` here' TaskGroup create_task_group coroutineScope

# ---- numbers

unit='a number is digits alone: times are whole ticks without a unit, as in `sleep 500;`'
job_hints "$unit" 'sleep 500ms;'
job_hints "$unit" 'scope work after 1s { sleep 9; }'
job_hints 'a number is digits alone: `1000`, and not `1_000`' 'sleep 1_000;'
job_hints 'a number has no leading zero: `5`, and not `05`' 'sleep 05;'
job_hints 'the number after `over` is from 1 to 64' 'nursery tasks { start task over 65 { sleep 1; } }'
job_hints 'the number after `over` is from 1 to 64' 'nursery tasks { start task over 0 { sleep 1; } }'
job_hints 'the number after `pace` is from 1 to 1000000' 'pace 0;'
hints 'the number after `repeat` is from 0 to 1000' 'trio-job 3\njob main { repeat 1001 { sleep 1; } }\n'
hints 'the number of tokens of a limiter is from 1 to 1000000' 'trio-job 3\njob main { limiter pool 0 { sleep 1; } }\n'
hints 'the number of tokens of a limiter is from 1 to 1000000' 'trio-job 3\njob main { limiter event 1000001 { sleep 1; } }\n'
hints 'the number of places of a channel is from 0 to 1000000' 'trio-job 3\njob main { channel work 1000001 { sleep 1; } }\n'
uncounted='a limiter has the number of its tokens after its name, a channel that of its places: `limiter NAME 2 { .. }`, `channel NAME 0 { .. }`'
hints "$uncounted" 'trio-job 3\njob main { limiter pool { sleep 1; } }\n'
hints "$uncounted" 'trio-job 3\njob main { channel event { sleep 1; } }\n'
job_hints 'the number here is from 0 to 1000000000' 'sleep 1000000001;'
job_hints 'the number here is from 0 to 1000000000' 'scope work after 99999999999999999999 { sleep 1; }'

# ---- the first line

unknown='the formats are 1, 2 and 3: begin a new job text with the line `trio-job 3`'
hints "$unknown" 'trio-job 4\njob main { sleep 1; }\n'
hints "$unknown" 'trio-job 10\njob main { sleep 1; }\n'
hints "$unknown" 'trio-job\njob main { sleep 1; }\n'
missing='the line with the format is missing: begin a new job text with the line `trio-job 3`'
hints "$missing" 'job main { sleep 1; }\n'
hints "$missing" '# A comment.\ntrio-job 3\njob main { sleep 1; }\n'
hints "$missing" ''
hints '^' 'trio-job 3'

# ---- steps and blocks in another form

semicolon='a `;` is missing after the step before it'
job_hints "$semicolon" 'sleep 1'
job_hints "$semicolon" 'sleep 1\n  find "x";'
job_hints "$semicolon" 'nursery tasks { raise Failed start task { sleep 1; } }'
bounded='a nursery has neither `at` nor `fail`: put a scope around it, as in `scope NAME at 5 fail { nursery NAME { .. } }`'
job_hints "$bounded" 'nursery tasks fail { sleep 1; }'
hints "$bounded" 'trio-job 3\njob main { nursery tasks at 5 { sleep 1; } }\n'
hints "$bounded" 'trio-job 3\njob main { nursery tasks after 5 fail { sleep 1; } }\n'
hints "$bounded" 'trio-job 3\njob main { nursery tasks shield fail { sleep 1; } }\n'
job_hints 'format 2 has this: begin the job text with the line `trio-job 2`' 'nursery tasks after 5 { sleep 1; }'
task='a task has no deadline and no shield: put a scope into it, as in `start NAME { scope NAME after 5 { .. } }`'
job_hints "$task" 'nursery tasks { start task after 5 { sleep 1; } }'
job_hints "$task" 'nursery tasks { start task shield { sleep 1; } }'
block='only scopes and nurseries have deadlines and shields: put a scope into the block, as in `job NAME { scope NAME after 5 { .. } }`'
hints "$block" 'trio-job 3\njob main after 5 { sleep 1; }\n'
hints "$block" 'trio-job 3\njob main { repeat 3 after 5 { sleep 1; } }\n'
job_hints "$block" 'try shield { sleep 1; } finally { }'
job_hints 'a `try` has one handler: for another exception, put a second `try` around this one' \
    'try { sleep 1; } except Failed { } except Missing { }'
job_hints 'a handler names its exception: `except NAME { .. }`' 'try { sleep 1; } except { }'
job_hints 'there are no variables: a job has steps and blocks alone' 'ticks = 5;'
job_hints 'there are no lists: each step ends with `;`, as in `cancel first; cancel second;`' 'scope a { scope b { cancel a, b; } }'

# The last two lines: a task cannot be cancelled by its name, and what can be cancelled.
job_hints 'what can be cancelled here: `tasks`' 'nursery tasks { start task { sleep 1; } cancel task; }'
by_name='a task cannot be cancelled by its name: put a scope into the task, and the `cancel` into that scope'
[ "$(tail -n 2 err | head -n 1)" = "$by_name" ] || { echo "hints.sh: wanted: $by_name" >&2; cat err >&2; exit 1; }
job_hints 'what can be cancelled here: `tasks`' 'nursery tasks { start task { cancel tsak; } }'
! grep -Fqx "$by_name" err || { echo 'hints.sh: no task has that name' >&2; exit 1; }

# says STATUS ERR WORD..: the program writes exactly these lines to standard error, a format of printf.
says() {
    wanted=$1 text=$2
    shift 2
    status=0
    "$nursery" "$@" < /dev/null > out 2> err || status=$?
    [ "$status" = "$wanted" ] || { echo "hints.sh: nursery $*: status $status" >&2; exit 1; }
    printf "$text" | cmp -s - err || { echo "hints.sh: nursery $*:" >&2; cat err >&2; exit 1; }
    cases=$((cases + 1))
}

mkdir a_folder
printf 'trio-job 1\njob main { sleep 1; }\n' > wait.job
says 4 'cannot read the job file\nnone.job: no such file\n' check none.job
says 4 'cannot read the job file\na_folder: is a directory\n' check a_folder
says 4 'cannot read the job file\nwait.job/x: not a directory\n' check wait.job/x
says 4 'cannot read the input file\nnone.txt: no such file\n' run wait.job none.txt
says 4 'cannot read the input file\na_folder: is a directory\n' run wait.job a_folder
says 2 'error: `wait.job` is no command: to run a job file, write `nursery run wait.job`\n' wait.job
says 2 'error: `jobs/wait` is no command: to run a job file, write `nursery run jobs/wait`\n' jobs/wait
says 2 'error: `wait.feed` is no command: to run a job file, write `nursery run wait.feed`\n' wait.feed

echo "hints.sh: $cases cases"
