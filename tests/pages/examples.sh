#!/bin/sh
# The examples and the jobs of tests/, by the program that the gate built: `nursery test` compares each with what is kept beside it, by 1, 3 and 64
# workers. Then stories of feeds in two files, and the pictures that the pages show. The examples are of format 3; those of tests/ticks are the same
# designs in formats 1 and 2.
set -eu
cd "$(dirname "$0")/../.."
nursery=$PWD/crates/nursery/out/nursery
folder=$(mktemp -d)
trap 'rm -rf "$folder"' EXIT

for workers in 1 3 64; do
    "$nursery" test examples tests/races tests/faults tests/rounds tests/events tests/sharing tests/ticks --workers "$workers"
    "$nursery" test tests/limits/endless --limit 100 --workers "$workers"
    "$nursery" test tests/limits/again tests/limits/again_in_ticks --limit 20 --workers "$workers"
done

# parts FEED: the job and the input of a feed, in two files.
parts() {
    sed '/^%input$/,$d' "$1" > "$folder/job"
    sed '1,/^%input$/d' "$1" > "$folder/input"
}

for name in examples/race tests/ticks/race; do
    parts "$name.feed"
    "$nursery" explain "$folder/job" "$folder/input" --workers 64 | cmp - "$name.story"
    echo "the story of $name.feed is the same where its input is in a file of its own"
done

# draws FEED PICTURE: the chart of a feed as SVG is this picture.
draws() {
    parts "$1"
    "$nursery" chart --svg "$folder/job" "$folder/input" | cmp - "$2"
    echo "$2 is what is drawn"
}

for name in retry shutdown supervisor; do
    draws "examples/$name.feed" "docs/pictures/$name.svg"
    draws "tests/ticks/$name.feed" "tests/ticks/$name.svg"
done

# A page about a job, which does not depend on the number of workers.
for workers in 1 64; do
    "$nursery" page examples/supervisor.feed --workers "$workers" | cmp - examples/supervisor.html
done
echo "examples/supervisor.html is the page about examples/supervisor.feed"
