#!/bin/sh
# What `make install` puts in place and `make dist` packs, by the program that the gate built: each command and option of the help stands in the
# completions of each shell and in the man page, bash completes words, and zsh, fish and troff read theirs without a complaint, where they are there.
# From the unpacked archive the examples are tested.
set -eu
cd "$(dirname "$0")/../.."
folder=$(mktemp -d)
trap 'rm -rf "$folder"' EXIT

fail() {
    echo "installed.sh: $1" >&2
    exit 1
}

# completes WORDS WORD WANTED: bash offers these words for the last of the words of a line.
completes() {
    offered=$(cd "$prefix/share" && bash -c '. "$1"; COMP_WORDS=($2 "$3"); COMP_CWORD=$((${#COMP_WORDS[@]} - 1))
        _nursery nursery "$3" "${COMP_WORDS[COMP_CWORD - 1]}"; echo "${COMPREPLY[*]}"' - "$bash" "$1" "$2")
    [ "$offered" = "$3" ] || fail "$1 $2: bash offers: $offered"
}

# examine PREFIX: what is installed there.
examine() {
    prefix=$1
    nursery=$prefix/bin/nursery
    bash=$prefix/share/bash-completion/completions/nursery
    zsh=$prefix/share/zsh/site-functions/_nursery
    fish=$prefix/share/fish/vendor_completions.d/nursery.fish
    man=$prefix/share/man/man1/nursery.1
    [ -x "$nursery" ] || fail "the program is not there"

    commands=$("$nursery" --help | sed -n '/^Commands:/,/^$/s/^  \([a-z]*\) .*/\1/p')
    [ "$(echo "$commands" | wc -l)" -gt 10 ] || fail "the help names few commands"
    for command in $commands; do
        for file in "$bash" "$zsh" "$fish" "$man"; do
            grep -qw -- "$command" "$file" || fail "$file does not have the command $command"
        done
        [ "$command" != help ] || continue
        [ "$("$nursery" help "$command")" = "$("$nursery" "$command" --help)" ] || fail "help of $command"
        for option in $("$nursery" "$command" --help | sed -n '/^Options:/,/^$/s/^.*--\([a-z]*\).*/\1/p'); do
            grep -q -- "--$option" "$bash" || fail "$bash does not have --$option of $command"
            grep -q -- "--$option" "$zsh" || fail "$zsh does not have --$option of $command"
            [ "$option" = help ] || grep -q -- "from $command' -l $option " "$fish" || fail "$fish does not have --$option of $command"
            grep -qF -- "\\-\\-$option" "$man" || fail "$man does not have --$option of $command"
        done
    done

    completes nursery ra races
    completes nursery --v --version
    completes 'nursery help' up upgrade
    completes 'nursery upgrade job --to' '' '2 3'
    completes 'nursery run job input --limit' '' ''
    completes 'nursery fmt' --w --write
    completes 'nursery completions' '' 'bash zsh fish'
    completes 'nursery check' b bash-completion

    if command -v zsh > /dev/null; then zsh -n "$zsh" || fail "zsh does not read its script"; fi
    if command -v fish > /dev/null; then fish -n "$fish" || fail "fish does not read its script"; fi
    if command -v groff > /dev/null; then
        groff -man -Tascii -ww "$man" > "$folder/page" 2> "$folder/err"
        [ ! -s "$folder/err" ] || fail "troff complains: $(head -3 "$folder/err")"
        grep -q "nursery run watch.job - --limit 100" "$folder/page" || fail "the man page does not have an example of the help"
    fi
}

make -s install PREFIX="$folder/installed" > /dev/null
examine "$folder/installed"
make -s uninstall PREFIX="$folder/installed"
[ -z "$(find "$folder/installed" -type f)" ] || fail "uninstall leaves a file"

make -s dist DIST_DIR="$folder/dist" > /dev/null
(cd "$folder" && tar -xzf dist/nursery-*-x86_64-linux.tar.gz)
release=$(echo "$folder"/nursery-*-x86_64-linux)
[ "$release" = "$folder/nursery-$("$release/bin/nursery" --version | sed 's/.* //')-x86_64-linux" ] || fail "the archive has another version"
examine "$release"
for file in README.md CHANGELOG.md LICENSE-MIT LICENSE-APACHE docs/MANUAL.md examples/supervisor.feed; do
    [ -s "$release/$file" ] || fail "the archive does not have $file"
done
(cd "$release" && bin/nursery test examples > "$folder/tested") || fail "the examples of the archive: $(tail -3 "$folder/tested")"
echo "installed.sh: $(echo "$commands" | wc -w) commands are completed and in the man page, installed and from the archive"
