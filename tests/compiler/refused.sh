#!/bin/sh
# What must not compile: each snippet crates/NAME/refused/*.txt at the end of its crate must be refused, by the error that its line
# '// refused by: ' begins. They are text files, since rt reads code only below src/. It works on a copy.
set -eu
cd "$(dirname "$0")/../.."
room=$(mktemp -d)
trap 'rm -rf "$room"' EXIT
for snippet in crates/*/refused/*.txt; do
    wanted=$(sed -n 's|^// refused by: ||p' "$snippet")
    [ -n "$wanted" ] || { echo "$snippet: it names no error"; exit 1; }
    rm -rf "$room/crates"
    mkdir "$room/crates"
    cp crates.txt "$room"
    for crate in crates/*; do
        mkdir "$room/$crate"
        for part in src specs proofs; do
            [ ! -d "$crate/$part" ] || cp -r "$crate/$part" "$room/$crate"
        done
    done
    name=$(echo "$snippet" | cut -d/ -f2)
    cat "$snippet" >> "$room/crates/$name/src/lib.rt"
    said=$(cd "$room/crates/$name" && rt check 2>&1) && { echo "$snippet: NOT REFUSED"; exit 1; }
    echo "$said" | grep -qF "$wanted" || { echo "$snippet: refused, but not by $wanted"; echo "$said" | head; exit 1; }
    echo "$snippet: refused, as it must be: $(echo "$said" | grep -m1 -F "$wanted")"
done
