#!/usr/bin/env bash
# Runs okw against the kept transcripts tests/okw/*.txt. The commands of a transcript are its lines that begin with `$ `; they are run one after the other
# in a new folder that holds the sample segments of crates/okw/data, and what they write must be what stands below each. Last line: `okw: N transcripts, ok`.
# Usage: tests/okw.sh [--write] [OKW], from anywhere: with --write the transcripts are written anew; OKW is crates/okw/out/okw by default.
set -euo pipefail
cd "$(dirname "$0")/.."
write=no
if [[ ${1:-} == --write ]]; then
    write=yes
    shift
fi
program=${1:-crates/okw/out/okw}
if [[ ! -x $program ]]; then
    echo "okw: $program is not built; rt run in crates/okw builds it"
    exit 1
fi
program=$(realpath "$program")
root=$PWD
room=$(mktemp -d)
trap 'rm -rf "$room"' EXIT

# okw by its name, in the commands
okw() {
    "$program" "$@"
}

# Runs the commands of the transcript and writes it anew.
replay() {
    local line
    while IFS= read -r line; do
        if [[ $line == '$ '* ]]; then
            printf '%s\n' "$line"
            eval "${line#\$ }" 2>&1 || true
        fi
    done <"$1"
}

count=0
for transcript in tests/okw/*.txt; do
    name=$(basename "$transcript" .txt)
    mkdir "$room/$name"
    cp "$root"/crates/okw/data/*.okw "$room/$name"
    chmod u+w "$room/$name"/*
    (cd "$room/$name" && replay "$root/$transcript") >"$room/$name.got" </dev/null
    if [[ $write == yes ]]; then
        cp "$room/$name.got" "$transcript"
    elif ! diff -u "$transcript" "$room/$name.got"; then
        echo "okw: $transcript differs"
        exit 1
    fi
    count=$((count + 1))
done
echo "okw: $count transcripts, ok"
