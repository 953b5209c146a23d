#!/usr/bin/env bash
# From the sources and without a proof: an acceptor answers a Prepare, then three stations agree on a story and cast it. About a minute.
set -euo pipefail
cd "$(dirname "$0")"
top=$(cd .. && pwd)

kept=$(mktemp -d)
trap 'kill "$run" 2> /dev/null || true; rm -rf "$kept"' EXIT

# A program of its own, in a repository of its own, that answers and rehearses and no more: with these alone a build takes a minute.
mkdir -p "$kept/crates/taste/src"
cp taste/main.rt.txt "$kept/crates/taste/src/main.rt"
cp "$top/HANDLES" "$kept"
cat "$top/crates.txt" - > "$kept/crates.txt" <<< 'taste: ballots tape_frames inputs streams command_ends answer_command rehearse_command'
for crate in "$top"/crates/*/; do
    name=$(basename "$crate")
    mkdir "$kept/crates/$name"
    cp -r "$crate/src" "$kept/crates/$name"
done
cd "$kept/crates/taste"

examples=$top/examples
prepare=544e0101000701020000000c0000000101
echo "$prepare" > "$kept/prepare.hex"
echo "This proves nothing: it builds a small program, and runs it."
rt try --data prepare.hex="$kept/prepare.hex" --data codes.toml="$examples/codes.toml" --data widths.toml="$examples/widths.toml" \
    --data story.script="$examples/story.script" > "$kept/printed" 2> "$kept/told" < /dev/null &
run=$!

# One line, written over, until the program has run.
show() {
    [ ! -t 2 ] || printf '\r\033[K%s' "$1" >&2
}
while kill -0 "$run" 2> /dev/null; do
    show "Building, for about a minute: $SECONDS s"
    sleep 1
done
show ""

if ! wait "$run"; then
    cat "$kept/printed" "$kept/told" | tail -n 30 >&2
    exit 1
fi

# What is printed, with a sentence before each part of it.
awk -v prepare="$prepare" '
    NR == 1 {
        print "\nAnswered: station 1 asks station 2 of circuit 7 to promise ballot 1.1 for number 12, by this datagram in hex:"
        print " " prepare
        print "Station 2 promises, by this one:"
        print " " $0
        print "\nAgreed: station 1 offers a story under number 12. It asks the others for promises, and then for votes."
        next
    }
    /^ release/ && !releases++ { print "\nCast: each station that hears of two votes releases the tape, its frames in hex, and casts it as one slug." }
    { print }
' "$kept/printed"

if [ "$(head -n 1 "$kept/printed")" != 544e0102000702010000000c000000010100 ]; then
    echo "The acceptor did not promise." >&2
    exit 1
fi
tape=$(od -An -v -tx1 "$examples/flood.tape" | tr -d ' \n')
if ! grep -qx " release 12 $tape" "$kept/printed"; then
    echo "No station released the flood story." >&2
    exit 1
fi

printf '\nDrawn: docs/story.svg shows the holes of its frames, what they mean, and the slug, as "circuitd draw" writes them.\n'
