#!/usr/bin/env bash
# A first circuit: the program is proved and built, three stations on this machine agree on a story, one is killed, and
# over its saved rows the number still means that story. Nothing but the build's own out/ folders stays behind.
set -euo pipefail
cd "$(dirname "$0")"
examples=$PWD
top=$PWD/..
circuitd=$top/crates/circuitd/out/circuitd

work=$(mktemp -d)
trap 'kill $(jobs -p) 2> /dev/null || true; rm -rf "$work"' EXIT

echo "Proving and building the program: about 55 minutes on four cores, seconds after that."
"$examples/build.py" circuitd

cp station?.toml codes.toml widths.toml ./*.tape "$work"
cd "$work"

# Runs a station of so many turns in the background; what it prints goes into a file.
station() {
    local member=$1 turns=$2
    shift 2
    "$circuitd" serve "station$member.toml" --turns "$turns" "$@" > "printed$member" 2> "faults$member" &
}

# Prints the files, set in.
indented() {
    sed 's/^/    /' "$@"
}

echo "A tape that sets well, and its galley:"
"$circuitd" check codes.toml widths.toml flood.tape | indented
echo "A tape that does not:"
"$circuitd" check codes.toml widths.toml overset.tape 2>&1 | indented || true

echo "Three stations start. Station 1 offers the flood story under number 12."
station 2 1000000 --create
second=$!
station 3 60 --create
third=$!
station 1 60 --create --number 12 --tape flood.tape
first=$!
wait "$first" "$third"
for member in 1 2 3; do
    echo "Station $member printed:"
    indented "printed$member" "faults$member"
done

echo "Station 2 is killed. What it saved:"
disown "$second"
kill -9 "$second"
while kill -0 "$second" 2> /dev/null; do
    sleep 0.1
done
"$circuitd" rows station2.db | indented

echo "All start again over their saved rows. Station 2 now offers the harvest story, under the same number 12."
station 1 60
station 3 60
station 2 60 --number 12 --tape harvest.tape
wait
echo "Station 2 printed:"
indented printed2 faults2

if ! grep -q '^release 12 01020301030204$' printed2 || grep '^release 12 ' printed? | grep -vq ' 01020301030204$'; then
    echo "Number 12 does not mean the flood story any more, or nobody released it." >&2
    exit 1
fi
echo "Number 12 still means the flood story."
"$examples/same.sh"
"$examples/statuses.sh"
