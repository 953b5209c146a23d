#!/usr/bin/env bash
# A day of three sealed plants that stay up and work with folders: ten stories at three places, a plant that is killed and starts again, two stories
# under one number, a withdrawal, a search, a file that is no offer, and a good end. `circuitd init` makes the plants, as those that lie beside this
# script. docs/OPERATING.md says what an operator does; this does it.
set -euo pipefail
cd "$(dirname "$0")/.."
examples=$PWD
circuitd=$PWD/../crates/circuitd/out/circuitd
if [ ! -x "$circuitd" ]; then
    echo "The program is not built: examples/first_circuit.sh builds it." >&2
    exit 1
fi

work=$(mktemp -d)
trap 'kill $(jobs -p) 2> /dev/null || true; rm -rf "$work"' EXIT
pids=("" "" "" "")

echo "The files of three plants are made, with one key."
"$circuitd" init "$work/plants" --circuit 7 --all --new-key --table codes.toml --widths widths.toml \
    --stations 127.0.0.1:7001,127.0.0.1:7002,127.0.0.1:7003 > "$work/made"
cd "$work/plants"
for member in 1 2 3; do
    (cd "plant$member" && "$circuitd" check-config station.toml > /dev/null && "$circuitd" create station.toml | sed 's/^/    /')
done

# Starts a plant in its own folder; what it tells is added to a file of its own.
start() {
    local member=$1
    (cd "plant$member" && exec "$circuitd" run station.toml 2>> told) &
    pids[member]=$!
}

# Hands a file over to a plant: copied under another name, then renamed.
hand_over() {
    local member=$1 file=$2 name=$3
    cp "$file" "plant$member/offers/.$name" && mv "plant$member/offers/.$name" "plant$member/offers/$name"
}

# Waits until a file is there.
await() {
    for _ in $(seq 400); do
        [ ! -e "$1" ] || return 0
        sleep 0.1
    done
    echo "$1 did not come; the plants told:" >&2
    tail -n 20 plant?/told >&2
    exit 1
}

echo "They start, each for the first time."
for member in 1 2 3; do start "$member"; done

echo "Ten stories are handed over, at three places."
for number in 1 2 3 4 5 6 7 8 9 10; do
    story=$([ $((number % 2)) = 0 ] && echo flood.tape || echo harvest.tape)
    hand_over $((number % 3 + 1)) "$examples/$story" "$number.tape"
done
for number in 1 2 3 4 5 6 7 8 9 10; do
    for member in 1 2 3; do await "plant$member/releases/$number.galley"; done
    await "plant$((number % 3 + 1))/offers/sent/$number.tape"
    cmp plant1/releases/$number.tape plant2/releases/$number.tape
    cmp plant2/releases/$number.galley plant3/releases/$number.galley
done
echo "Each plant has the same ten tapes and galleys. Number 2 at plant 3:"
sed 's/^/    /' plant3/releases/2.galley

echo "Plant 2 is killed. Meanwhile the others agree on number 11, and plant 3 withdraws number 12."
{ kill -9 "${pids[2]}" && wait "${pids[2]}"; } 2> /dev/null || true
hand_over 1 "$examples/flood.tape" 11.tape
: > empty
hand_over 3 empty 12.withdraw
for member in 1 3; do await "plant$member/releases/11.galley"; await "plant$member/releases/12.void"; done

# a folder of the name stop is left alone, as other folders are
mkdir plant1/offers/stop

echo "Plant 2 starts again over its saved rows. It missed number 11, so it is told to seek it; and it offers another story under number 2."
start 2
hand_over 2 empty 11.seek
hand_over 2 "$examples/harvest.tape" 2.tape
echo "no tape" > note
hand_over 2 note note.txt
await plant2/releases/11.galley
await plant2/offers/lost/2.tape
await plant2/offers/refused/note.txt
cmp plant2/releases/11.tape plant1/releases/11.tape
cmp plant2/releases/2.tape "$examples/flood.tape"
# what was set aside before is not written over
hand_over 2 "$examples/harvest.tape" 2.tape
await plant2/offers/lost/2.tape.2
cmp plant2/offers/lost/2.tape plant2/offers/lost/2.tape.2
cmp note plant2/offers/refused/note.txt
hand_over 2 note note
await plant2/offers/refused/note
cmp note plant2/offers/refused/note.txt
grep -q "no number" plant2/offers/refused/note.txt.2
echo "Number 2 still means the flood story, at all three. What plant 2 told since:"
sed 's/^/    /' plant2/told | tail -n 12

kill -0 "${pids[1]}"
rmdir plant1/offers/stop
echo "How plant 2 stands, by its status:"
(cd plant2 && "$circuitd" status station.toml) | sed 's/^/    /'
echo "A file stop ends each plant."
for member in 1 2 3; do
    hand_over "$member" empty stop
    wait "${pids[$member]}"
done
for member in 1 2 3; do "$circuitd" rows "plant$member/station.db" > "rows$member"; done
echo "Plant 3 saved:"
sed 's/^/    /' rows3
