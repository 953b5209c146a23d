#!/usr/bin/env bash
# A sealed wire: a key is made and given to three plants, which agree on a story; a plant with another key is left out, and told of at all; then the
# key is changed while the plants go on. docs/OPERATING.md says how a key is made, carried and changed; this does it.
set -euo pipefail
cd "$(dirname "$0")"
examples=$PWD
circuitd=$PWD/../crates/circuitd/out/circuitd
if [ ! -x "$circuitd" ]; then
    echo "The program is not built: examples/first_circuit.sh builds it." >&2
    exit 1
fi

work=$(mktemp -d)
trap 'kill $(jobs -p) 2> /dev/null || true; rm -rf "$work"' EXIT
pids=("" "" "" "")

echo "A key is made, which nobody else can read, and carried to three plants."
umask 077
openssl rand -hex 32 > "$work/circuit.key"
for member in 1 2 3; do
    mkdir -p "$work/plant$member/offers" "$work/plant$member/releases"
    cp codes.toml widths.toml "$work/circuit.key" "$work/plant$member"
    # tables stand before the list of stations, as a table of TOML goes on to the next
    awk '/^# where each member listens/ {
        print "[folders]\noffers = \"offers\"\nreleases = \"releases\"\nrenamed = true\n\n[wire]\nkey = \"circuit.key\"\n"
    } { print }' "station$member.toml" > "$work/plant$member/station.toml"
done
cd "$work"

# Starts a plant in its own folder; what it tells is added to a file of its own.
start() {
    local member=$1
    shift
    (cd "plant$member" && exec "$circuitd" run station.toml "$@" 2>> told) &
    pids[member]=$!
}

# Ends a plant by a file stop.
finish() {
    : > "plant$1/offers/.stop" && mv "plant$1/offers/.stop" "plant$1/offers/stop"
    wait "${pids[$1]}"
}

# Hands a file over to a plant: copied under another name, then renamed.
hand_over() {
    local member=$1 file=$2 name=$3
    cp "$file" "plant$member/offers/.$name" && mv "plant$member/offers/.$name" "plant$member/offers/$name"
}

# Waits until something holds.
await() {
    for _ in $(seq 400); do
        ! "$@" || return 0
        sleep 0.1
    done
    echo "This did not come to hold: $*; the plants told:" >&2
    tail -n 20 plant?/told >&2
    exit 1
}

# Waits until a number was released at these plants.
released() {
    local number=$1 member
    shift
    for member in "$@"; do await test -e "plant$member/releases/$number.galley"; done
}

echo "The plants start, and agree on number 1."
for member in 1 2 3; do start "$member" --create --layout 2; done
hand_over 1 "$examples/flood.tape" 1.tape
released 1 1 2 3
sed 's/^/    /' plant3/releases/1.galley

echo "Plant 3 is given another key. The others agree on number 2 without it, and each side tells of the other."
finish 3
openssl rand -hex 32 > plant3/circuit.key
start 3
hand_over 1 "$examples/harvest.tape" 2.tape
released 2 1 2
for member in 1 3; do
    await grep -q "with another key or configuration" "plant$member/told"
    grep -m 1 "with another key or configuration" "plant$member/told" | sed "s/^/    plant $member: /"
done
test ! -e plant3/releases/2.tape

echo "With the circuit's key again it has number 2 as well."
finish 3
cp circuit.key plant3
start 3
released 2 3
cmp plant1/releases/2.tape plant3/releases/2.tape

echo "The key is changed, one plant after the other: the new one is taken too, then sent under, then the old one is forgotten."
mv circuit.key old
openssl rand -hex 32 > new
number=2
for lines in "old new" "new old" "new"; do
    for member in 1 2 3; do
        finish "$member"
        # the two names are apart
        # shellcheck disable=SC2086
        cat $lines > "plant$member/circuit.key"
        start "$member"
    done
    number=$((number + 1))
    hand_over $((number % 3 + 1)) "$examples/flood.tape" $number.tape
    released $number 1 2 3
    echo "    $lines: number $number is at all three"
done

echo "A key that others can read is refused:"
finish 3
chmod 644 plant3/circuit.key
(cd plant3 && "$circuitd" run station.toml 2>&1 || true) | sed 's/^/    /'
for member in 1 2; do finish "$member"; done
