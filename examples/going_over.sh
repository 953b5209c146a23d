#!/usr/bin/env bash
# A circuit goes over while it runs: three stations start at version 1 of packets and rows and agree on stories; one after
# the other is killed, its file upgraded, and started again; at the end a number is withdrawn, which version 1 has no words for.
set -euo pipefail
cd "$(dirname "$0")"
examples=$PWD
circuitd=$PWD/../crates/circuitd/out/circuitd
if [ ! -x "$circuitd" ]; then
    echo "The program is not built: examples/first_circuit.sh builds it." >&2
    exit 1
fi

work=$(mktemp -d)
trap 'kill $(jobs -p) 2> /dev/null || true; rm -rf "$work"' EXIT
cp station?.toml codes.toml widths.toml ./*.tape "$work"
cd "$work"
pids=("" "" "" "")

# Starts a station, which stays up; what it prints is added to a file of its own.
start() {
    local member=$1
    shift
    "$circuitd" serve "station$member.toml" --turns 1000000 "$@" >> "printed$member" 2>> "faults$member" &
    pids[member]=$!
    # until it listens: what is sent before is lost
    sleep 1
}

# Kills a station, as a failure of its power would.
cut() {
    kill -9 "${pids[$1]}"
    wait "${pids[$1]}" 2> /dev/null || true
}

# Kills a station, upgrades its file, and starts it again.
go_over() {
    local member=$1
    shift
    cut "$member"
    printf 'Station %s is killed, and its file upgraded: ' "$member"
    "$circuitd" upgrade "station$member.db"
    start "$member" "$@"
}

# Waits until each of these stations has printed a release of this number, and that it means this.
released() {
    local number=$1 entry=$2 member
    shift 2
    for member in "$@"; do
        for _ in $(seq 300); do
            ! grep -q "^release $number " "printed$member" || break
            sleep 0.1
        done
        if ! grep -q "^release $number $entry\$" "printed$member" || grep "^release $number " printed? | grep -vq " $entry\$"; then
            echo "Station $member did not release $entry under $number:" >&2
            cat "printed$member" "faults$member" >&2
            exit 1
        fi
    done
    echo "    Number $number is $entry to the stations $*."
}

# What a station's file holds, as the stock shell reads a copy of it and of its log.
show() {
    local copy=$work/copy$1
    cp "station$1.db" "$copy.db"
    [ ! -f "station$1.db-wal" ] || cp "station$1.db-wal" "$copy.db-wal"
    echo "  station$1.db:"
    sqlite3 "$copy.db" "$2" | sed 's/^/    /'
    rm -f "$copy".db*
}

echo "Three stations start at version 1. Station 1 offers the flood story under number 12."
start 2 --create
start 3 --create
start 1 --create --number 12 --tape flood.tape
released 12 01020301030204 1 2 3

go_over 3
echo "Station 2, still at version 1, offers the harvest story under number 13. Station 3 reads both versions."
cut 2
start 2 --number 13 --tape harvest.tape
harvest=$(od -An -v -tx1 harvest.tape | tr -d ' \n')
released 13 "$harvest" 1 2 3

go_over 2
echo "Station 3 offers the flood story under number 14. To station 1, at version 1, what it sends is lost."
cut 3
start 3 --number 14 --tape flood.tape
released 14 01020301030204 2 3

go_over 1 --withdraw 15 --seek 14
echo "Station 1, at version 2 now, seeks number 14 and withdraws number 15."
released 14 01020301030204 1
released 15 void 1 2 3
released 12 01020301030204 1 2 3

echo "All are killed. What their files hold, as any SQLite shell tells it:"
for member in 1 2 3; do
    cut "$member"
    "$circuitd" rows "station$member.db" | sed "s/^/    /"
    if command -v sqlite3 > /dev/null; then
        show "$member" "SELECT 'layout ' || layout FROM station; SELECT number || ': ' || length || ' frames, packed ' || hex(packed) FROM acceptor_entry WHERE length IS NOT NULL; SELECT 'kept from layout 1: ' || count(*) || ' rows' FROM acceptor_row"
    fi
done
