#!/usr/bin/env bash
# cluster.sh KIND SIZE: a group of `chain`, `primary` or `vr` as processes on this machine, which talk UDP over loopback. Clients write
# and read; a replica is stopped, and the others go on without it; then the switch is stopped, and the next one takes its place. What
# is started here is ended here. What is printed is the same in every run, and the status is 0 where each answer is the one that is due.
#
# HMD names the program, where that isn't crates/hmd/out/hmd.
set -u
kind=${1:-}
size=${2:-}
case $kind-$size in
chain-[2-7] | primary-[2-7] | vr-[357]) ;;
*)
    echo "usage: cluster.sh chain|primary|vr SIZE, where SIZE is 2 to 7, and 3, 5 or 7 for vr" >&2
    exit 2
    ;;
esac
hmd=${HMD:-$(cd "$(dirname "$0")/.." && pwd)/crates/hmd/out/hmd}
clients=7
turns=3000 # so often a node takes: one that is left to itself ends after ten minutes
ask_turns=100
patience=4
switch=1

work=$(mktemp -d) || exit 1
started=()
trap 'end_all; rm -rf "$work"' EXIT
trap 'exit 130' INT
trap 'exit 143' TERM HUP

fail() {
    echo "failed: $*"
    exit 1
}

# Ends one process that was started here.
end() {
    local process others=()
    {
        kill -9 "$1"
        wait "$1"
    } 2>/dev/null
    for process in "${started[@]}"; do
        [ "$process" = "$1" ] || others+=("$process")
    done
    started=("${others[@]}")
}

# Ends what was started here and still runs.
end_all() {
    while [ ${#started[@]} -gt 0 ]; do
        end "${started[0]}"
    done
}

# Whether all that was started still runs.
all_run() {
    local process
    for process in "${started[@]}"; do
        kill -0 "$process" 2>/dev/null || return 1
    done
}

# So many ports that nobody has, and that the system gives to nobody who asks for any port.
free_ports() {
    python3 - "$1" <<'PORTS'
import random
import socket
import sys

sockets = []
while len(sockets) < int(sys.argv[1]):
    sockets.append(socket.socket(socket.AF_INET, socket.SOCK_DGRAM))
    try:
        sockets[-1].bind(("127.0.0.1", random.randrange(10000, 32768)))
    except OSError:
        sockets.pop().close()
print(*(s.getsockname()[1] for s in sockets))
PORTS
}

# The word of each node that says where it is: two switches, the service, the replicas and the clients.
list_nodes() {
    local ports nodes=(s1 s2 cfg) node
    for ((node = 0; node < size; node++)); do nodes+=("r$node"); done
    for ((node = 1; node <= clients; node++)); do nodes+=("c$node"); done
    read -r -a ports <<<"$(free_ports ${#nodes[@]})"
    addresses=()
    for ((node = 0; node < ${#nodes[@]}; node++)); do
        addresses+=("${nodes[node]}=127.0.0.1:${ports[node]}")
    done
}

start_switch() {
    "$hmd" switch "$1" 1 3 10 1048576 $turns "$kind" "$size" "${addresses[@]}" >/dev/null 2>&1 3>&- &
    switch_process=$!
    started+=($!)
}

# Starts the nodes, and waits until they answer. A port that another program took meanwhile ends a node at once.
start_nodes() {
    local node
    list_nodes
    rm -f "$work/orders"
    mkfifo "$work/orders" && exec 3<>"$work/orders" || fail "there is no room for the orders"
    start_switch 1
    "$hmd" config "$kind" "$size" 1000 "${addresses[@]}" <"$work/orders" >"$work/outcomes" 2>/dev/null 3>&- &
    started+=($!)
    replicas=()
    for ((node = 0; node < size; node++)); do
        "$hmd" replica $node "$kind" "$size" 16384 $turns $patience "${addresses[@]}" 2>/dev/null 3>&- &
        started+=($!)
        replicas+=($!)
    done
    answer 7 1 6 read >/dev/null && all_run
}

# answer CLIENT REQUEST OBJECT WHAT: `wrote`, `none` or a value
answer() {
    local reply
    reply=$("$hmd" client "$1" "$2" $switch $ask_turns "$3" "$4" "${addresses[@]}" 2>/dev/null 3>&-) || return 1
    echo "${reply##* }"
}

# ask CLIENT REQUEST OBJECT WHAT WANTED
ask() {
    local got what="writes $4 to"
    [ "$4" = read ] && what=reads
    got=$(answer "$1" "$2" "$3" "$4") || fail "client $1 $what object $3 and gets no answer"
    [ "$got" = "$5" ] || fail "client $1 $what object $3 and gets $got, not $5"
    echo "client $1 $what object $3: $got"
}

# Gives the service an order, and waits for the line of what it came to.
order() {
    local before tries
    before=$(wc -l <"$work/outcomes")
    echo "$1" >&3
    for ((tries = 0; tries < 200; tries++)); do
        [ "$(wc -l <"$work/outcomes")" -gt "$before" ] && break
        sleep 0.02
    done
    outcome=$(tail -n +$((before + 1)) "$work/outcomes")
}

# order_gives LINE OUTCOME
order_gives() {
    order "$1"
    [ "$outcome" = "$2" ] || fail "the service answers '$outcome' to $1"
    echo "service, $1: $2"
}

# The service takes packets until so many replicas have refused the switch.
take_refusals() {
    local tries=0 left=$1
    while [ "$left" -gt 0 ]; do
        order take
        if [ "$outcome" = "take ok" ]; then
            left=$((left - 1))
        fi
        tries=$((tries + 1))
        [ $tries -lt 50 ] || fail "the replicas don't refuse switch $switch"
    done
    echo "service: $1 replicas have refused switch $switch"
}

[ -x "$hmd" ] || fail "there is no program $hmd: rt ci builds it"
for ((try = 0; try < 5; try++)); do
    start_nodes && break
    end_all
done
[ ${#started[@]} -gt 0 ] || fail "the nodes don't start"
echo "a group of $size replicas ($kind), a switch and a service"

ask 1 1 5 61 wrote
ask 2 1 5 read 61
ask 3 1 6 read none
ask 1 2 6 6262 wrote
ask 2 2 6 read 6262

case $kind in
chain) stopped=$((size - 1)) role=tail ;;
*) stopped=0 role=primary ;;
esac
end "${replicas[stopped]}"
echo "replica $stopped, the $role, is stopped"
for client in 4 5 6; do
    ask $client 1 5 read 61
done
if [ "$kind" = vr ]; then
    order_gives "remove $stopped" "remove Fixed"
    ask 1 3 5 636363 wrote
    echo "so the others have changed the view"
else
    order_gives "remove $stopped" "remove ok"
    ask 1 3 5 636363 wrote
fi
for client in 4 5 6; do
    ask $client 2 5 read 636363
done

end "$switch_process"
echo "switch 1 is stopped"
start_switch 2
order_gives retire "retire ok"
take_refusals $((size - 1))
running=$(seq -s ' ' 0 $((size - 1)) | tr -d "$stopped" | xargs)
order_gives "start $running" "start 2"
switch=2
ask 2 3 5 read 636363
ask 1 4 5 64646464 wrote
for client in 4 5 6; do
    ask $client 3 5 read 64646464
done
ask 2 4 6 read 6262

all_run || fail "a node has ended by itself"
end_all
echo "all is ended"
