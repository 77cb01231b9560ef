"""The script of a lab of FRR."""

from __future__ import annotations

WHERE = """\
# Each router has a folder: bgpd.conf configures it, and network has its address and distances.
# vtysh --vty_socket $PWD/ROUTER -c 'show bgp ipv4 unicast' shows more of one."""

FUNCTIONS = """\
programs=${FRR:-/usr/lib/frr}

namespaces() {
    for router in $routers; do
        echo "$namespace-$router"
    done
    echo "$namespace"
}

# Starts a daemon of a router, which has all of its files in the router's folder. Those that FRR
# keeps in /var/tmp/frr, for a crash, it has there too: `ip netns exec` has mounts of its own.
start() {
    mkdir -p /var/tmp/frr
    ip netns exec "$namespace-$router" sh -c 'mount --bind "$0" /var/tmp/frr && exec "$@"' "$1" \\
        "$programs/$2" -d -P 0 -f "$1/$2.conf" -i "$1/$2.pid" -z "$1/zserv" --vty_socket "$1" \\
        --log "file:$1/$2.log"
}

up() {
    # A namespace a router, each with a link to the bridge in one more.
    ip netns add "$namespace"
    ip -n "$namespace" link add bridge type bridge
    ip -n "$namespace" link set bridge up
    number=0
    for router in $routers; do
        number=$((number + 1))
        own=$namespace-$router
        ip netns add "$own"
        ip -n "$own" link set lo up
        ip -n "$own" link add eth0 type veth peer name "port$number" netns "$namespace"
        ip -n "$namespace" link set "port$number" master bridge up
        grep -v '^#' "$router/network" | ip -n "$own" -batch -
        touch "$router/zebra.conf"
        chown -R frr:frr "$router"
    done
    for router in ${*:-$routers}; do
        for daemon in zebra bgpd; do
            if ! start "$PWD/$router" "$daemon" 2>"$router/$daemon.errors"; then
                cat "$router/$daemon.errors" >&2
                return 1
            fi
        done
        if [ "$pause" != 0 ]; then sleep "$pause"; fi
    done
}

show_router() {
    if [ "$2" -eq 0 ]; then only=bestpath; else only=; fi
    vtysh --vty_socket "$PWD/$1" -c 'show bgp ipv4 unicast summary' | grep '^SESSIONS' || true
    vtysh --vty_socket "$PWD/$1" -c "show bgp ipv4 unicast PREFIX $only"
}
"""
