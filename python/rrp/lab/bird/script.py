"""The script of a lab of BIRD 2."""

from __future__ import annotations

WHERE = """\
# Each router is configured by ROUTER.conf, logs to ROUTER.log and takes commands at ROUTER.ctl:
# birdc -s ROUTER.ctl show protocols"""

FUNCTIONS = """\
namespaces() {
    echo "$namespace"
}

up() {
    ip netns add "$namespace"
    ip -n "$namespace" link set lo up
    # All daemons share the namespace. Each has its sessions from an address of its own.
    number=0
    for router in $routers; do
        number=$((number + 1))
        ip -n "$namespace" address add "SESSIONS.$number/32" dev lo
    done
    for router in ${*:-$routers}; do
        ip netns exec "$namespace" bird -c "$router.conf" -s "$router.ctl" -P "$router.pid"
        if [ "$pause" != 0 ]; then sleep "$pause"; fi
    done
}

show_router() {
    if [ "$2" -eq 0 ]; then only=primary; else only=; fi
    birdc -s "$1.ctl" show protocols | grep ' BGP ' || true
    birdc -s "$1.ctl" show route table master4 all $only |
        grep -E '\\[|next_hop|cluster_list' || echo "holds nothing"
}
"""
