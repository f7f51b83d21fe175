#!/usr/bin/env bash
# Runs the example over two veth pairs, as root: one network namespace for it, one for each network's receivers, which
# are UDP sockets of the kernel. Each message must arrive whole and in its order on each network of its link.
#
#     bash examples/c/wire.sh [MESSAGES]
#
# The networks' receivers are in namespaces of their own, since in one namespace the kernel takes fragments of the
# twins for pieces of one datagram.
set -eu
cd "$(dirname "$0")"
[ "${AFDX_INSIDE-}" = yes ] || AFDX_INSIDE=yes exec unshare --net bash "$PWD/wire.sh" "$@"
messages=${1-200}

unshare --net sleep 600 & a=$!
unshare --net sleep 600 & b=$!
trap 'kill $a $b 2>/dev/null || true' EXIT
until [ "$(readlink /proc/$a/ns/net)" != "$(readlink /proc/$$/ns/net)" ] &&
    [ "$(readlink /proc/$b/ns/net)" != "$(readlink /proc/$$/ns/net)" ]; do sleep 0.1; done

# A veth pair: afdxA here, peerA with the receivers.
prepare() {
    ip link add name "afdx$1" type veth peer name "peer$1"
    ip link set "peer$1" netns "$2"
    nsenter -t "$2" -n bash -eu -c "
        for of in all default peer$1; do echo 0 > /proc/sys/net/ipv4/conf/\$of/rp_filter; done
        echo 1 > /proc/sys/net/ipv6/conf/peer$1/disable_ipv6
        ip link set lo up
        ip addr add 10.0.2.1/24 dev peer$1
        ip link set peer$1 up allmulticast on"
    echo 1 > "/proc/sys/net/ipv6/conf/afdx$1/disable_ipv6"
    ip link set "afdx$1" up
}
prepare A $a
prepare B $b

ready=$(mktemp -d)
nsenter -t $a -n python3 receive.py A peerA "$ready" "1:2000:$messages:100" "2:2001:$messages:4000" "3:2002:$messages:600" & of_a=$!
nsenter -t $b -n python3 receive.py B peerB "$ready" "1:2000:$messages:100" "2:2001:$messages:4000" "3:2002:0:600" & of_b=$!
until [ -e "$ready/A" ] && [ -e "$ready/B" ]; do sleep 0.1; done
sent=0
./example wire.toml afdxA afdxB "10:$messages:100" "11:$messages:4000" "12:$messages:600" || sent=1
touch "$ready/sent"
wait $of_a || sent=1
wait $of_b || sent=1
rm -r "$ready"
exit $sent
