"""The receiving end of one network, in a network namespace of its own: what packet and UDP sockets of the kernel get. `Receiver`
runs it.

    receiving.py INTERFACE LINK:UDP_PORT..

It prints a line once it listens. For each line that it reads it prints what came since the last one, as JSON: `frames`, pairs
of the kernel's time in nanoseconds and the bytes in hexadecimal, and `messages`, by UDP port.
"""
import errno
import json
import os
import socket
import struct
import subprocess
import sys
import time

IPV4, TIMESTAMPS, ROOM = 0x0800, 35, 1 << 26
# What frames of AFDX begin with.
FRONT = bytes([3, 0, 0, 0])


def wait_for(interface: str) -> None:
    """Waits until an interface has been moved here, and sets it up: it takes each group's frames from any source."""
    while interface not in (name for _, name in socket.if_nameindex()):
        time.sleep(0.01)
    for of in ("all", "default", interface):
        with open(f"/proc/sys/net/ipv4/conf/{of}/rp_filter", "w", encoding="ascii") as file:
            file.write("0")
    if os.path.exists(f"/proc/sys/net/ipv6/conf/{interface}"):
        with open(f"/proc/sys/net/ipv6/conf/{interface}/disable_ipv6", "w", encoding="ascii") as file:
            file.write("1")
    for words in ("link set lo up", f"addr add 10.0.9.1/24 dev {interface}", f"link set {interface} up allmulticast on"):
        subprocess.run(["ip", *words.split()], check=True)


def packet_socket(interface: str) -> socket.socket:
    """A socket that gets each frame, with its time."""
    one = socket.socket(socket.AF_PACKET, socket.SOCK_RAW, socket.htons(IPV4))
    one.setsockopt(socket.SOL_SOCKET, getattr(socket, "SO_RCVBUFFORCE", 33), ROOM)
    one.setsockopt(socket.SOL_SOCKET, TIMESTAMPS, 1)
    one.bind((interface, IPV4))
    return one


def udp_socket(interface: str, link: int, port: int) -> socket.socket:
    """A socket that gets the messages of a virtual link for a UDP port."""
    group = socket.inet_aton(f"224.224.{link >> 8}.{link & 255}")
    one = socket.socket(socket.AF_INET, socket.SOCK_DGRAM)
    one.setsockopt(socket.SOL_SOCKET, getattr(socket, "SO_RCVBUFFORCE", 33), ROOM)
    one.setsockopt(socket.SOL_SOCKET, socket.SO_BINDTODEVICE, interface.encode())
    one.bind((socket.inet_ntoa(group), port))
    one.setsockopt(socket.IPPROTO_IP, socket.IP_ADD_MEMBERSHIP, group + bytes(4) + socket.if_nametoindex(interface).to_bytes(4, sys.byteorder))
    return one


def frames_of(one: socket.socket) -> list[tuple[int, str]]:
    """The frames that have come."""
    frames = []
    while True:
        try:
            data, more, *_ = one.recvmsg(2048, 64, socket.MSG_DONTWAIT)
        except BlockingIOError:
            return frames
        except OSError as error:
            # (the interface was down meanwhile)
            if error.errno != errno.ENETDOWN:
                raise
            continue
        times = [value for _, kind, value in more if kind == TIMESTAMPS]
        seconds, nanos = struct.unpack("qq", times[0]) if times else (0, 0)
        if data.startswith(FRONT):
            frames.append((seconds * 10**9 + nanos, data.hex()))


def messages_of(one: socket.socket) -> list[str]:
    """The messages that have come."""
    messages = []
    while True:
        try:
            messages.append(one.recv(65536, socket.MSG_DONTWAIT).hex())
        except BlockingIOError:
            return messages


class Receiver:
    """The receivers of a network, in a namespace of their own."""

    def __init__(self, name: str, links: int) -> None:
        words = [f"{k}:{2000 + k}" for k in range(1, links + 1)]
        command = ["unshare", "--net", sys.executable, "-B", os.path.abspath(__file__), f"peer{name}", *words]
        self.process = subprocess.Popen(command, stdin=subprocess.PIPE, stdout=subprocess.PIPE, text=True)
        while os.readlink(f"/proc/{self.process.pid}/ns/net") == os.readlink("/proc/self/ns/net"):
            time.sleep(0.01)
        for line in (f"link add name wire{name} type veth peer name peer{name}", f"link set peer{name} netns {self.process.pid}"):
            subprocess.run(["ip", *line.split()], check=True)
        ipv6 = f"/proc/sys/net/ipv6/conf/wire{name}/disable_ipv6"
        if os.path.exists(ipv6):
            with open(ipv6, "w", encoding="ascii") as file:
                file.write("1")
        subprocess.run(["ip", "link", "set", f"wire{name}", "up"], check=True)
        if self.process.stdout.readline() != "listening\n":
            raise RuntimeError(f"the receivers of network {name} don't listen")

    def take(self) -> dict:
        """What came since the last time."""
        self.process.stdin.write("take\n")
        self.process.stdin.flush()
        return json.loads(self.process.stdout.readline())

    def end(self) -> None:
        """Ends the receivers."""
        self.process.communicate()


def main(interface: str, *words: str) -> None:
    wait_for(interface)
    packets = packet_socket(interface)
    ports = {word: udp_socket(interface, *map(int, word.split(":"))) for word in words}
    print("listening", flush=True)
    for _ in sys.stdin:
        came = {"frames": frames_of(packets), "messages": {word: messages_of(one) for word, one in ports.items()}}
        print(json.dumps(came), flush=True)


if __name__ == "__main__":
    main(*sys.argv[1:])
