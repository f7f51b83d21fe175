#!/usr/bin/env python3
"""UDP sockets of one network, which must get each message of the example, whole and in its order.

    receive.py NETWORK INTERFACE FOLDER LINK:PORT:MESSAGES:BYTES..

It joins the multicast group of each virtual link on the interface, makes the file NETWORK in the folder when it
listens, and prints how many messages each port received, once all are received or one second after the file `sent`
exists. The exit status is 0 if each port received exactly its messages.
"""
import os
import select
import socket
import sys
import time

WAIT = 60


def opened(interface, link, port):
    """A socket for what a virtual link carries to a UDP port."""
    group = socket.inet_aton(f"224.224.{link >> 8}.{link & 255}")
    one = socket.socket(socket.AF_INET, socket.SOCK_DGRAM)
    one.setsockopt(socket.SOL_SOCKET, socket.SO_RCVBUF, 1 << 22)
    one.setsockopt(socket.SOL_SOCKET, socket.SO_BINDTODEVICE, interface.encode())
    one.bind((socket.inet_ntoa(group), port))
    member = group + bytes(4) + socket.if_nametoindex(interface).to_bytes(4, sys.byteorder)
    one.setsockopt(socket.IPPROTO_IP, socket.IP_ADD_MEMBERSHIP, member)
    one.setblocking(False)
    return one


class Port:
    """A port that receives messages, and how many it has received."""

    def __init__(self, interface, word):
        link, self.port, self.messages, self.bytes = map(int, word.split(":"))
        self.socket, self.came, self.fault = opened(interface, link, self.port), 0, None

    def take(self):
        """Receives what has arrived. Each message must be the next one of the sender."""
        while True:
            try:
                message = self.socket.recv(65536)
            except BlockingIOError:
                return
            if message != bytes((self.came + 1 + i) % 256 for i in range(self.bytes)):
                self.fault = self.fault or f"message {self.came} is another, of {len(message)} bytes"
            self.came += 1

    def is_well(self):
        return self.fault is None and self.came == self.messages


def main(network, interface, folder, *words):
    ports = [Port(interface, word) for word in words]
    open(os.path.join(folder, network), "w").close()
    begun, sent = time.monotonic(), None
    while time.monotonic() - begun < WAIT:
        ready, _, _ = select.select([port.socket for port in ports], [], [], 0.1)
        for port in ports:
            if port.socket in ready:
                port.take()
        if sent is None and os.path.exists(os.path.join(folder, "sent")):
            sent = time.monotonic()
        # (one second more, in which no message may arrive that wasn't sent)
        if sent is not None and time.monotonic() - sent > 1:
            break
    for port in ports:
        told = f"network {network}, UDP port {port.port}: {port.came} of {port.messages} messages of {port.bytes} bytes"
        print(told if port.fault is None else f"{told}; {port.fault}", flush=True)
    return 0 if all(port.is_well() for port in ports) else 1


if __name__ == "__main__":
    sys.exit(main(*sys.argv[1:]))
