"""Sends one byte through port 10 of a plan, and prints its frame for each network.

    python3 main.py CONFIG
"""
import sys

from afdx import EndSystem

if len(sys.argv) != 2:
    sys.exit("usage: python3 main.py CONFIG")
with open(sys.argv[1], encoding="utf-8") as file:
    text = file.read()
with EndSystem(text) as it, it.port(10) as port:
    port.send(b"\x01")
    for network, frame in it.poll(0):
        print("AB"[network], 0, frame.hex())
