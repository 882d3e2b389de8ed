#!/usr/bin/env python3
"""One end of a signalling link whose line is a TCP connection: `tcp.py listen 5000 2 1`, and elsewhere
`tcp.py connect 5000 1 2`, with a port, this end's point code and the far end's. Each line typed is a message for the far
end, and each that comes is printed. A timeslot is driven in the same way: it's read and written in place of the socket."""
import select
import socket
import subprocess
import sys
import time
from contextlib import suppress

BLOCK, SECOND = 160, 8_000  # octets; at 64 kbit/s
way, port, own, far = sys.argv[1], *map(int, sys.argv[2:5])
if way == "listen":
    line = socket.create_server(("127.0.0.1", port)).accept()[0]
else:
    line = socket.create_connection(("127.0.0.1", port))
end = subprocess.Popen(["./mtpbank", "terminal"], stdin=subprocess.PIPE, stdout=subprocess.PIPE, text=True)
heard = 0


def ask(words):
    """Asks the end, tells the events that come before its answer, and returns that."""
    global heard
    print(words, file=end.stdin, flush=True)
    for told in end.stdout:
        if not told.startswith(("link ", "message ", "level3 ")):
            return told.split()
        heard += told.startswith("message ")
        print("--", told.rstrip())
    sys.exit(end.wait())


print(f"set links=1 method=basic a={own} b={far} sio=80", file=end.stdin)
ask("activate 0")
ask(f"forget {60 * SECOND}")  # each minute what is acknowledged leaves the end's memory
line.sendall(b"\x7e" * 2 * BLOCK)  # what is under way at first: flags
begun, turns = time.monotonic(), 0
with suppress(ConnectionError):
    while octets := line.recv(BLOCK, socket.MSG_WAITALL):
        line.sendall(bytes.fromhex(ask(f"octets 0 {octets.hex()}")[2]))
        for _ in range(heard):
            print(bytes.fromhex(ask("take")[1])[5:].decode())
        heard, turns = 0, turns + len(octets)
        if select.select([sys.stdin], [], [], 0)[0] and (text := sys.stdin.readline().strip()):
            label = (far | own << 14).to_bytes(4, "little")
            print("--", *ask(f"offer 85{label.hex()}{text.encode().hex()}"))
        time.sleep(max(0.0, begun + turns / SECOND - time.monotonic()))
print("-- the line is gone")
