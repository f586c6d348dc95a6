"""Callers of terminal lines over plain sockets: parts of the callers in examples/ and of checks/run."""

import socket
import sys
import time

# What a line sends to who connects.
OPENING = bytes.fromhex("FFFB01 FFFB03 FFFB00 FFFD00")
LONGEST_WAIT = 20


def call(port):
    """Connects, as soon as the port is listened on."""
    until = time.monotonic() + LONGEST_WAIT
    while True:
        try:
            return socket.create_connection(("127.0.0.1", port), LONGEST_WAIT)
        except ConnectionRefusedError:
            if time.monotonic() > until:
                raise
            time.sleep(0.01)


def hear(line, wanted):
    """Hears just these bytes."""
    heard = b""
    while len(heard) < len(wanted):
        piece = line.recv(len(wanted) - len(heard))
        if not piece:
            break
        heard += piece
    if heard != wanted:
        sys.exit(f"heard {heard!r} and not {wanted!r}")


def hear_nothing(line):
    """Nothing comes for a while, and the connection stands."""
    line.settimeout(0.3)
    try:
        sys.exit(f"heard {line.recv(64)!r} and not nothing")
    except TimeoutError:
        line.settimeout(LONGEST_WAIT)


def hear_the_end(line):
    """The other side hangs up, and nothing comes before that."""
    try:
        piece = line.recv(64)
    except ConnectionResetError:
        piece = b""
    if piece:
        sys.exit(f"heard {piece!r} and not the end")
