"""Callers of the second teletype of this session, over plain sockets. They type while the program of the Nova runs, and
hear what it prints. Says nothing where all came as it should.

    python3 caller.py PORT
"""

import os
import sys

sys.dont_write_bytecode = True
sys.path.append(os.path.join(os.path.dirname(os.path.realpath(__file__)), "..", "..", "checks"))
from calling import OPENING, call, hear, hear_nothing, hear_the_end  # noqa: E402


def main():
    port = int(sys.argv[1])
    with call(port) as first:
        hear(first, OPENING)
        hear_nothing(first)
        for key in b"Hello, Nova.":
            first.sendall(bytes([key]))
            hear(first, bytes([key]))
        # What a Telnet client answers is no key. Enter is one, with or without what follows it, and so is a doubled FF.
        first.sendall(bytes.fromhex("FFFD01 FFFD03 FFFB1F FFFA1F00500018FFF0"))
        first.sendall(b"a\r\0b\r\nc\rd\xff\xffe")
        hear(first, b"a\rb\rc\rd\xff\xffe")
        # The second caller waits for the first to leave; what it types meanwhile is printed then.
        second = call(port)
        second.sendall(b"again")
        hear_nothing(second)
    with second:
        hear(second, OPENING + b"again")
        second.sendall(b"\x04")
        hear(second, b"\x04")
        hear_the_end(second)


main()
