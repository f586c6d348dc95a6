"""64 callers of the multiplexer of this session, over plain sockets. They type at once while the program of the Nova runs,
and each hears what it has typed. Says nothing where all came as it should.

    python3 caller.py PORT
"""

import contextlib
import os
import sys

sys.dont_write_bytecode = True
sys.path.append(os.path.join(os.path.dirname(os.path.realpath(__file__)), "..", "..", "checks"))
from calling import OPENING, call, hear, hear_nothing, hear_the_end  # noqa: E402

LINES = 64


def main():
    first = int(sys.argv[1])
    with contextlib.ExitStack() as stack:
        lines = [stack.enter_context(call(first + number)) for number in range(LINES)]
        for line in lines:
            hear(line, OPENING)
        for text in ("Hello from terminal {}.", "Terminal {} types a line.\r\0"):
            typed = [text.format(number).encode() for number in range(LINES)]
            for line, keys in zip(lines, typed):
                line.sendall(keys)
            for line, keys in zip(lines, typed):
                hear(line, keys.replace(b"\r\0", b"\r"))
        # All but three leave, and the others go on.
        for line in lines[3:]:
            line.close()
        for line in lines[:3]:
            line.sendall(b"still here")
            hear(line, b"still here")
            hear_nothing(line)
        lines[1].sendall(b"\x04")
        hear(lines[1], b"\x04")
        for line in lines[:3]:
            hear_the_end(line)


main()
