"""The program that echoes on all lines of QTY, in a run of its own: parts of checks/terminals and bench/terminals."""

import os
import random
import socket
import subprocess
import sys

import state_files
from calling import OPENING

TOP = os.path.dirname(os.path.dirname(os.path.realpath(__file__)))
PROGRAM = os.path.realpath(os.path.join(TOP, os.environ.get("NOVA", "nova")))
GUEST = os.path.join(TOP, "examples", "terminals_echoed", "input")
LINES = 64
# A run has so many instructions at most.
LIMIT = 100_000_000_000
# The key that ends the program.
END = 4


def guest():
    """The program of the example: its lines up to the first one about ports."""
    with open(GUEST, encoding="utf-8") as file:
        for line in file:
            if line.startswith("SHOW QTY"):
                return
            yield line.rstrip("\n")


def find_ports():
    """The first of so many ports, one behind another, that were free a moment ago."""
    while True:
        first = random.SystemRandom().randint(20000, 31000)
        sockets = []
        try:
            for port in range(first, first + LINES):
                it = socket.socket()
                sockets.append(it)
                it.bind(("127.0.0.1", port))
            return first
        except OSError:
            pass
        finally:
            for it in sockets:
                it.close()


def typed(keys):
    """Keys as a client sends them: a CR has a NUL behind it, and FF is doubled."""
    return keys.replace(b"\xff", b"\xff\xff").replace(b"\r", b"\r\0")


def shown(keys):
    """Keys as they come back."""
    return keys.replace(b"\xff", b"\xff\xff")


class Nova:
    """The program, with the guest of the example in it and its lines at some ports."""

    def __init__(self, folder, is_restored=False, program=PROGRAM):
        self.first = find_ports()
        lines = [*guest()]
        if is_restored:
            state = state_files.State(4, has_multiplexer=True)
            state.qty = self.first
            state.units["QTY"]["TIME"] = 1000
            with open(os.path.join(folder, "ports"), "wb") as file:
                file.write(state.bytes())
            lines = ["RESTORE ports", *(it for it in lines if not it.startswith("D QTY "))]
        else:
            lines += [f"ATTACH QTY {self.first}"]
        self.process = subprocess.Popen([os.path.realpath(program), "-q", "-l", str(LIMIT)], cwd=folder, stdin=subprocess.PIPE,
                                        stdout=subprocess.PIPE, stderr=subprocess.STDOUT)
        self.say(*lines, "ECHO ready")
        line = self.process.stdout.readline()
        if line != b"ready\n":
            sys.exit(f"the program printed {line!r}")
        self.say("GO 100")

    def say(self, *lines):
        self.process.stdin.write("".join(line + "\n" for line in lines).encode())
        self.process.stdin.flush()

    def ends(self):
        """Has a client on the last line end the run, and gives what is wrong with the rest of what is printed."""
        with socket.create_connection(("127.0.0.1", self.first + LINES - 1), 20) as line:
            line.sendall(bytes([END]))
            self.say("SHOW TIME")
            self.process.stdin.close()
            try:
                text = self.process.stdout.read()
                status = self.process.wait(60)
            except subprocess.TimeoutExpired:
                self.process.kill()
                return "the program did not end"
        halt, _, rest = text.partition(b"\nTime: ")
        if halt != b"\nHALT instruction, PC: 00120 (000400)" or status != 0 or not rest.strip().isdigit():
            return f"the program printed {text[:200]!r}, status {status}"
        self.time = int(rest)
        return ""
