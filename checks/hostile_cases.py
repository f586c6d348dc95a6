"""The cases of checks/hostile: files, lines, words and callers that mean no good, by chance.

A kind is a function that is handed a source of chance and what all cases share, and gives a Case. What it makes is the
same for the same chance.
"""

import hashlib
import socket
import struct
import time

from calling import OPENING

MIB = 1 << 20
# Numbers at which a length or a place is at a limit of the program, of a format or of a type.
EDGES = [0, 1, 2, 3, 4, 255, 256, 65535, 65536, MIB - 1, MIB, MIB + 1, 4 * MIB, 16 * MIB, 64 * MIB]
LENGTHS = [0, 1, 2, 0xFFFFFE, 0xFFFFFF, 0x1000000, 0x1000001, 0x7FFFFFFF, 0x80000000, 0x80000001, 0x80FFFFFF,
           0x81000000, 0xFFFF0000, 0xFFFFFFFD, 0xFFFFFFFE, 0xFFFFFFFF]


class Sparse:
    """A file of a size that is 0 but for some pieces, each at its place."""

    def __init__(self, size, pieces):
        self.size = size
        self.pieces = pieces


class Case:
    """What a run of the program is handed, and what may come of it.

    `files` are bytes or Sparse by name, `read` the names of those that are only read. `statuses` may come. A printed
    line of up to `guest_bytes` may be one of a program of the Nova, and one that stands in `echoed` may be printed by
    ECHO; with None instead of a number no line is judged. `caller` is handed a port, what has the program go on, and
    what says whether it has ended; it says what is wrong with what it heard.
    """

    def __init__(self, lines=(), words=("-q",), files=None, read=(), statuses=(0,)):
        self.lines = [it if isinstance(it, bytes) else it.encode() for it in lines]
        self.words = list(words)
        self.files = dict(files or {})
        self.read = set(read)
        self.statuses = set(statuses)
        self.guest_bytes = 0
        self.echoed = b""
        self.caller = None

    def input(self):
        return b"".join(line + b"\n" for line in self.lines)


def some_bytes(chance, count):
    return bytes(chance.choices(chance.choice([range(256), range(256), [0, 255], range(32, 127)]), k=count))


def near(chance, numbers):
    return max(0, chance.choice(numbers) + chance.choice([-1, 0, 0, 1]))


def spoil_once(chance, data):
    """Bytes that were cut, grown, moved or changed somewhere."""
    at = chance.randint(0, len(data))
    to = min(len(data), at + chance.choice([1, 1, 2, 4, 8, 64, 512]))
    how = chance.randrange(10)
    if how == 0:
        return data[:at]
    if how == 1:
        return data + some_bytes(chance, chance.choice([1, 2, 4, 100]))
    if how == 2:
        return data[:at] + data[to:]
    if how == 3:
        return data[:at] + data[at:to] * 2 + data[to:]
    if how == 4:
        return data[:at] + some_bytes(chance, to - at) + data[to:]
    if how == 5:
        return data[:at] + some_bytes(chance, chance.choice([1, 2, 4, 30])) + data[at:]
    if how == 6:
        return data[:at] + struct.pack(chance.choice("<>") + "I", chance.choice(LENGTHS)) + data[at + 4:]
    if how == 7:
        return data[to:] + data[:at]
    if at == len(data):
        return data
    other = (data[at] + chance.choice([1, 255, 128, 1 << chance.randrange(8)])) % 256
    return data[:at] + bytes([other]) + data[at + 1:]


def spoil(chance, data):
    for _ in range(chance.choice([0, 1, 1, 1, 2, 5])):
        data = spoil_once(chance, data)
    return data


# --- files of units

def tape_item(chance):
    """A block, a mark, an end of the medium, a gap or a length alone."""
    how = chance.randrange(12)
    if how < 2:
        return bytes(4)
    if how == 2:
        return struct.pack("<I", chance.choice(LENGTHS))
    if how == 3:
        return chance.choice([b"\xff" * 4, b"\xfe\xff\xff\xff", b"\0\0\xff\xff", b"\xff\xff\xfe\xff" * 3])
    length = chance.choice([1, 2, 3, 4, 5, 80, 512, 8191, 8192, 8193])
    front = behind = length | chance.choice([0, 0, 0, 0x80000000])
    if how == 4:
        behind = chance.choice([length + 1, length - 1, length ^ 0x80000000, *LENGTHS])
    if how == 5:
        front = chance.choice([length | 0x01000000, length | 0x7F000000, *LENGTHS])
    return struct.pack("<I", front) + some_bytes(chance, length + length % 2) + struct.pack("<I", behind)


def tape_image(chance):
    if chance.randrange(8) == 0:
        # A block whose length is near its limit, with the length behind it where it should stand, or not.
        length = chance.choice([0xFFFFFE, 0xFFFFFF, 0x1000000, 70000, 4 * MIB])
        number = struct.pack("<I", length | chance.choice([0, 0x80000000]))
        size = 4 + length + length % 2 + 4
        return Sparse(size + chance.choice([0, 0, -1, 4]), {0: number, size - 4: number})
    if chance.randrange(8) == 0:
        size = near(chance, [64 * MIB, 64 * MIB, 1 << 24, 1 << 31, 1 << 32])
        return Sparse(size, {0: b"".join(tape_item(chance) for _ in range(4)), max(0, size - 8): some_bytes(chance, 8)})
    return spoil(chance, b"".join(tape_item(chance) for _ in range(chance.randint(0, 8))))


def size_of(content):
    return content.size if isinstance(content, Sparse) else len(content)


def runs_tape(chance, drive, size):
    """Lines that do a command of the tape: it and its drive stand in AC0."""
    commands = [0, 0, 0, 1, 2, 3, 3, 4, 4, 5, 6, 7]
    lines = [f"D AC0 {8 * chance.choice(commands) + chance.choice([drive, drive, drive, 7]):o}"]
    lines.append(f"D MTA WC {chance.choice([0, 1, 0o7777, 0o7776, 0o7770, 0o4000]):o}")
    lines.append(f"D MTA MA {chance.choice([0o1000, 0, 0o77777, 0o20000]):o}")
    if chance.randrange(3) == 0:
        place = min(near(chance, [0, 1, 2, 4, size, size, size // 2, 64 * MIB]), 0o400000000)
        lines.append(f"D MTA POS{drive} {place:o}")
    return lines + ["GO 40000", "E MTA STATE"]


def saves(chance, content):
    """SAVE reads files of units whole, so large ones are spared."""
    return ["SAVE s", "DETACH ALL", "RESTORE s"] if size_of(content) < MIB and chance.randrange(6) == 0 else []


def tape(chance, shared):
    image = tape_image(chance)
    drive = chance.randrange(8)
    mode = chance.choice(["-R ", "-R ", "-E ", ""])
    lines = [f"ATTACH {mode}MTA{drive} tape", f"D MTA STOP_IOE {chance.randrange(2)}", "D MTA TIME 1"]
    # No block that is read from one of the addresses comes to the program.
    lines += ["D 40000 61122", "D 40001 63622", "D 40002 777", "D 40003 63077"]
    for _ in range(chance.randint(1, 8)):
        lines += runs_tape(chance, drive, size_of(image))
    lines += saves(chance, image) + chance.choice([["DETACH ALL"], []])
    return Case(lines, ["-q", "-l", "3000"], {"tape": image}, ["tape"] if mode == "-R " else [])


def disk(chance, shared):
    sizes = [0, 1, 2, 511, 512, 513, 5120, 262144, 4 * MIB, 4 * MIB, 1 << 24, 1 << 32]
    size = near(chance, sizes)
    image = Sparse(size, {chance.randint(0, size): some_bytes(chance, chance.choice([0, 1, 600]))}) if size > 9999 \
        else some_bytes(chance, size)
    mode = chance.choice(["-R ", "-R ", "-E ", "", "-N "])
    lines = [f"ATTACH {mode}DSK pack", f"D DSK STOP_IOE {chance.randrange(2)}", "D DSK TIME 1"]
    lines += ["D 4001 63620", "D 4002 777", "D 4003 63077", f"SET CPU {chance.choice([4, 16, 32, 32])}K"]
    for _ in range(chance.randint(1, 6)):
        lines.append(f"D 4000 {chance.choice(['60120', '60320'])}")
        lines.append(f"D DSK MA {chance.choice([0o1000, 0o77400, 0o77777]):o}")
        lines.append(f"D DSK DA {min(near(chance, [0, 1, 8191, size // 512]), 8191):o}")
        lines += ["GO 4000", "E DSK STATE"]
    lines += saves(chance, image) + chance.choice([["DETACH ALL"], ["DETACH DSK"], ["EXIT"], []])
    return Case(lines, ["-q", "-l", "3000"], {"pack": image}, ["pack"] if mode == "-R " else [])


def paper(chance, shared):
    """The reader, the punch and the printer at odd places of files of odd sizes."""
    unit, code = chance.choice([("PTR", 0o12), ("PTP", 0o13), ("LPT", 0o17)])
    size = near(chance, [0, 1, 2, 4095, 4096, 4097, 1 << 24, 1 << 24, 1 << 32])
    content = Sparse(size, {max(0, size - 3): some_bytes(chance, 3)}) if size > 9999 else some_bytes(chance, size)
    mode = chance.choice(["-R ", "-E ", "", "-N "])
    lines = [f"ATTACH {mode}{unit} paper", f"D {unit} STOP_IOE {chance.randrange(2)}", f"D {unit} TIME 1"]
    # The byte's loop goes on up to the limit of a run.
    lines += [f"D 100 {0o60100 + code:o}", f"D 101 {0o63600 + code:o}", "D 102 777", "D 103 100"]
    for _ in range(chance.randint(1, 4)):
        if chance.randrange(2):
            lines.append(f"D {unit} POS {min(near(chance, [0, size, 4096, 1 << 24]), 1 << 24):o}")
        lines += ["GO 100", f"E {unit} STATE"]
    lines += saves(chance, content) + [f"SHOW {unit}", "DETACH ALL"]
    # The reader opens its file to be read and written too, and writes nothing.
    read = ["paper"] if mode == "-R " or (unit == "PTR" and mode != "-N ") else []
    return Case(lines, ["-q", "-l", str(chance.choice([50, 700, 5000]))], {"paper": content}, read)


# --- files that are read whole

def loader_block(chance):
    how = chance.randrange(8)
    origin = chance.choice([0, 0o100, 0o7776, 0o77770, 0o77777, 0o100000, chance.randrange(65536)])
    if how == 0:
        return b"\0" * chance.randint(1, 5)
    if how == 1:
        return struct.pack("<H", chance.choice([2, 3, 0x7FFF])) + some_bytes(chance, 3) + b"\xff"
    if how == 2:
        words = [1, chance.choice([0o400, 0x8000, origin])]
    elif how == 3:
        words = [65536 - chance.choice([17, 100, 32768, 32767]), origin, 7]
    else:
        count = chance.randint(1, 16)
        words = [65536 - count, origin] + [chance.randrange(65536) for _ in range(count)]
    total = -sum(words) % 65536 + chance.choice([0, 0, 0, 0, 0, 1])
    return struct.pack(f"<{len(words) + 1}H", *words[:2], total % 65536, *words[2:])


def loader(chance, shared):
    if chance.randrange(30) == 0:
        tape = Sparse(near(chance, [MIB, 1 << 24, 1 << 32]), {0: loader_block(chance)})
    else:
        tape = spoil(chance, b"".join(loader_block(chance) for _ in range(chance.randint(0, 9))))
    lines = [f"SET CPU {chance.choice([4, 8, 28, 32])}K", "D 0-17 7", "LOAD prog", "E 0-17", "E PC,100,7777"]
    lines += [f"DUMP 0-{chance.choice(['17', '777', '7777', '77777'])} dump", "D ALL 0", "LOAD dump", "E 0-17"]
    return Case(lines, ["-q"], {"prog": tape}, ["prog"])


def quoted(chance, count):
    parts = ["a", "b", "\\n", "\\r", "\\t", "\\\\", '\\"', "\\005", "\\377", "\\000", " "]
    return '"' + "".join(chance.choice(parts) for _ in range(count)) + '"'


def keys(chance, shared):
    how = chance.randrange(40)
    if how == 0:
        content = b'0 "a"\n' * near(chance, [65536])
    elif how == 1:
        content = Sparse(near(chance, [MIB, 1 << 24, 1 << 32]), {0: b'0 "a"\n'})
    elif how == 2:
        content = b'0 "' + b"a" * near(chance, [65536, 65536, 1000000]) + b'"'
    else:
        at, lines = 0, []
        steps = chance.choice([[0, 1, 100, 1000], [0, 100, 1 << 32], [0, (1 << 60) - 1]])
        for _ in range(chance.randint(0, 30)):
            at += chance.choice(steps)
            lines.append(f"{at} {quoted(chance, chance.choice([0, 1, 2, 40]))}\n")
        content = "".join(lines).encode()
        content = spoil(chance, content) if chance.randrange(2) else content
    lines = ["D 100 60110", "D 101 63610", "D 102 777", "D 103 62410", "D 104 100", "GO 100", "SHOW TIME", "SAVE s",
             "RESTORE s", "C", "E TTI STATE"]
    return Case(lines, ["-q", "-l", "5000", "-k", "keys"], {"keys": content}, ["keys"], [0, 101, 105])


# --- state files

class Fields:
    """The fields of a state file of either version from the left: the place, the width and the name of each."""

    def __init__(self, state):
        self.state = state
        self.at = 10
        self.all = [(0, 8, "head"), (8, 2, "version")]
        self.is_first = state[8:10] == b"\0\1"
        self.read_all()

    def number(self, name, width):
        self.all.append((self.at, width, name))
        self.at += width
        return int.from_bytes(self.state[self.at - width:self.at], "big")

    def numbers(self, *fields):
        for name, width in fields:
            number = self.number(name, width)
        return number

    def text(self, name, width):
        """A text behind its length."""
        length = self.number(f"length of {name}", width)
        self.all.append((self.at, length, name))
        self.at += length

    def read_all(self):
        size = self.number("size", 1)
        for _ in range(4):
            self.number("accumulator", 2)
        self.numbers(("carry", 1), ("PC", 2), ("on", 1), ("hold", 1), ("mask", 2), ("switches", 2), ("STOP_DEV", 1),
                     *([] if self.is_first else [("rule of auto-index words", 1)]), ("time", 8), ("keys taken", 8))
        self.all.append((self.at, 2048 * size, "words"))
        self.at += 2048 * size
        for _ in range(self.number("number of units", 1)):
            for _ in range(self.numbers(("unit", 1), ("number of registers", 1))):
                self.number("register", 4)
        for _ in range(self.number("number of events", 2)):
            self.numbers(("unit of an event", 1), ("drive of an event", 1), ("time of an event", 4))
        for _ in range(self.number("number of files", 1)):
            self.numbers(("unit of a file", 1), ("drive of a file", 1), ("read only", 1))
            self.text("name", 2)
            self.numbers(("length of a file", 8), ("digest of a file", 32))
        self.numbers(*(("port", 2) for _ in range(1 if self.is_first else 3)))
        for _ in range(self.number("number of breaks", 2)):
            self.numbers(("address of a break", 2), ("count of a break", 4))
            self.text("actions of a break", 2)
        for _ in range(self.number("number of texts", 1)):
            self.number("count of a text", 4)
            self.text("text", 1)
            self.text("actions of a text", 2)
        self.text("tail", 1)
        for _ in range(self.number("number of sends", 2)):
            self.numbers(("time of a send", 8), ("byte of a send", 1))


def field_value(chance, width, old):
    """Bytes for a field: a number at a limit, one beside the old one, or any."""
    if width > 8:
        return spoil(chance, old)
    most = (1 << 8 * width) - 1
    number = int.from_bytes(old, "big")
    edges = [0, 1, 2, 32, 33, 64, 65, 81, 82, 255, 256, 257, 512, 513, 4096, 4097, 32767, 32768, 65536,
             1 << 31, 1 << 60, (1 << 60) + 1, 1 << 62, (1 << 62) + 1, most, most - 1]
    new = chance.choice([number + 1, number - 1, chance.choice(edges), chance.choice(edges), chance.randint(0, most)])
    return (new % (most + 1)).to_bytes(width, "big")


def spoiled_state(chance, state):
    """A state file with fields that have other values, and bytes cut, grown or changed; the digest at its end is
    mostly that of the bytes before it, so that it is read to its end."""
    body = state[:-32]
    for _ in range(chance.choice([0, 1, 1, 1, 2, 4])):
        fields = [it for it in Fields(state).all if it[2] != "words" and it[1]] if body == state[:-32] else None
        if fields and chance.randrange(4):
            at, width, _ = chance.choice(fields)
            body = body[:at] + field_value(chance, width, body[at:at + width]) + body[at + width:]
        else:
            body = spoil(chance, body)
    how = chance.randrange(8)
    if how == 0:
        return spoil(chance, body + state[-32:])
    if how == 1:
        return body + hashlib.sha256(body).digest() + some_bytes(chance, 1)
    return body + hashlib.sha256(body).digest()


def state(chance, shared):
    saved, files = chance.choice(shared.states)
    if chance.randrange(60) == 0:
        content = Sparse(near(chance, [MIB, 1 << 24, 1 << 32]), {0: saved})
    else:
        content = spoiled_state(chance, saved)
    files = {name: content if chance.randrange(8) else spoil(chance, content) for name, content in files.items()}
    form = chance.choice(["", "-F "])
    lines = ["D 100 7", f"RESTORE {form}s", "E PC,100", "SHOW DSK", "SHOW BREAK", "SHOW EXPECT", "SHOW SEND",
             "SHOW QUEUE", "SHOW TTI1", "SHOW CPU", "SHOW TIME", "E STATE", "E MTA STATE", "STEP 200", "SAVE again",
             "DETACH ALL",
             "RESTORE again", "DETACH ALL", f"RESTORE {form}s"]
    case = Case(lines, ["-q", "-l", "2000", "-m", "500"], {**files, "s": content}, ["s"], [0, 104])
    # Two hundred instructions print no more bytes.
    case.guest_bytes = 200
    return case


# --- lines and scripts

# A spoiled line gets no path, no argument and no end.
PLAIN = bytes.maketrans(b"/%\n", b"___")


class Lines:
    """Lines by chance, of every command, with operands that it takes, that are out of range or that are none."""

    def __init__(self, chance):
        self.chance = chance

    def pick(self, *choices):
        return self.chance.choice(choices)

    def number(self):
        return self.pick("0", "1", "7", "8", "100", "77777", "100000", "177777", "200000", "65536", "4294967295",
                         "4294967296", "281474976710657", "9" * 30, "-1", "", "0007", "1x")

    def name(self):
        return self.pick("tape", "pack", "none", "s", "job", "inner", "n" * 255, "n" * 256, "missing/file", "a b",
                         ".", "%1", "\u00e9", "/dev/full", "/dev/null")

    def register(self):
        return self.pick("AC0", "C", "PC", "ION", "SIZE", "STATE", "STOP_DEV", "BUSY", "POS", "POS7", "TIME",
                         "XYZ", "_")

    def item(self):
        return self.pick(self.number(), f"{self.number()}-{self.number()}", f"100/{self.pick(0, 1, 9, 40000)}",
                         self.register(), self.register())

    def list(self):
        return ",".join(self.item() for _ in range(self.pick(1, 1, 2, 3, 16, 17)))

    def device(self):
        return self.pick("", "", "TTI ", "MTA ", "DSK ", "CPU ", "TTO1 ", "QTY ")

    def unit(self):
        return self.pick("PTR", "PTP", "LPT", "DSK", "MTA", "MTA7", "MTA8", "TTI1", "ALL", "CLK", "")

    def actions(self):
        return "; ".join(self.line() for _ in range(self.pick(0, 1, 2, 5)))[:self.pick(40, 400)]

    def text(self):
        return quoted(self.chance, self.pick(0, 1, 2, 64, 65)) + self.pick("", "", "x", '"')

    def symbolic(self):
        return self.pick("LDA 0,40", "JMP .-1", "ADDZL# 1,2,SNC", "NIOS QTY", "JMP .-201", "HALT 1", "LDA 4,0",
                         "FOO", "")

    def line(self):
        pick, number, name = self.pick, self.number, self.name
        makers = [
            lambda: f"{pick('E', 'EX')} {pick('', '-M ', '>7 ', '&7!=0 ', '=')}{self.device()}{self.list()}",
            lambda: f"D {self.device()}{self.list()} {number()}",
            lambda: f"D -M {number()} {self.symbolic()}",
            lambda: f"{pick('GO', 'RUN', 'STEP', 'C', 'RESET', 'S')} {pick('', number())}",
            lambda: f"BREAK {number()}{pick('', '[', '[2]', '[4294967296]')}{pick('', '; ')}{self.actions()}",
            lambda: f"NOBREAK {pick(number(), 'ALL')}",
            lambda: f"EXPECT {pick('', '[0] ', '[3] ')}{self.text()} {self.actions()}",
            lambda: f"SEND {pick('', 'AFTER=')}{number()} {self.text()}",
            lambda: pick("NOEXPECT", "NOSEND"),
            lambda: f"ATTACH {pick('', '-E ', '-N ', '-R ', '-X ')}{self.unit()} {name()}",
            lambda: f"ATTACH TTI1 {pick('0', '65536', 'x')}",
            lambda: f"DETACH {self.unit()}",
            lambda: f"SET {pick('CPU 4K', 'CPU 5K', 'CPU', 'TTI1 DISCONNECT', 'X')}",
            lambda: f"SET CPU AUTOBIT={pick('BEFORE', 'after', 'X', '')}",
            lambda: f"SHOW {pick('TIME', 'QUEUE', 'BREAK', 'EXPECT', 'SEND', 'CPU', 'VERSION', self.unit())}",
            lambda: f"DO {pick('', '-V ', '-E ', '-V -E ')}{pick('job', 'inner', 'inner a b', name())}",
            lambda: f"GOTO {pick('a', 'b', 'none', '')}",
            lambda: pick(":a", ":b", ";", "#", "", " ", "\t;"),
            lambda: f"{pick('LOAD', 'SAVE', 'RESTORE', 'RESTORE -F')} {name()}",
            lambda: f"DUMP {number()}-{number()} {name()}",
            lambda: f"ASSERT {self.device()}{self.item()}{pick('=', '<', '>=', '!=', '==')}{number()}",
            lambda: f"ECHO {pick('', 'a text', 'echo %1 %9 %0 %% %a %')}",
            lambda: pick(f"EXIT {number()}", "FOO", "FOO", "FOO", "FOO", "FOO"),
        ]
        return pick(*makers)()

    def spoiled(self):
        line = self.line()
        how = self.chance.randrange(12)
        if how == 0:
            return line.ljust(self.pick(511, 512, 513, 1024, 5000)).encode() + self.pick(b"", b"x")
        # A path stays as it is, so that nothing is written outside the folder of the case, and so do arguments.
        if how < 3 and "/" not in line and "%" not in line:
            return spoil(self.chance, line.encode()).translate(PLAIN)
        return line.encode()


def joined(chance, lines):
    return chance.choice([b"\n", b"\n", b"\n", b"\r\n"]).join(lines) + chance.choice([b"\n", b""])


def scripts(chance, shared):
    makes = Lines(chance)
    files = {}
    for name in ("job", "inner"):
        files[name] = joined(chance, [makes.spoiled() for _ in range(chance.choice([0, 3, 30]))])
    if chance.randrange(40) == 0:
        files["job"] = Sparse(near(chance, [MIB, 1 << 32]), {0: files["job"]})
    files["tape"] = tape_item(chance)
    files["pack"] = some_bytes(chance, 700)
    words = ["-q", "-l", "500", "-m", str(chance.choice([1, 5, 60, 200]))]
    words += chance.choice([[], ["job"], ["job", "a", "-q b"]])
    case = Case([makes.spoiled() for _ in range(chance.randint(0, 25))], words, files, (), [*range(100), 101, 104, 107])
    # The scripts are only read, but where a line names one as the file of a unit or of a SAVE or DUMP.
    text = b"\n".join([*case.lines, *(it for it in files.values() if isinstance(it, bytes))]).upper()
    if not any(it in text for it in [b"AT", b"SA", b"DU"]):
        case.read = {"job", "inner"}
    held = [piece for it in files.values() for piece in (it.pieces.values() if isinstance(it, Sparse) else [it])]
    case.echoed = b"\n".join([*case.lines, *held])
    case.guest_bytes = 4
    return case


def lines(chance, shared):
    """Bytes on the standard input that are lines or none."""
    how = chance.randrange(10)
    makes = Lines(chance)
    if how == 0:
        content = some_bytes(chance, chance.choice([1, 100, 5000]))
    elif how == 1:
        content = b"A" * near(chance, [511, 512, 513, 65536, MIB]) + chance.choice([b"", b"\n", b"\r\n"])
    else:
        content = joined(chance, [makes.spoiled() for _ in range(chance.randint(1, 40))])
    words = ["-q", "-l", "500", "-m", str(chance.choice([40, 3000]))]
    case = Case([], words, {"job": b"ECHO a\nDO job\n"}, (), [*range(100), 104, 107])
    case.input = lambda: content
    case.echoed = content
    case.guest_bytes = 4
    return case


def words(chance, shared):
    """Words of the command line."""
    pieces = [["-q"], ["-l", "1"], ["-l", "281474976710656"], ["-l", "281474976710657"], ["-l", "0"], ["-l", "01"],
              ["-l"], ["-m", "1"], ["-m", "4294967296"], ["-m", "4294967297"], ["-m", "-1"], ["-k", "keys"],
              ["-k", "none"], ["-k", "-x"], ["-k", ""], ["-g", "0"], ["-g", "65536"], ["-g", "x"],
              ["-l", "100", "-g", "7"], ["-x"], ["--"], ["-"], ["--help"], [""], ["job"], ["job", *"123456789"],
              ["job", *"1234567890"], ["job", ""], ["n" * 255], ["n" * 256], ["n" * 100000], [b"\xff\xfe"],
              ["\u00e9"], ["."], ["job", b"\xff"], ["job", "%1" * 300]]
    chosen = [word for piece in chance.choices(pieces, k=chance.randint(0, 4)) for word in piece]
    files = {"job": b"ECHO %1 %2 %9\n", "keys": chance.choice([b"", b'0 "a"\n', b"x"])}
    case = Case(["SHOW TIME"], chosen, files, ["job", "keys"], [0, 100, 101, 104, 105])
    case.guest_bytes = None
    return case


# --- programs of random words

def guest_word(chance):
    """A word of input or output, of arithmetic, a reference to near memory, or any."""
    how = chance.randrange(16)
    code = chance.choice([0o10, 0o11, 0o12, 0o13, 0o14, 0o17, 0o20, 0o22, 0o50, 0o51, 0o77, 1, 0o30])
    if how < 8:
        return 0o60000 + chance.randrange(32) * 256 + chance.randrange(4) * 64 + code
    if how < 11:
        return 0o100000 + chance.randrange(0o100000)
    if how < 15:
        return chance.randrange(1, 12) * 0o4000 + chance.randrange(0o4000)
    return chance.randrange(65536)


def guest(chance, shared):
    lines = [f"SET CPU {chance.choice([4, 32, 32])}K", f"SET CPU AUTOBIT={chance.choice(['BEFORE', 'AFTER'])}"]
    lines += [f"ATTACH {unit} {unit}" for unit in ["DSK", "MTA0", "MTA3", "PTR", "PTP", "LPT"] if chance.randrange(2)]
    # The program goes round; an interrupt goes to its middle.
    lines += ["D 1 140"] + [f"D {at:o} {guest_word(chance):o}" for at in range(0o100, 0o177)] + ["D 177,200,201 100"]
    for device in ["TTI", "TTO", "TTO1", "PTR", "PTP", "LPT", "DSK", "MTA"]:
        lines.append(f"D {device} TIME {chance.choice([1, 7, 100]):o}")
    lines += [f"D AC{it} {chance.randrange(65536):o}" for it in range(4)]
    flags = ["C", "ION", "HOLD", "MTA STOP_IOE", "PTR STOP_IOE", "DSK STOP_IOE"]
    lines += [f"D {name} {chance.randrange(2)}" for name in flags]
    lines += [f"BREAK {chance.randrange(0o100, 0o200):o}[9]; E AC0", 'EXPECT "a" ECHO x', 'SEND DELAY=30 "abcabc"']
    lines += ["GO 100"] + ["C", "D PC 100", "C"] * 4 + ["ECHO", "SHOW QUEUE", "E STATE", "E MTA STATE"]
    lines += ["SAVE s", "DETACH ALL", "RESTORE s", "C", "ECHO", "ECHO the end"]
    files = {"MTA0": tape_item(chance) * 3, "PTR": some_bytes(chance, 99)}
    case = Case(lines, ["-q", "-l", "1000", "-m", "1000"], files)
    case.guest_bytes = None
    return case


# --- callers

# A program that prints each key which comes to the second teletype, and one that prints there for ever.
ECHOES = ["D 100 63650", "D 101 777", "D 102 60650", "D 103 61151", "D 104 63651", "D 105 777", "D 106 100"]
PRINTS = ["D 100 61151", "D 101 63651", "D 102 777", "D 103 101400", "D 104 100"]


def telnet_bytes(chance, count):
    pieces = [b"\xff", b"\xff\xff", b"\xff\xfa", b"\xff\xf0", b"\xff\xfd\x01", b"\xff\xfe", b"\xff\xf4",
              b"\r\n", b"\r\0", b"\r", b"\0", b"a", b"b", b"\xff\xfa\x1f\0\x50\0\x18\xff\xf0",
              b"\xff\xfa" + b"\0" * 300, b"\xf0"]
    return b"".join(chance.choice(pieces) for _ in range(count))


def plan(chance):
    """What callers do, one behind the other: what each sends, in which pieces, whether it reads, and how it ends."""
    if chance.randrange(6) == 0:
        return [([b"x"] if chance.randrange(2) else [], False, chance.choice(["close", "reset"])) for _ in range(20)]
    calls = []
    for _ in range(chance.randint(1, 3)):
        data = telnet_bytes(chance, chance.choice([0, 5, 60, 3000]))
        if chance.randrange(8) == 0:
            data *= 1 + 200000 // (len(data) + 1)
        size = chance.choice([1, 3, 64, 5000]) if len(data) < 1000 else 5000
        pieces = [data[at:at + size] for at in range(0, len(data), size)]
        calls.append((pieces, chance.randrange(3) > 0, chance.choice(["close", "close", "reset", "half", "stays"])))
    return calls


def connected(port):
    """A connection to the port, or none where it is not listened on."""
    try:
        line = socket.create_connection(("127.0.0.1", port), timeout=2)
    except OSError:
        return None
    line.settimeout(0.02)
    return line


def one_call(line, pieces, reads, end):
    """Sends these pieces, as far as they are taken, and gives what was heard."""
    heard = b""
    try:
        for piece in pieces:
            line.send(piece)
        if end == "half":
            line.shutdown(socket.SHUT_WR)
        for _ in range(3 if reads else 0):
            heard += line.recv(4096)
    except OSError:
        pass
    if end == "reset":
        line.setsockopt(socket.SOL_SOCKET, socket.SO_LINGER, struct.pack("ii", 1, 0))
    if end != "stays":
        line.close()
    return heard


def caller_of(chance):
    calls = plan(chance)

    def call(port, go_on, is_over):
        """Calls the port, and has the program go on once the first caller is there. Says what is wrong with what
        callers heard, or nothing."""
        lines = []
        for number, (pieces, reads, end) in enumerate(calls):
            if (line := connected(port)) is not None:
                lines.append(line)
            if number == 0:
                go_on()
            if line is None or is_over():
                break
            heard = one_call(line, pieces, reads, end)
            if not OPENING.startswith(heard[:12]):
                return f"a caller heard {heard[:40]!r} first"
        while not is_over():
            time.sleep(0.005)
        for line in lines:
            line.close()
        return "" if lines else "its port was not listened on"

    return call


def telnet(chance, shared):
    program = chance.choice([ECHOES, ECHOES, PRINTS])
    # Each look of TTI1 is calls to the system.
    looks = chance.choice([1, 7, 100])
    limit = looks * chance.choice([2000, 20000])
    lines = program + [f"D TTI1 TIME {looks:o}", f"D TTO1 TIME {chance.choice([1, 20]):o}"]
    lines += ["ATTACH TTI1 PORT", "ECHO ready", "GO 100", "SHOW TIME"]
    lines += [*chance.choice([[], ["SET TTI1 DISCONNECT"]]), "GO 100", "E TTI1 BUSY"]
    lines += chance.choice([["DETACH TTI1"], ["EXIT"], []])
    case = Case(lines, ["-q", "-l", str(limit)])
    case.caller = caller_of(chance)
    return case


KINDS = {"tape": tape, "disk": disk, "paper": paper, "loader": loader, "keys": keys, "state": state, "scripts": scripts,
         "lines": lines, "words": words, "guest": guest, "telnet": telnet}
