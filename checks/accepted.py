"""Rewrites what is expected of a session, for checks/run --accept, and prints what changed.

    accepted.py FILE PART OUTPUT        the part PART of a session of checks/sessions is what the file OUTPUT has
    accepted.py PAGE NUMBER OUTPUT      so is what is printed in the NUMBERth session of a page, as docs/GUIDE.md

Lines that stay keep the form that they have. The status is 1 where the prompts of a page's session are not those of its
commands, so that what was printed cannot be told apart.
"""

import difflib
import os
import re
import sys

# What printf's %b reads, as unpack of checks/run has it.
ESCAPE = re.compile(rb"\\(?:x([0-9a-fA-F]{1,2})|(0[0-7]{1,3}|[0-7]{1,3})|([abefnrtv\\])|(c))")
NAMED = {"a": 7, "b": 8, "e": 27, "f": 12, "n": 10, "r": 13, "t": 9, "v": 11, "\\": 92}


def read(line):
    """Returns the bytes of a line of a part."""
    made, at = bytearray(), 0
    while at < len(line):
        it = ESCAPE.match(line, at)
        if not it:
            made.append(line[at])
            at += 1
        elif it[4]:
            return bytes(made)
        else:
            made.append(int(it[1], 16) if it[1] else int(it[2], 8) % 256 if it[2] else NAMED[it[3].decode()])
            at = it.end()
    return bytes(made) + b"\n"


def written(line):
    """Returns a line of a part that reads as these bytes, of which the last may be an LF."""
    text = line.removesuffix(b"\n")
    names = {9: b"\\t", 13: b"\\r", 92: b"\\\\"}
    made = b"".join(names.get(it, b"%c" % it if 32 <= it < 127 else b"\\x%02x" % it) for it in text)
    if made.startswith(b"== "):
        made = b"\\x3d" + made[1:]
    if made.endswith(b" "):
        made = made[:-1] + b"\\x20"
    return made + (b"" if line.endswith(b"\n") else b"\\c")


def with_part(lines, part, output):
    """Returns the lines of a session whose part has this output. One that it had not comes behind the others."""
    head = b"== " + part.encode()
    if head not in lines:
        lines = [*lines, head]
    begin = lines.index(head) + 1
    end = next((at for at in range(begin, len(lines)) if lines[at].startswith(b"== ")), len(lines))
    old, new = lines[begin:end], re.findall(rb"[^\n]*\n|[^\n]+", output)
    made = []
    for kind, a, b, c, d in difflib.SequenceMatcher(None, [read(it) for it in old], new, False).get_opcodes():
        made += old[a:b] if kind == "equal" else [written(it) for it in new[c:d]]
    return [*lines[:begin], *made, *lines[end:]]


def with_box(lines, number, output):
    """Returns the lines of a page whose session of that number has this output, or nothing where the prompts differ."""
    begin = [at for at, it in enumerate(lines) if it.startswith(b"```nova")][number - 1] + 1
    end = lines.index(b"```", begin)
    typed = [it for it in lines[begin:end] if it.startswith(b"sim> ")]
    first, *printed = output.split(b"sim> ")
    if len(printed) == len(typed) + 1 and not printed[-1]:
        printed.pop()
    if len(printed) != len(typed):
        return None
    made = first.split(b"\n")[:-1]
    for command, text in zip(typed, printed):
        made += [command, *text.split(b"\n")[:-1]]
    return [*lines[:begin], *made, *lines[end:]]


def main():
    path, part, output = sys.argv[1:]
    with open(path, "rb") as file:
        old = file.read().split(b"\n")
    with open(output, "rb") as file:
        printed = file.read()
    ends = old[-1:] == [b""]
    lines = old[:-1] if ends else old
    new = with_box(lines, int(part), printed) if part.isdigit() else with_part(lines, part, printed)
    if new is None:
        return 1
    new += [b""]
    texts = [[it.decode(errors="backslashreplace") for it in side] for side in (old, new)]
    print(*difflib.unified_diff(*texts, path, path, lineterm="", n=1), sep="\n")
    with open(f"{path}.new", "wb") as file:
        file.write(b"\n".join(new))
    os.replace(f"{path}.new", path)
    return 0


sys.exit(main())
