"""The two programs that checks/agree, loader and tape and bench/speed run: ours, and
the `dgnova` of SIMH (Debian package `simh`, version 3.8-1)."""

import glob
import os
import shutil
import subprocess
import sys
import tempfile

ROOT = os.path.dirname(os.path.dirname(os.path.abspath(__file__)))
# What ./nova keeps, under the sum of its sources; there is one at the most.
NOVA = next(iter(glob.glob(os.path.join(ROOT, "out", "nova-*"))), os.path.join(ROOT, "out", "nova"))
ANY_NUMBER = 1 << 48  # the largest count of instructions that -l takes

# A plain Nova: no stack and no byte instructions, multiply and divide present,
# 15-bit addresses. `SET CPU NOVA` would not do: SIMH takes it for NOVA3.
DGNOVA_SET = ["SET CPU NONE", "SET CPU MDV", "SET CPU 32K"]


def add_arguments(parser):
    parser.add_argument("nova", nargs="?", default=NOVA, help="our program (default: %(default)s)")
    parser.add_argument("--dgnova", default="dgnova", help="SIMH's program (default: %(default)s)")


def must_exist(arguments, alone=False):
    """Ends the script where our program, or dgnova beside which it runs, is missing."""
    wanted = {arguments.nova: "make it with ./nova"}
    if not alone:
        wanted[arguments.dgnova] = "apt-get install simh"
    for program, hint in wanted.items():
        if shutil.which(program) is None:
            sys.exit(f"{program}: not found ({hint})")


def run_nova(program, lines, seconds=600, under=()):
    """What our program prints for these command lines, given on standard input. It runs under
    the command of these words, if there are any."""
    text = "\n".join(lines + ["EXIT", ""])
    done = subprocess.run([*under, program, "-q", "-l", str(ANY_NUMBER)], input=text,
                          capture_output=True, text=True, timeout=seconds)
    if done.returncode != 0:
        sys.exit(f"{program} ended with status {done.returncode}: {done.stdout[-300:]}{done.stderr[-300:]}")
    return done.stdout


def run_dgnova(program, lines, seconds=600):
    """What dgnova prints for these command lines, given in a script file: its
    teletype polls standard input while the machine runs, and would take
    commands away that stand there."""
    with tempfile.NamedTemporaryFile("w", suffix=".sim") as script:
        script.write("\n".join(DGNOVA_SET + lines + ["EXIT", ""]))
        script.flush()
        done = subprocess.run([program, script.name], stdin=subprocess.DEVNULL,
                              capture_output=True, text=True, timeout=seconds)
    return done.stdout
