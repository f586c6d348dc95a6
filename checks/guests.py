"""Short guest programs that checks/agree runs in both programs.

Each begins at 100 and ends with HALT. Its instructions are symbolic text, which
both programs read, and its data words are numbers. `registers` are deposited
first, by our names. `not_compared` is what depends on when an event comes, by
its name or its address.
"""

from dataclasses import dataclass, field


@dataclass
class Guest:
    name: str
    words: dict  # address: what stands from there on, symbolic text or numbers
    prints: str  # what it prints
    registers: dict = field(default_factory=dict)
    not_compared: tuple = ()

    def lines(self):
        """The commands that put it into a machine."""
        lines = [f"DEPOSIT {name} {value:o}" for name, value in self.registers.items()]
        for first, block in self.words.items():
            for address, word in enumerate(block, first):
                text = f"-M {address:o} {word}" if isinstance(word, str) else f"{address:o} {word:o}"
                lines.append(f"DEPOSIT {text}")
        return lines


# Prints the character in AC0. AC3 has the address to return to.
PRINT = {0o200: ["DOAS 0,TTO", "SKPDN TTO", "JMP .-1", "JMP 0,3"]}

# Prints AC1 as six octal digits, and halts. 42 is the digit 0, 43 a count.
OCTAL = {0o42: [0o60, 5],
         0o220: ["MOVZL 1,1", "SUBCL 0,0", "LDA 2,42", "ADD 2,0", "JSR 200",
                 "SUB 0,0", "MOVZL 1,1", "MOVL 0,0", "MOVZL 1,1", "MOVL 0,0", "MOVZL 1,1", "MOVL 0,0",
                 "LDA 2,42", "ADD 2,0", "JSR 200", "DSZ 43", "JMP 225", "HALT"],
         **PRINT}

# Prints AC1 in decimal, and a blank. The digits stand up to 337, and 50 holds
# the address to return to.
DECIMAL = {0o42: [0o60],
           0o51: [0o340, 10, 0o337, ord(" ")],
           0o220: ["STA 3,50", "LDA 0,51", "STA 0,30", "LDA 2,52",
                   "SUB 0,0", "DIV", "LDA 3,42", "ADD 3,0", "STA 0,@30", "MOV 1,1,SZR", "JMP 224",
                   "LDA 0,30", "NEG 0,0", "COM 0,0", "STA 0,20",
                   "LDA 0,@20", "JSR 200", "LDA 0,20", "LDA 3,53", "SUB# 0,3,SZR", "JMP 237",
                   "LDA 0,54", "JSR 200", "JMP @50"],
           **PRINT}


def characters(text):
    """A character a word, and a word of 0."""
    return [ord(letter) for letter in text] + [0]


def pairs(text):
    """Two characters a word, the first in the left half, and a word of 0."""
    text += "\0" * (len(text) % 2)
    return [ord(left) << 8 | ord(right) for left, right in zip(text[::2], text[1::2])] + [0]


GUESTS = [
    Guest("a text, a character a word", {
        0o20: [0o277],
        0o100: ["LDA 0,@20", "MOV 0,0,SNR", "HALT", "DOAS 0,TTO", "SKPDN TTO", "JMP .-1", "JMP .-6"],
        0o300: characters("Hello, world\n")},
        "Hello, world\n"),

    Guest("a text, two characters a word, by a subroutine", {
        0o40: [0o300],
        0o100: ["LDA 2,40", "LDA 1,0,2", "MOV 1,1,SNR", "HALT", "MOVS 1,0", "JSR 200", "MOV 1,0", "JSR 200",
                "INC 2,2", "JMP 101"],
        0o300: pairs("Nova and its Nova\n"),
        **PRINT},
        "Nova and its Nova\n"),

    Guest("the switches in octal", {
        0o100: ["READS 1", "JMP 220"],
        **OCTAL},
        "123456", {"SR": 0o123456}),

    Guest("a checksum with end-around carry, in octal", {
        0o20: [0o277],
        0o40: [0o20],
        0o100: ["SUB 1,1", "LDA 0,@20", "ADDZ 0,1,SZC", "INC 1,1", "DSZ 40", "JMP 101", "JMP 220"],
        0o300: [0o177777, 0o1, 0o100000, 0o100000, 0o52525, 0o125252, 0o7, 0o77777] * 2,
        **OCTAL},
        "000021"),

    Guest("squares in decimal, by MUL and DIV", {
        0o60: [1, 12],
        0o100: ["LDA 1,60", "LDA 2,60", "SUB 0,0", "MUL", "JSR 220", "ISZ 60", "DSZ 61", "JMP 100", "HALT"],
        **DECIMAL},
        "".join(f"{n * n} " for n in range(1, 13))),

    Guest("primes below 100, by trial", {
        0o60: [2, 2, 0, 100],
        0o100: ["LDA 0,61", "STA 0,62", "LDA 2,62", "LDA 1,60", "SUB# 1,2,SNR", "JMP 114", "SUB 0,0", "DIV",
                "MOV 0,0,SNR", "JMP 115", "ISZ 62", "JMP 102", "JSR 220", "ISZ 60", "LDA 0,60", "LDA 1,63",
                "SUB# 0,1,SZR", "JMP 100", "HALT"],
        **DECIMAL},
        "".join(f"{n} " for n in range(2, 100) if all(n % d for d in range(2, n)))),

    Guest("letters in order", {
        0o40: [0o300, -13 & 0o177777, -13 & 0o177777, 0o277],
        0o100: ["LDA 2,40", "LDA 3,41", "LDA 0,0,2", "LDA 1,1,2", "SUBZ# 0,1,SZC", "JMP .+3", "STA 0,1,2",
                "STA 1,0,2", "INC 2,2", "INC 3,3,SZR", "JMP .-10", "ISZ 42", "JMP .-14",
                "LDA 0,43", "STA 0,20", "LDA 0,@20", "MOV 0,0,SNR", "HALT", "JSR 200", "JMP 117"],
        0o300: characters("interpretation"),
        **PRINT},
        "".join(sorted("interpretation"))),

    Guest("a text printed by interrupts, with a count in AC2 meanwhile", {
        0o1: [0o240],
        0o20: [0o277],
        0o100: ["LDA 0,@20", "DOAS 0,TTO", "INTEN", "INC 2,2", "LDA 1,44", "MOV 1,1,SNR", "JMP 103", "HALT"],
        0o240: ["STA 0,45", "STA 1,46", "LDA 0,@20", "MOV 0,0,SNR", "JMP 247", "DOAS 0,TTO", "JMP 251",
                "NIOC 0,TTO", "ISZ 44", "LDA 0,45", "LDA 1,46", "INTEN", "JMP @0"],
        0o300: characters("by interrupts")},
        "by interrupts", not_compared=("0", "AC2")),

    Guest("a tick of the clock, by its flag", {
        0o40: [3, ord("T")],
        0o100: ["LDA 0,40", "DOAS 0,RTC", "SKPBN RTC", "HALT", "SKPDN RTC", "JMP .-1", "SKPBZ RTC", "HALT",
                "LDA 0,41", "JSR 200", "HALT"],
        **PRINT},
        "T"),

    Guest("interrupts of the clock and, masked out till then, of the printer", {
        0o1: [0o240],
        0o20: [0o277],
        0o40: [1, ord("m"), 3, 2],
        0o100: ["LDA 0,40", "MSKO 0", "LDA 0,41", "DOAS 0,TTO", "LDA 0,42", "DOAS 0,RTC", "INTEN", "JMP ."],
        0o240: ["INTA 1", "STA 1,@20", "DSZ 43", "JMP 245", "HALT", "NIOC 0,RTC", "SUB 0,0", "MSKO 0", "INTEN",
                "JMP @0"]},
        "m"),

    Guest("who asks first: the codes of all that ask, in order", {
        0o20: [0o277],
        0o40: [0o60200],
        0o100: ["LDA 1,40", "INTA 0", "MOV 0,0,SNR", "HALT", "STA 0,@20", "ADD 1,0", "STA 0,110", "JMP 110",
                0, "JMP 101"]},
        "", {"TTO DONE": 1, "CLK DONE": 1, "TTI DONE": 1}),

    Guest("a key that has come, printed", {
        0o100: ["SKPDN TTI", "JMP .-1", "DIAC 0,TTI", "SKPDZ TTI", "HALT", "JSR 200", "HALT"],
        **PRINT},
        "k", {"TTI BUF": ord("k"), "TTI DONE": 1}),

    Guest("a character that another replaces before it is printed", {
        0o40: [ord("a"), ord("b")],
        0o100: ["LDA 0,40", "DOAS 0,TTO", "LDA 0,41", "DOA 0,TTO", "SKPDN TTO", "JMP .-1", "HALT"]},
        "b"),

    Guest("characters that are dropped, by C and by IORST", {
        0o40: [ord("x"), ord("y"), ord("z"), 400],
        0o100: ["LDA 0,40", "DOAS 0,TTO", "NIOC 0,TTO", "LDA 0,41", "DOAS 0,TTO", "IORST", "SKPBZ TTO", "HALT",
                "DSZ 43", "JMP .-1", "LDA 0,42", "JSR 200", "HALT"],
        **PRINT},
        "z"),

    Guest("a reset of the devices, behind which none is masked out", {
        0o1: [0o240],
        0o40: [0o177777, ord("r")],
        0o100: ["LDA 0,40", "MSKO 0", "INTEN", "DICS 2,CPU", "SKPBN CPU", "HALT", "LDA 0,41", "DOAS 0,TTO", "JMP ."],
        0o240: ["SKPBZ CPU", "HALT", "INTA 1", "DIA 3,TTI", "HALT"]},
        "r"),

    Guest("words that nothing answers", {
        0o40: [0o123456],
        0o100: ["LDA 0,40", "MOV 0,1", "DIA 0,02", "DOAS 1,02", "SKPBN 02", "SKPDZ 02", "HALT", "SKPBZ 02", "HALT",
                "SKPDN 02", "DIBC 2,76", "NIOP 0,76", "HALT"]},
        ""),
]
