"""Definitions and the names in them, read from the sources: specs/*.antt and src/*.rt.

This reads names and no more: it knows where a definition begins and ends, which names a text binds itself (λ, let,
`(x : T)`, patterns), and from which module every other name comes. A name that is nowhere is an error, so that nothing
is passed over in silence.
"""

import re
import textwrap
from dataclasses import dataclass, field

WORD = r"[^\W\d][\w']*"
TOKEN = re.compile(rf'"(?:[^"\\]|\\.)*"|{WORD}(?:\.\w+)*|\d\w*|\.\w+|[(){{}};,]|[^\s\w(){{}};,"]+')
USE = re.compile(
    r"^[ \t]*(?:pub |ghost )*use[ \t]+Rattle\.([\w.]+?)(?:\.\{([^}]*)\}|[ \t]+as[ \t]+(\w+))?[ \t]*;?[ \t]*$", re.M
)
DEFINES = re.compile(rf"(?:(?:abbrev|unfoldable|pub|opaque)[ ])*(?:(record|data)[ ]+({WORD})|(\S+)[ ]*:[ ])")
# Words of the language, and the types that no file defines.
KEYWORDS = {"record", "if", "then", "else", "let", "in", "do", "elim", "λ", "Type", "Unit", "where", "_"}
SYMBOLS = {"=", ":", "→", "×", "⊥", "¬", ".", ";", ",", "-", "⊤", "[", "]", "|", "↦"}


class SourceError(Exception):
    """A source that this reader does not understand."""


@dataclass
class Scope:
    """From which module each name of a file comes."""

    names: dict = field(default_factory=dict)  # name: (path of the module, name there)
    modules: dict = field(default_factory=dict)  # name: path of the module

    def joined(self, other):
        return Scope({**self.names, **other.names}, {**self.modules, **other.modules})


@dataclass
class Definition:
    name: str
    comment: str  # what stands above it
    lines: int  # without comments and blank lines
    names: set  # what it uses, as it is written there: name, or module.name
    scope: Scope  # where these come from, beside the file itself
    words: set = field(default_factory=set)  # names of types in Rust that it uses


# Text


def without_comments(text, mark):
    """The text with each comment left out, line by line."""
    return re.sub(rf'("(?:[^"\\\n]|\\.)*")|(?<!\S){mark}.*', lambda found: found[1] or "", text)


def code_lines(text):
    return sum(1 for line in text.split("\n") if line.strip())


def balanced(text, start):
    """The place behind the brace that closes the one at `start`."""
    depth = 0
    for found in re.compile(r'"(?:[^"\\]|\\.)*"|[{}]').finditer(text, start):
        depth += {"{": 1, "}": -1}.get(found[0], 0)
        if depth == 0:
            return found.end()
    raise SourceError("a brace that nothing closes")


def scope_of(text, outer_only=False):
    """What the `use` lines of specs/ and the `ghost use` lines of src/ bring in; with `outer_only`, those of the file
    itself and not those of a block in it."""
    scope = Scope()
    read = list(USE.finditer(text))
    if len(read) != len(re.findall(r"\buse[ \t]+Rattle\.", text)):
        raise SourceError("a use line that is not understood")
    for found in read:
        path, listed, alias = found.groups(default="")
        if outer_only and found[0][0] in " \t":
            continue
        if alias:
            scope.modules[alias] = path
        for item in filter(None, (item.strip() for item in listed.split(","))):
            name, _, other = item.partition(" as ")
            scope.names[(other or name).strip().replace("◌", " ").split()[0]] = (path, name.strip())
    return scope


# The names of an expression


def tree(tokens):
    """The tokens with each bracket as a list, whose first element is the bracket."""
    top = [""]
    stack = [top]
    for token in tokens:
        if token in ("(", "{"):
            stack[-1].append([token])
            stack.append(stack[-1][-1])
        elif token in (")", "}"):
            if len(stack) == 1:
                raise SourceError("a bracket that nothing opens")
            stack.pop()
        else:
            stack[-1].append(token)
    if len(stack) > 1:
        raise SourceError("a bracket that nothing closes")
    return top[1:]


def parsed(text):
    return tree(TOKEN.findall(text))


def is_word(item):
    return isinstance(item, str) and re.fullmatch(rf"{WORD}(?:\.\w+)*", item) is not None


def split(items, mark):
    parts = [[]]
    for item in items:
        if item == mark:
            parts.append([])
        else:
            parts[-1].append(item)
    return parts


def binder(group):
    """The names and the type of `(x y : T)`, or None where it is no such thing."""
    place = group.index(":") if ":" in group else 0
    names = group[1:place]
    if names and all(is_word(name) and "." not in name for name in names):
        return names, group[place + 1:]
    return None


def free_names(items, bound):
    """The names that an expression uses and does not bind itself. What it binds is bound from there to its end."""
    bound = set(bound)
    found = set()
    lets = []
    place = 0
    while place < len(items):
        item = items[place]
        place += 1
        if items[place:place + 1] == ["←"]:
            bound.update(flat([item]))  # `x ← expression`, in a `do`
            place += 1
        elif isinstance(item, list):
            found |= names_of_group(item, bound)
        elif item == "do":
            found.add(">>=")
        elif item == "λ":
            while items[place] != ".":
                found |= names_of_parameter(items[place], bound)
                place += 1
        elif item == "|":
            end = items.index("↦", place)  # `| pattern ↦ expression`, in an `elim`
            found |= names_of_pattern(items[place:end], bound)
            place = end
        elif item == "let":
            lets.append(items[place])
            place += 1
        elif item == "in":
            bound.add(lets.pop())
        elif is_word(item):
            if item not in KEYWORDS and item.split(".")[0] not in bound:
                found.add(item)
        elif item not in SYMBOLS and not re.match(r'[\d".]', item):
            found.add(item)
    return found


def names_of_group(group, bound):
    """The names of a bracket. Those that it binds, as `(x : T)` does, are added to `bound`."""
    binds = binder(group)
    if binds:
        names, of = binds
        found = free_names(of, bound)
        bound.update(names)
        return found
    if group[0] == "{" and "=" in group:
        # The fields of a record: `name = value`, with `;` between them.
        return set().union(*(free_names(part[2:], bound) for part in split(group[1:], ";")))
    return free_names(group[1:], bound)


def names_of_pattern(items, bound):
    """The constructors of a pattern, which have capitals. What it binds is added to `bound`."""
    words = {word for word in flat(items) if is_word(word)}
    constructors = {word for word in words if word.split(".")[-1][0].isupper()}
    bound.update(words - constructors)
    return constructors


def names_of_parameter(item, bound):
    if isinstance(item, list):
        return names_of_group(item, bound)
    bound.add(item)
    return set()


def names_of_equation(items, is_constructor):
    """The names of `f pattern.. = expression`: in a pattern a name is a constructor, or it is bound."""
    if "=" not in items:
        raise SourceError(f"no equation: {items[:6]}")
    place = items.index("=")
    used = {word for word in flat(items[:place]) if is_constructor(word)}
    return used | free_names(items[place + 1:], bound_by_equation(items, is_constructor))


def bound_by_equation(items, is_constructor):
    """What the pattern of an equation binds, and the name of its function."""
    return {word for word in flat(items[:items.index("=")]) if is_word(word) and not is_constructor(word)}


def flat(items):
    for item in items:
        if isinstance(item, list):
            yield from flat(item[1:])
        else:
            yield item


# specs/*.antt


class Specs:
    """A file of definitions."""

    def __init__(self, text, is_outer_constructor):
        """`is_outer_constructor` tells of a path and a name there whether the name is a constructor."""
        text = re.sub(r"^(pub )?use [^{}\n]*\{[^{}]*\}", lambda use: use[0].replace("\n", " "), text, flags=re.M)
        # Definitions that use one another stand further in.
        text = re.sub(r"^(?:unfoldable )?mutual\n((?:(?:  .*)?\n)+)", lambda block: textwrap.dedent(block[1]), text, flags=re.M)
        self.scope = scope_of(without_comments(text, "--"))
        self.definitions = {}
        self.constructors = {}  # constructor: name of its type
        for name, comment, chunks in self.chunks(text):
            self.read(name, comment, chunks, is_outer_constructor)

    @staticmethod
    def chunks(text):
        """Each definition with its comment and its parts, a part being a line and those below that stand further in."""
        comment, found = [], []
        for line in text.split("\n"):
            code = without_comments(line, "--").rstrip()
            if line.startswith("--"):
                comment.append(line[2:].strip())
            elif not code:
                comment = comment if line.strip() else []
            elif code.startswith((" ", "\t", "}", ")", "]")):
                if found:
                    found[-1][2][-1] += "\n" + code
            elif re.match(r"(pub )?(use|mod) |infix", code):
                comment = []
            elif DEFINES.match(code):
                defines = DEFINES.match(code)
                found.append((defines[2] or defines[3], " ".join(comment), [code]))
                comment = []
            else:
                found[-1][2].append(code)
        return found

    def read(self, name, comment, chunks, is_outer_constructor):
        kind = DEFINES.match(chunks[0])[1]
        if kind:
            names = self.names_of_type(name, kind, chunks[0])
        else:
            names = free_names(parsed(chunks[0][DEFINES.match(chunks[0]).end():]), ())
            for chunk in chunks[1:]:
                names |= self.names_of_part(chunk, lambda word: self.is_constructor(word, is_outer_constructor))
        lines = sum(code_lines(chunk) for chunk in chunks)
        self.definitions[name] = Definition(name, comment, lines, names, self.scope)

    def names_of_part(self, text, is_constructor):
        """The names of an equation, and of the functions that stand below its `where`, which see what it binds."""
        outer, _, below = text.partition("\n  where\n")
        found = names_of_equation(parsed(outer), is_constructor)
        bound = bound_by_equation(parsed(outer), is_constructor)
        local = self.chunks(textwrap.dedent(below))
        bound.update(name for name, _, _ in local)
        for _, _, chunks in local:
            found |= free_names(parsed(chunks[0][DEFINES.match(chunks[0]).end():]), bound)
            for chunk in chunks[1:]:
                found |= names_of_equation(parsed(chunk), is_constructor)
        return {name for name in found if name.split(".")[0] not in bound}

    def names_of_type(self, name, kind, text):
        """The names of a record or a data type: parameters, and then fields or constructors with their types."""
        head, body = (re.split(r"\bwhere\b", text, maxsplit=1) + [""])[:2]
        bound = set()
        found = set()
        for item in parsed(head)[parsed(head).index(name) + 1:]:
            found |= names_of_group(item, bound) if isinstance(item, list) else free_names([item], bound)
        # A line that closes a bracket belongs to the part above it.
        for part in re.split(r"\n  (?=[^\s)}\]])", body)[1:]:
            items = [item for item in parsed(part) if item != "pub"]
            place = items.index(":")
            found |= free_names(items[place + 1:], bound)
            if kind == "record":
                bound.update(items[:place])  # the fields below may name it
            else:
                self.constructors.update((constructor, name) for constructor in items[:place])
        return found

    def is_constructor(self, word, is_outer_constructor):
        if word in self.constructors:
            return True
        path, name = self.origin(word)
        return path is not None and is_outer_constructor(path, name)

    def origin(self, word):
        return origin(self.scope, word)


def origin(scope, word):
    """The path and the name that a name of another module has there, or None and the name."""
    head, *rest = word.split(".")
    if head in scope.modules and rest:
        return scope.modules[head], rest[0]
    return scope.names.get(head, (None, head))


# src/*.rt


class Source:
    """A file of the program."""

    def __init__(self, text):
        self.text = text
        self.code = without_comments(re.sub(r"^\s*//[/!]?.*$", "", text, flags=re.M), "//")
        # What the whole file has; an `impl` has more.
        self.scope = scope_of(self.code, outer_only=True)
        self.uses = dict(rust_uses(self.code))

    def has_type(self, name):
        return self.type_at(name) is not None

    def type_at(self, name):
        return re.search(rf"^(?:pub(?:\([^)]*\))? )?(?:struct|enum) {name}\b", self.code, re.M)

    def type(self, name):
        """A type with what its fields and, where it has one, its model name."""
        at = self.type_at(name)
        body = self.code[at.end():self.end_of_type(at.end())]
        lines = code_lines(re.sub(r"^\s*#\[.*\]$", "", at[0] + body, flags=re.M))
        names, scope = set(), self.scope
        model = re.search(rf"^impl(?:<[^{{]*>)? Model for {name}\b[^{{]*", self.code, re.M)
        if model:
            block = self.code[model.end():balanced(self.code, model.end())]
            scope = self.scope.joined(scope_of(block))
            for part in re.finditer(r"ghost (?:Value|view) = (?=\{)", block):
                text = block[part.end():balanced(block, part.end())]
                names |= free_names(parsed(text)[0][1:], ())
                lines += code_lines(text)
        words = field_types(body, at[0].split()[-2] == "enum")
        return Definition(name, self.doc_above(name), lines, names, scope, words)

    def end_of_type(self, start):
        ends = re.compile(r"\s*;").match(self.code, start) or re.compile(r"\{|\)\s*;").search(self.code, start)
        return balanced(self.code, ends.start()) if ends[0] == "{" else ends.end()

    def doc_above(self, name):
        begins = rf"((?:^///.*\n)+)(?:^#\[.*\n)*^(?:pub(?:\([^)]*\))? )?(?:struct|enum) {name}\b"
        found = re.search(begins, self.text, re.M)
        return " ".join(re.findall(r"^/// ?(.*)$", found[1], re.M)) if found else ""

    def functions(self):
        """Each public function: its name, its operands and result, its clauses, and its body."""
        for found in re.finditer(r"^[ ]*pub fn (\w+)", self.code, re.M):
            opens = re.compile(r"\b(?:requires|ensures)\b|\{|;").search(self.code, found.end())
            signature = self.code[found.end():opens.start()]
            clauses = []
            clause = re.compile(r"\s*(?:requires|ensures)\*?\s*\w*\s*(?=\{)")
            place = opens.start()
            while at := clause.match(self.code, place):
                place = balanced(self.code, at.end())
                clauses.append(self.code[at.end():place])
            start = self.code.find("{", place)
            body = self.code[start:balanced(self.code, start)] if opens[0] != ";" else None
            yield found[1], signature, clauses, body


def field_types(body, is_enum):
    """The names of types in the body of a struct or an enum: not those of fields and variants."""
    inner = re.sub(r"#\[[^\]]*\]|\bpub(?:\([^)]*\))?", "", body)
    if is_enum:
        variants = split_text(inner[inner.index("{") + 1:inner.rindex("}")])
        inner = " ".join(re.sub(r"^\w+", "", variant) for variant in variants)
    inner = re.sub(r"\b\w+\s*:(?!:)", "", inner)  # fields
    return set(re.findall(r"\w+(?:::\w+)*", inner))


def split_text(text):
    """The parts of a list with commas between them, without blanks round each."""
    parts, depth = [""], 0
    for letter in text:
        depth += (letter in "({[") - (letter in ")}]")
        if letter == "," and depth == 0:
            parts.append("")
        else:
            parts[-1] += letter
    return [part.strip() for part in parts if part.strip()]


def rust_uses(code):
    """The names that `use` lines bring in, each with its path."""
    for text in re.findall(r"^(?:pub(?:\([^)]*\))? )?use ([^;]+);", code, re.M):
        yield from use_tree("", re.sub(r"\s+", " ", text.strip()))


def use_tree(before, text):
    start = text.find("{")
    if start < 0:
        path, _, alias = text.partition(" as ")
        path = before + path.strip()
        yield (alias.strip() or path.split("::")[-1]), path
        return
    for part in split_text(text[start + 1:text.rindex("}")]):
        yield from use_tree(before + text[:start], part)
