"""Reads the functions of .rt files and the statements of .antt files, for the checks beside it.

It relies on the layout that `rt fmt` gives: a head begins a line, each clause begins a line, and the body's brace stands at the end
of the head or alone on a line.
"""
import os
import re
from dataclasses import dataclass, field

ROOT = os.path.join(os.path.dirname(os.path.abspath(__file__)), "..")
HEAD = re.compile(r"^( *)(?:#\[[^\]]*\] )?(pub(?:\(crate\))? )?(?:const )?(?:unsafe )?(?:extern \"C\" )?fn (\w+)")
OWNER = re.compile(r"^(?:pub )?(?:(?:unsafe )?(impl|trait)\b)(?:<[^{]*?>)? ?(.*?)(?: \{|$)")
CLAUSE = re.compile(r"^\s*(ensures|requires)\*? (?:(\w+) )?\{")
BINDERS = re.compile(r"[({]((?:\w+ )+): ")


@dataclass
class Clause:
    kind: str
    name: str
    text: str
    line: int
    lines: int = 1


@dataclass
class Function:
    crate: str
    file: str
    line: int
    owner: str
    name: str
    public: bool
    arguments: list
    clauses: list = field(default_factory=list)
    is_test: bool = False
    implements: bool = False
    result: bool = False
    body: str = None

    @property
    def is_law(self):
        """Whether it computes nothing: it has a body and clauses, gives no result, and changes no argument."""
        changes = any(kind.startswith("&mut") or name in ("&mut self", "mut self", "rt") for name, kind in self.arguments)
        return self.body is not None and any(it.kind == "ensures" for it in self.clauses) and not self.result and not changes

    @property
    def place(self):
        return f"{self.file}:{self.line}"

    @property
    def path(self):
        return f"{self.crate}::{self.owner}::{self.name}" if self.owner else f"{self.crate}::{self.name}"

    @property
    def contract_lines(self):
        return sum(clause.lines for clause in self.clauses)


def crates():
    return sorted(name for name in os.listdir(os.path.join(ROOT, "crates")) if os.path.isdir(os.path.join(ROOT, "crates", name, "src")))


def files(crate, part, ending):
    for folder, _, names in sorted(os.walk(os.path.join(ROOT, "crates", crate, part))):
        for name in sorted(names):
            if name.endswith(ending):
                yield os.path.relpath(os.path.join(folder, name), ROOT)


def text_of(path):
    with open(os.path.join(ROOT, path), encoding="utf-8") as file:
        return file.read()


def parts_of(signature):
    """The pieces between the commas of a signature's arguments, and what stands behind them."""
    head = signature[signature.index("fn "):]
    at, angle = 0, 0
    # (type parameters may stand before the arguments)
    for at, letter in enumerate(head):
        if letter == "<":
            angle += 1
        elif letter == ">" and head[at - 1] != "-":
            angle -= 1
        elif letter == "(" and not angle:
            break
    inner, depth, piece, index = [], 0, "", at
    for index in range(at, len(head)):
        letter = head[index]
        if letter in "([{<":
            depth += 1
        if letter in ")]}" or (letter == ">" and head[index - 1] != "-"):
            depth -= 1
        if depth == 0:
            break
        if letter == "," and depth == 1:
            inner.append(piece)
            piece = ""
        elif index > at:
            piece += letter
    return inner + [piece], head[index:]


def after_arguments(signature):
    return parts_of(signature)[1]


def arguments_of(signature):
    """The (name, type) pairs of a signature, `self` among them."""
    found = []
    for piece in parts_of(signature)[0]:
        piece = " ".join(piece.split())
        if not piece:
            continue
        name, _, kind = piece.partition(":")
        found.append((name.removeprefix("mut ").strip(), kind.strip()))
    return found


def functions_of(path, crate):
    """Each function of a file with its clauses; those below `#[test]` are marked."""
    lines, owner, is_trait, implements, at = text_of(path).split("\n"), "", False, False, 0
    while at < len(lines):
        line = lines[at]
        if line and not line.startswith((" ", "}")):
            found = OWNER.match(line)
            if found:
                rest = found.group(2)
                implements = found.group(1) == "impl" and " for " in rest
                is_trait = found.group(1) == "trait" or implements
                owner = re.sub(r"<.*", "", (rest.split(" for ")[1] if " for " in rest else rest).lstrip("&").split("::")[-1]).split(":")[0].strip()
            elif not line.startswith(("//", "#")):
                owner, is_trait, implements = "", False, False
        head = HEAD.match(line)
        if not head:
            at += 1
            continue
        begin, signature = at, ""
        while True:
            signature += lines[at] + "\n"
            ends = lines[at].rstrip().endswith(("{", ";", "{}")) or CLAUSE.match(lines[at + 1] if at + 1 < len(lines) else "")
            ends = ends or (at + 1 < len(lines) and lines[at + 1].strip() == "{")
            at += 1
            if ends:
                break
        function = Function(crate, path, begin + 1, owner if head.group(1) else "", head.group(3),
                            head.group(2) == "pub " or bool(is_trait and head.group(1)), arguments_of(signature))
        function.implements = implements and bool(head.group(1))
        function.result = "->" in after_arguments(signature)
        function.is_test = any(lines[above].strip() == "#[test]" for above in range(max(0, begin - 3), begin))
        depth = 0
        while at < len(lines) and (lines[at].strip() != "{" and not signature.rstrip().endswith(("{", ";", "{}"))):
            depth += lines[at].count("{") - lines[at].count("}")
            clause = CLAUSE.match(lines[at])
            if clause:
                function.clauses.append(Clause(clause.group(1), clause.group(2) or "", lines[at].strip(), at + 1))
            elif function.clauses and lines[at].strip() and not lines[at].strip().startswith("//"):
                function.clauses[-1].text += " " + lines[at].strip()
                function.clauses[-1].lines += 1
            if lines[at].strip() == "{}" or lines[at].rstrip().endswith(";") and depth == 0:
                function.body = "" if lines[at].strip() == "{}" else None
                at += 1
                break
            at += 1
        if signature.rstrip().endswith("{}"):
            function.body = ""
        elif signature.rstrip().endswith("{") or at < len(lines) and lines[at].strip() == "{":
            ends = next((below for below in range(at, len(lines)) if lines[below] == head.group(1) + "}"), len(lines))
            function.body = "\n".join(lines[at:ends]).lstrip("{")
        yield function


def functions(tests=False):
    for crate in crates():
        for path in files(crate, "src", ".rt"):
            for function in functions_of(path, crate):
                if tests or not function.is_test:
                    yield function


def statements_of(path):
    """The (line, name, text) of each definition of a file in specs/, or of each lemma of one in proofs/: its head alone there."""
    lines, at = text_of(path).split("\n"), 0
    while at < len(lines):
        found = re.match(r"^(?:(abbrev|record|data) )?(?:pub )?([\w-]+)\b(.*) : ", lines[at])
        if not found or lines[at].startswith((" ", "--", "use", "mod", "module")):
            at += 1
            continue
        begin, text = at, [lines[at]]
        at += 1
        while at < len(lines) and lines[at].strip() and (found.group(1) or lines[at].startswith(" ")) and not lines[at].startswith("--"):
            text.append(lines[at])
            at += 1
        yield begin + 1, found.group(2), found.group(1) or "lemma", "\n".join(text)


def records():
    """Of each record of specs/ the types of its fields, by the crate and the record's name."""
    found = {}
    for crate in crates():
        for path in files(crate, "specs", ".antt"):
            for _line, name, kind, text in statements_of(path):
                if kind == "record" or re.match(r"(?:pub )?record ", text):
                    name = re.match(r"(?:pub )?record (\S+)", text).group(1)
                    found[crate, name] = re.findall(r"^  (?:pub )?\S+ : (.*(?:\n    .*)*)", text, re.M)
    return found


def shape_of(name, text):
    """A statement's text without its own name and with bound names numbered in the order in which they come."""
    text = re.sub(r"--.*", "", text)
    bound, order = set(), {}
    for group in BINDERS.findall(text):
        bound.update(group.split())
    for group in re.findall(r"λ ((?:\w+ )*\w+)\.", text):
        bound.update(group.split())
    def numbered(found):
        word = found.group(0)
        if word == name:
            return "@"
        return f"v{order.setdefault(word, len(order))}" if word in bound else word
    return " ".join(re.sub(r"[A-Za-z_][\w-]*", numbered, text.replace("pub ", "")).split())
