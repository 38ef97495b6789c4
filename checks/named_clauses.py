#!/usr/bin/env python3
"""Looks whether each function and clause that a page names as the one that carries a claim is there.

    checks/named_clauses.py

In the last column of the table of docs/PROVED.md stands `function` or `function: clause, clause`, for the crates of the row. Each
has to be a public function, or a method of a trait, in the src/ of one of them, or of a crate that the field names, with these
clauses in its contract. The same is asked of docs/REFUSALS.md: its calls and its clauses. `Type::function` is that of the type or
trait alone, `crate::function` that of the crate alone; a bare name that several types of the crate have is refused. `clause.field`
is a field of the one record that the clause names and that has such a field, and `clause.field.field` a field of the record that
this field names. It ends with 1 and a line for each that is not there. It reads no contract: whether a clause says what is claimed
is for people.
"""
import functools
import os
import re
import sys

ROOT = os.path.join(os.path.dirname(os.path.abspath(__file__)), "..")
CODE = re.compile(r"`([^`]+)`")
OWNER = re.compile(r"^(?:pub )?(?:(impl|trait)\b)(?:<[^{]*?>)? ?(.*?)(?: \{|$)")
FUNCTION = re.compile(r"^( *)(?:#\[[^\]]*\] )?(pub(?:\(crate\))? )?(?:unsafe )?(?:extern \"C\" )?fn (\w+)")
CLAUSE = re.compile(r"^\s*(?:ensures|requires) (?:(\w+) )?\{")
USE = re.compile(r"^\s*(?:ghost )?use Rattle\.(\w+)\.specs\.(\w+)\.\{([^}]*)\}", re.M)
RECORD = re.compile(r"^pub record (\w+)([\s\S]*?) : Type \d+ where\n((?:(?:  .*)?\n)*)", re.M)
FIELD = re.compile(r"^  pub (\w+) : (.*(?:\n    .*)*)", re.M)
CRATES = set(os.listdir(os.path.join(ROOT, "crates")))


def owner_of(line):
    """The type of an `impl`, the trait of a `trait`, and whether what stands in it is public by itself."""
    found = OWNER.match(line)
    if not found:
        return None
    kind, rest = found.groups()
    implemented = " for " in rest
    name = re.match(r"\w+", (rest.split(" for ")[1] if implemented else rest).lstrip("&").split("::")[-1])
    return (name.group(0) if name else "", kind == "trait" or implemented)


def used(text):
    """Where each name that a text takes from specs/ stands: its crate and module."""
    return {name.strip(): (crate, module) for crate, module, names in USE.findall(text) for name in names.split(",")}


@functools.lru_cache(None)
def records(crate, module):
    """The public records of a module of specs/: the fields of each, a field with its type, and the names in scope there."""
    path = os.path.join(ROOT, "crates", crate, "specs", f"{module}.antt")
    if not os.path.exists(path):
        return {}
    with open(path, encoding="utf-8") as file:
        text = file.read()
    found = {name: dict(FIELD.findall(fields)) for name, _, fields in RECORD.findall(text)}
    scope = {**used(text), **{name: (crate, module) for name in found}}
    return {name: (fields, scope) for name, fields in found.items()}


def has_fields(said, scope, path):
    """Whether a text names one record with the first field of the path, that field's type one with the second, and so on."""
    if not path:
        return True
    named = [records(*scope[name]).get(name, ({}, {})) for name in sorted(set(re.findall(r"\w+", said))) if name in scope]
    having = [(fields[path[0]], inner) for fields, inner in named if path[0] in fields]
    return len(having) == 1 and has_fields(*having[0], path[1:])


@functools.lru_cache(None)
def contracts(crate):
    """For each public function of a crate, of a program for each function, by its name, the clauses of each owner: a type,
    a trait, or none. Of each clause its text and the names in scope there."""
    found, source = {}, os.path.join(ROOT, "crates", crate, "src")
    program = os.path.exists(os.path.join(source, "main.rt"))
    for folder, _, files in os.walk(source):
        for name in files:
            with open(os.path.join(folder, name), encoding="utf-8") as file:
                text = file.read()
                owner, clauses, last, scope = (None, False), {}, None, used(text)
                for line in text.splitlines(keepends=True):
                    if not line.startswith((" ", "}", "\n")):
                        owner = owner_of(line) or (None, False)
                    head = FUNCTION.match(line)
                    if head:
                        last = None
                        public = program or head.group(2) == "pub " or (owner[1] and head.group(1))
                        whose = owner[0] if head.group(1) else None
                        clauses = found.setdefault(head.group(3), {}).setdefault(whose, {}) if public else {}
                    clause = CLAUSE.match(line)
                    if clause:
                        last = clause.group(1)
                        clauses[last] = (line[clause.end():], scope)
                    elif last in clauses and clauses[last][0].count("{") >= clauses[last][0].count("}"):
                        clauses[last] = (clauses[last][0] + line, scope)
    return found


def rows(path):
    """The cells of each row of a file's tables."""
    with open(os.path.join(ROOT, path), encoding="utf-8") as file:
        for line in file:
            if line.startswith("| ") and not line.startswith("|---"):
                yield [cell.strip() for cell in line.strip().strip("|").split(" | ")]


def has_clause(known, clause, *path):
    """Whether a clause stands among these, with the fields of the path where there is one."""
    return clause in known and has_fields(*known[clause], path)


def missing(call, clauses, crates):
    """What is missing of a function with these clauses in one of the crates."""
    *whose, name = call.split("::")
    if whose and whose[-1] in CRATES:
        crates, whose = [whose[-1]], []
    have = {}
    for crate in crates:
        for owner, known in contracts(crate).get(name, {}).items():
            if not whose or owner == whose[-1]:
                have[crate, owner] = known
    if not have:
        return [f"no function {call} in {', '.join(crates)}"]
    free = {place: known for place, known in have.items() if place[1] is None}
    have = free or have
    if len({owner for _, owner in have}) > 1:
        return [f"{call} is of several types: {', '.join(sorted(owner for _, owner in have))}"]
    lacking = [clause for clause in clauses if not any(has_clause(known, *clause.split(".")) for known in have.values())]
    return [f"no clause {clause} of {call}" for clause in lacking]


def with_owner(calls, crates):
    """The calls, each with the type before it where it has none and is one of that type's."""
    whose = ""
    for call in calls:
        if "::" in call:
            whose = call.rsplit("::", 1)[0]
        elif whose and missing(f"{whose}::{call}", [], crates) == []:
            call = f"{whose}::{call}"
        yield call


def proved():
    crates, faults = [], []
    for cells in rows("docs/PROVED.md"):
        named = [word for word in CODE.findall(cells[0]) if word in CRATES]
        if named:
            crates = named
        if len(cells) != 3 or not crates or cells[0] == "Crate":
            continue
        codes = CODE.findall(cells[2])
        within = crates + [word for word in codes if word in CRATES]
        named = [re.match(r"((?:\w+::)*\w+)(?:: (.*))?", code).groups() for code in codes if code not in CRATES]
        for call, (_, clauses) in zip(with_owner([call for call, _ in named], within), named):
            faults += missing(call, [clause.strip() for clause in (clauses or "").split(",") if clause.strip()], within)
    return faults


def refusals():
    calls, faults = [], []
    for cells in rows("docs/REFUSALS.md"):
        if len(cells) != 5 or cells[0] == "Call":
            continue
        calls = list(with_owner(CODE.findall(cells[0]), sorted(CRATES))) or calls
        for call in calls:
            faults += missing(call, CODE.findall(cells[4]), sorted(CRATES))
    return faults


if __name__ == "__main__":
    FAULTS = proved() + refusals()
    print("\n".join(FAULTS) if FAULTS else "all are there")
    sys.exit(1 if FAULTS else 0)
