#!/usr/bin/env python3
"""Checks the rules of CONTRIBUTING that a program can see.

    checks/house_rules.py             prints each finding that is not listed, and ends with 1 if there is one
    checks/house_rules.py --figures   prints the number of findings of each rule, and how long the contracts are
    checks/house_rules.py --all RULE  prints each finding of a rule, the listed ones too

Findings that stand for a reason are in checks/house_rules.txt, one a line: rule, what is found, reason. For rules that the
repository does not keep yet, AT_MOST below has the number of findings today: there may be fewer, and no more.
"""
import collections
import re
import sys

sys.dont_write_bytecode = True

import rattle_source as source  # noqa: E402

# The most findings of a rule: lower the number where findings go.
AT_MOST = {
    "law called in a body": 101,
    "statement stands twice": 8,
    "name with two meanings": 1,
}

FROM_OUTSIDE = {"rt", "alloc", "self", "&self", "&mut self"}
DIGITS = re.compile(r"\b(134217728|9223372036854775807|68719476736|16777216|18446744073709551615|1073741824|4294967295)\b")
# Crates whose lemmas others may cite, and who may cite those of board_seats.
CITED = {"bip_defs", "mm_defs"}
BOARDS = {"claim_words", "flip_words"}


def long_contracts(functions):
    for function in functions:
        if function.contract_lines > 10:
            yield function.path, f"{function.place} has {function.contract_lines} lines of clauses"


def many_arguments(functions):
    for function in functions:
        counted = [name for name, _ in function.arguments if name not in FROM_OUTSIDE]
        if len(counted) > 5:
            yield function.path, f"{function.place} takes {len(counted)}"


def without_ensures(functions):
    for function in functions:
        inherits = function.file and function.owner and function.implements
        if function.public and not inherits and not any(clause.kind == "ensures" for clause in function.clauses):
            yield function.path, function.place


def wide_clauses(functions):
    for function in functions:
        lines = source.text_of(function.file).split("\n")
        for clause in function.clauses:
            for line in range(clause.line, clause.line + clause.lines):
                if len(lines[line - 1]) > 100:
                    yield f"{function.path} {clause.name}", f"{function.file}:{line} has {len(lines[line - 1])} columns"


def limits_as_digits(functions):
    for function in functions:
        for clause in function.clauses:
            if DIGITS.search(clause.text):
                yield f"{function.path} {clause.name}", f"{function.file}:{clause.line}"


def cited_proofs(_functions):
    for crate in source.crates():
        for part in ("specs", "proofs", "src"):
            for path in source.files(crate, part, (".antt", ".rt")):
                for other in sorted(set(re.findall(r"Rattle\.(\w+)\.proofs\.", source.text_of(path)))):
                    allowed = other in CITED or other == crate or (other == "board_seats" and crate in BOARDS)
                    if not allowed and other in source.crates():
                        yield f"{crate} {other}", path


def doubled_statements(_functions):
    found = collections.defaultdict(list)
    for crate in source.crates():
        for part in ("specs", "proofs"):
            for path in source.files(crate, part, ".antt"):
                if re.search(r"/(Answers|Invariants|Proof)\.antt$", path):
                    continue
                for line, name, kind, text in source.statements_of(path):
                    head = text.split(" where\n")[0] if kind == "lemma" else text
                    shape = kind + source.shape_of(name, head)
                    if len(shape) > 60:
                        found[shape].append((f"{crate} {name}", f"{path}:{line}"))
    for places in found.values():
        for key, place in places[1:]:
            yield key, f"{place} says what {places[0][1]} says"


def two_meanings(_functions):
    """Names of public types that two crates give to different things."""
    found = collections.defaultdict(set)
    for crate in source.crates():
        for path in source.files(crate, "src", ".rt"):
            for name in re.findall(r"^pub (?:struct|enum|trait) (\w+)", source.text_of(path), re.M):
                found[name].add(crate)
    for name, crates in sorted(found.items()):
        if len(crates) > 1:
            yield name, ", ".join(sorted(crates))


CALL = re.compile(r"^\s*(?:[\w.]+\.|(?:\w+::)*)(\w+)(?:::<[^;]*>)?\(.*\);$", re.M)


def laws_called(functions):
    """Calls of laws, which compute nothing, in bodies that compute something."""
    laws = {function.name for function in functions if function.is_law}
    for function in functions:
        if function.body and not function.is_law and not only_cites(function.body, laws):
            for name in CALL.findall(function.body):
                if name in laws:
                    yield f"{function.path} {name}", function.place


def only_cites(body, laws):
    """Whether a body is nothing but calls of laws: that of a law which an impl gives, whose clauses stand in the trait."""
    lines = [line for line in body.strip().strip("{}").splitlines() if line.strip() and not line.strip().startswith("//")]
    return all((call := CALL.match(line)) and call[1] in laws for line in lines)


RULES = {
    "contract above ten lines": long_contracts,
    "more than five arguments": many_arguments,
    "law called in a body": laws_called,
    "public function without ensures": without_ensures,
    "clause wider than 100 columns": wide_clauses,
    "limit as digits": limits_as_digits,
    "proofs of another crate cited": cited_proofs,
    "statement stands twice": doubled_statements,
    "name with two meanings": two_meanings,
}


def listed():
    """The findings that stand for a reason, by rule."""
    found = collections.defaultdict(set)
    for line in source.text_of("checks/house_rules.txt").split("\n"):
        if line and not line.startswith("#"):
            rule, what, _reason = (part.strip() for part in line.split("|"))
            found[rule].add(what)
    return found


def facts_of(record, records, above=()):
    """How many facts a record states, those of the records among its fields included."""
    crate, name = record
    count = 0
    for kind in records[record]:
        head = re.match(r"[\w-]+", kind)
        inner = named_record(crate, head.group(0), records) if head else None
        count += facts_of(inner, records, (*above, record)) if inner and inner not in above and inner != record else 1
    return count


def named_record(crate, name, records):
    """The record that a clause of the crate means by this name: its own, or the only one of that name."""
    if (crate, name) in records:
        return crate, name
    others = [record for record in records if record[1] == name]
    return others[0] if len(others) == 1 else None


def fitting(functions):
    """Of each clause of `requires` that speaks of two arguments how many facts it states: nearly all say that these fit together."""
    records = source.records()
    for function in functions:
        names = ["self" if "self" in name else name for name, _ in function.arguments]
        for clause in function.clauses:
            said = clause.text.split("{", 1)[1].strip()
            if clause.kind == "requires" and sum(bool(re.search(rf"\b{re.escape(name)}\b", said)) for name in names) > 1:
                head = re.match(r"[\w-]+", said)
                record = named_record(function.crate, head.group(0), records) if head else None
                yield facts_of(record, records) if record else 1


def main(words):
    functions = [it for it in source.functions() if not it.crate.endswith("_tests") and it.crate not in ("test_gates", "test_matrices")]
    reasons, failed = listed(), False
    shows = words[:1] == ["--figures"]
    if shows:
        print(f"{len(functions)} functions, {sum(len(it.clauses) for it in functions)} clauses in {sum(it.contract_lines for it in functions)} lines")
        facts = list(fitting(functions))
        print(f"{len(facts)} clauses of `requires` speak of two arguments, and state {sum(facts)} facts, those of the fields of records included")
    for rule, find in RULES.items():
        findings = list(find(functions))
        if words[:1] == ["--all"]:
            if words[1:] == [rule]:
                print("\n".join(f"{what}: {place}" for what, place in findings))
            continue
        new = [(what, place) for what, place in findings if what not in reasons[rule]]
        if shows:
            print(f"{rule}: {len(findings)}, of which {len(findings) - len(new)} are listed")
        most = AT_MOST.get(rule, 0)
        if len(new) > most:
            failed = True
            print("\n".join(f"{rule}: {what} ({place})" for what, place in new) if not most
                  else f"{rule}: {len(new)}, where there may be {most}")
        gone = reasons[rule] - {what for what, _ in findings}
        if gone:
            failed = True
            print(f"{rule}: listed, and not found any more: {', '.join(sorted(gone))}")
    if not words and not failed:
        print("house rules: kept")
    return failed


if __name__ == "__main__":
    sys.exit(main(sys.argv[1:]))
