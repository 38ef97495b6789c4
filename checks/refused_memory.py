#!/usr/bin/env python3
"""Refuses each allocation of two jobs in turn, by the toolchain's `--fail-alloc`, and looks at what comes of it.

    checks/refused_memory.py

It is no part of the gate, where nothing refuses memory. The jobs are

- `edits`: three sessions of edits of `matching_tests`. Where an edit is refused memory, its session is afterwards that of the
  matrix made anew of the places before the edit; then the same edit is made, and all others, and each leaves the rank that it
  is to leave, and the last the matrix that it is to leave. What is refused elsewhere ends for want of memory.
- `searches`: the search of `board_tests` past the size that serial phases search to the end, by one worker and by two in turn.
  Whatever is refused, it ends for want of memory, and never with another matching.

They are compiled once, with checks in place of proofs, as tests of a crate of their own in a copy of the repository. `rt try
--test --fail-alloc N` has the N-th allocation of each test fail. So there are many tests of each job: one makes N - 1 small
allocations first, so that the job's first is refused, the next N - 2, and so on, until one is behind the job's last. It takes a
few minutes, and the last line is `N passed, M failed`.
"""
import os
import re
import shutil
import subprocess
import sys
import tempfile

from kit import ROOT

# Which allocation of a test fails, and how many of a job's first are refused in turn: more than it makes.
REFUSED_AT, TRIED = 1000, 600

# where a job's functions stand, of which the tests are left out; what its own text uses besides; how it is called; and what
# has to come of some refusal at least
JOBS = {
    "edits": ("matching_tests/src/edit_sessions.rt", "use std::process::Abort;", "job::<HostRuntime, Brand>", "and goes on"),
    "searches": ("board_tests/src/searches.rt", "use sp_ports::NoGate;", "job", "want of memory"),
}

NEEDS = (
    "sp_ids bip_defs sp_ports test_gates test_matrices sp_pattern bip_graph hall_witness dm_coarse dm_fine edit_session level_sharing "
    "tree_graft"
)

ALLOCATE = """
fn allocate(alloc: Global, times: u32) -> Result<(), OutOfMemory> {
    for _time in 0..times {
        let _list: Vec<u8> = Vec::with_capacity(alloc, 1)?;
    }
    Ok(())
}
"""

EDITS = """
fn edits_go_on<R: AllocGlobal + Threads + Sync + Abort, L: Ledger>(rt: &R, edits: &Edits<'_>, blank: Blank) -> Result<u32, Fail> {
    let pattern = pattern_of(rt, edits.rows, edits.cols, edits.places)?;
    let mut session = session_of(rt.alloc(), &pattern)?;
    let mut steps = Steps::<L>::new(blank);
    let mut places = Vec::from_slice(rt.alloc(), edits.places)?;
    let (mut number, mut refused) = (0u32, 0u32);
    for (edit, rank) in edits.edits {
        number += 1;
        let after = after_edit(rt.alloc(), places.as_slice(), *edit)?;
        let mut found = make_edit(&mut session, *edit, &mut steps);
        if found.is_err() {
            refused = number;
            assert!(rt; is_from_scratch(rt, &session, places.as_slice())?, "WRONG: another session after the refusal of edit {number}");
            found = make_edit(&mut session, *edit, &mut steps);
        }
        assert!(rt; found? == Some(*rank) && session.rank() == *rank, "WRONG: the rank after edit {number}");
        places = after;
    }
    assert!(rt; is_from_scratch(rt, &session, places.as_slice())?, "WRONG: another session at the end");
    Ok(refused)
}

fn job<R: AllocGlobal + Threads + Sync + Abort, L: Ledger>(rt: &R, first: u32) -> Result<(), Fail> {
    allocate(rt.alloc(), first)?;
    let refused = edits_go_on::<R, L>(rt, &GROWING, Blank::new(1))?;
    assert!(rt; refused == 0, "REFUSED: edit {refused} of the session that grows");
    for number in [1u32, 5] {
        let refused = edits_go_on::<R, L>(rt, &SESSIONS[number as usize], Blank::new(1))?;
        assert!(rt; refused == 0, "REFUSED: edit {refused} of session {number}");
    }
    Ok(())
}
"""

SEARCHES = """
fn job<R: AllocGlobal + Threads + Sync + Abort>(rt: &R, first: u32) -> Result<(), Fail> {
    allocate(rt.alloc(), first)?;
    for workers in [1, 2] {
        assert!(rt; !search(rt, ROWS[0], plan(workers, 0, IN_TURN), &NoGate)?, "WRONG: serial phases");
    }
    Ok(())
}
"""

BODIES = {"edits": EDITS, "searches": SEARCHES}


def without_tests(text):
    """The functions of a file that are no tests."""
    return re.sub(r"(?ms)^(?:// [^\n]*\n)*#\[test\]\nfn .*?^}\n", "", text)


def make_copy(top):
    """Makes a copy of the crates, with one more that has the jobs. Gives its folder."""
    shutil.copytree(f"{ROOT}/crates", f"{top}/crates", ignore=shutil.ignore_patterns("out", "proofs", "must-fail"))
    shutil.copy(f"{ROOT}/HANDLES", top)
    os.mkdir(f"{top}/.git")
    with open(f"{ROOT}/crates.txt", encoding="utf-8") as old, open(f"{top}/crates.txt", "w", encoding="utf-8") as new:
        new.write(f"{old.read()}refused_memory: {NEEDS}\n")
    folder = f"{top}/crates/refused_memory"
    os.makedirs(f"{folder}/src")
    with open(f"{folder}/src/lib.rt", "w", encoding="utf-8") as file:
        file.write("#![tactic(auto)]\n" + "".join(f"\n#[cfg(test)]\nmod {name};\n" for name in JOBS))
    for name, (path, uses, call, _) in JOBS.items():
        with open(f"{ROOT}/crates/{path}", encoding="utf-8") as file:
            text = without_tests(file.read())
        text = re.sub(r"(?m)^use ", f"{uses}\nuse ", text, count=1) + ALLOCATE + BODIES[name]
        for number in range(1, TRIED + 1):
            head = f"#[test]\nfn allocation_{number:03}(rt: HostRuntime) -> Result<(), Fail>"
            text += f"\n{head} {{\n    {call}(&rt, {REFUSED_AT - number})\n}}\n"
        with open(f"{folder}/src/{name}.rt", "w", encoding="utf-8") as file:
            file.write(text)
    return folder


def ends(said):
    """How each test ended, by its job and by which of the job's allocations it refused: `ok`, or what its lines say."""
    found = {}
    for block in re.split(r"(?m)^(?=test )", said):
        test = re.match(r"test (\w+)::allocation_(\d+) \.\.\. (\w+)\n(.*)", block, re.DOTALL)
        if test:
            found[test[1], int(test[2])] = test[3] if test[3] == "ok" else test[4]
    return found


def kind(said):
    """What came of a refusal, in few words, or nothing where it should not have come."""
    if said == "ok":
        return "not reached"
    told = re.search(r"(REFUSED|WRONG): ([^\n\"]*)", said)
    if told:
        return f"{told[2]} is refused, and goes on" if told[1] == "REFUSED" else None
    return "the job ends for want of memory" if re.search(r"AllocError|OutOfMemory|out of memory", said) else None


def look(name, found):
    """Tells what came of the refusals of a job. How many are right, and how many are not."""
    counts, wrong = {}, 0
    for number in range(1, TRIED + 1):
        said = found.get((name, number), "it did not end")
        what = kind(said)
        if what is None:
            wrong += 1
            print(f"{name}, allocation {number}: {said}")
        else:
            counts.setdefault(what, []).append(number)
    for what, numbers in counts.items():
        print(f"{name}: {what}: {len(numbers)}, allocations {numbers[0]} to {numbers[-1]}")
    for words in ("not reached", JOBS[name][3]):
        if not any(words in what for what in counts):
            wrong += 1
            print(f"{name}: there is none: {words}")
    return sum(len(numbers) for numbers in counts.values()), wrong


def main():
    if len(sys.argv) > 1:
        sys.exit(__doc__)
    with tempfile.TemporaryDirectory() as work:
        command = ["rt", "try", "--test", "--fail-alloc", str(REFUSED_AT)]
        how = {"stdin": subprocess.DEVNULL, "stdout": subprocess.PIPE, "stderr": subprocess.STDOUT, "text": True, "errors": "replace"}
        said = subprocess.run(command, cwd=make_copy(work), **how).stdout
    found = ends(said)
    if not found:
        sys.exit(said)
    counts = [look(name, found) for name in JOBS]
    print(f"{sum(right for right, _ in counts)} passed, {sum(wrong for _, wrong in counts)} failed")
    sys.exit(1 if any(wrong for _, wrong in counts) else 0)


if __name__ == "__main__":
    main()
