#!/usr/bin/env python3
"""Shows that each limit is met where it is said to be, and that what stands behind it is as if it hadn't been met: rows, groups,
slots, arguments of predicates and compounds, items of a program, levels of terms, numbers.

A case is a program and edits, each with the program that it makes, and with the line that its block has where it is refused or
stopped. The program runs once over the first with all edits as its script, and once over each program that an edit makes, as a
file; each block must have just the lines of that fresh run. So behind a stop or a refusal the analysis is as one from nothing.
Prints a line for each case; a block that differs is a fault, and the script's status is 1 then. PLAI names another program than ./plai.
"""
import pathlib
import sys
import tempfile
import typing

from running import run

HEAD = ":- module(m, []).\n"


class Step(typing.NamedTuple):
    """An edit, the line that refuses or stops it, or none, and the clauses of the program behind it."""

    edit: str
    line: typing.Optional[str]
    clauses: list


class Case(typing.NamedTuple):
    """Words, the clauses of a program with the line that stops its analysis, or none, and edits."""

    name: str
    words: list
    line: typing.Optional[str]
    clauses: list
    steps: list


def arguments(count, name="A"):
    return ",".join(f"{name}{number}" for number in range(count))


def rows(limit):
    """A chain of predicates as long as the limit, one more, and one less again; then a whole new one in its place."""
    chain = [":- entry p0(X).", *(f"p{i}(X) :- p{i + 1}(X)." for i in range(limit - 1)), f"p{limit - 1}(a)."]
    longer = [*chain, f"p{limit - 1}(X) :- p{limit}(X)."]
    most = f"stopped rows {limit}"
    steps = [
        Step(f"add(m,(p{limit - 1}(X) :- p{limit}(X))).", most, longer),
        Step(f"add(m,p{limit}(b)).", most, [*longer, f"p{limit}(b)."]),
        Step(f"del(m,p{limit - 1}/1,2).", None, [*chain, f"p{limit}(b)."]),
        Step(f"add(m,(p{limit - 1}(X) :- p0(X), q(X))).", most, [*chain, f"p{limit}(b).", f"p{limit - 1}(X) :- p0(X), q(X)."]),
        Step("del(m,none/0,1).", "refused no_such_clause 1 0", [*chain, f"p{limit}(b).", f"p{limit - 1}(X) :- p0(X), q(X)."]),
        Step("drop(m,p1/1).", None, [it for it in chain if not it.startswith("p1(")] + [f"p{limit}(b).", f"p{limit - 1}(X) :- p0(X), q(X)."]),
    ]
    return Case(f"{limit} rows", ["--rows", str(limit)], None, chain, steps)


def groups():
    """A goal of 17 new variables, whose closure is too large, and of 16, whose closure isn't."""
    large, small = f"p :- q(f({arguments(17)})).", f"p :- q(f({arguments(16)}))."
    most = "stopped groups 65536"
    steps = [
        Step("drop(m,q/1).", None, [":- entry p.", large]),
        Step("add(m,q(_)).", most, [":- entry p.", large, "q(_)."]),
        Step("del(m,p/0,1).", None, [":- entry p.", "q(_)."]),
        Step(f"add(m,({small[:-1]})).", None, [":- entry p.", "q(_).", small]),
        Step(f"add(m,({large[:-1]})).", most, [":- entry p.", "q(_).", small, large]),
        Step("add(m,q(a)).", most, [":- entry p.", "q(_).", small, large, "q(a)."]),
        Step("all([del(m,p/0,2),del(m,q/1,1)]).", None, [":- entry p.", small, "q(a)."]),
    ]
    return Case("65,536 groups", ["--domain", "share"], most, [":- entry p.", large, "q(_)."], steps)


def refusals(name, clauses, accepted, refused, cause):
    """A clause that just keeps a limit, and one that is just over it."""
    steps = [
        Step(f"add(m,({refused})).", f"refused {cause}", clauses),
        Step(f"add(m,({accepted})).", None, [*clauses, f"{accepted}."]),
        Step(f"add(m,({refused})).", f"refused {cause}", [*clauses, f"{accepted}."]),
        Step("add(m,p(b)).", None, [*clauses, f"{accepted}.", "p(b)."]),
    ]
    return Case(name, [], None, clauses, steps)


def items():
    """As many clauses and entries as a program may have, and one more."""
    clauses = [":- entry p(X).", *(f"p({number})." for number in range(65_535))]
    steps = [
        Step("add(m,p(a)).", "refused too_many_items", clauses),
        Step("entry(m,p(_)).", "refused too_many_items", clauses),
        Step("check(m,(calls p(X) : ground(X))).", "refused too_many_items", clauses),
        Step("del(m,p/1,1).", None, [clauses[0], *clauses[2:]]),
        Step("all([add(m,p(a)),add(m,p(b))]).", "refused too_many_items", [clauses[0], *clauses[2:]]),
        Step("add(m,p(_)).", None, [clauses[0], *clauses[2:], "p(_)."]),
    ]
    return Case("65,536 items", [], None, clauses, steps)


def cases():
    plain = [":- entry p(X).", "p(a)."]
    yield from map(rows, (2, 3, 20, 199))
    yield groups()
    slots = f"p(f({arguments(63)}))"
    yield refusals("64 slots", plain, slots, f"p(f({arguments(64)}))", "too_many_slots 65")
    yield refusals("16 arguments", plain, f"q({arguments(16)})", f"q({arguments(17)})", "pred_arity 17")
    yield refusals("16 arguments of a goal", plain, f"p(X) :- q({arguments(16)})", f"p(X) :- q({arguments(17)})", "pred_arity 17")
    wide = ",".join("a" * 254)
    yield refusals("255 arguments", plain, f"p(f(a,{wide}))", f"p(f(a,a,{wide}))", "term_arity")
    yield refusals("2,000 levels", plain, "f(" * 1998 + "a" + ")" * 1998, "f(" * 1999 + "a" + ")" * 1999, "too_deep")
    yield items()


def blocks(ended):
    """The lines of each block, without its first."""
    return [block.split(b"\n")[1:] for block in ended.output.split(b"edit ")[1:]]


def fresh(folder, words, clauses):
    """The lines of a run over these clauses alone."""
    path = folder / "fresh.pl"
    path.write_text(HEAD + "\n".join(clauses) + "\n")
    found = blocks(run([*words, "--", str(path)]))
    return found[0] if found else []


def differences(case, folder):
    """What is wrong with a case's blocks."""
    path = folder / "first.pl"
    path.write_text(HEAD + "\n".join(case.clauses) + "\n")
    ended = run([*case.words, "--", str(path)], "\n".join(step.edit for step in case.steps).encode())
    found = blocks(ended)
    if ended.status != 1 or len(found) != len(case.steps) + 1:
        yield f"status {ended.status} and {len(found)} blocks"
    for number, (block, step) in enumerate(zip(found, [Step("", case.line, case.clauses), *case.steps])):
        if step.line is not None and block[0] != step.line.encode():
            yield f"edit {number}: {block[0][:60]!r}"
        is_refused = step.line is not None and step.line.startswith("refused")
        if not is_refused and block != fresh(folder, case.words, step.clauses):
            yield f"edit {number}: not as a fresh run"


def main():
    faults = 0
    with tempfile.TemporaryDirectory() as folder:
        for case in cases():
            wrong = list(differences(case, pathlib.Path(folder)))
            faults += len(wrong)
            print(f"{case.name}: {len(case.steps) + 1} blocks", *(f"a FAULT: {it}" for it in wrong), sep="; ", flush=True)
    print(f"{faults} faults")
    return int(faults > 0)


if __name__ == "__main__":
    sys.exit(main())
