#!/usr/bin/env python3
"""Measures what an edit costs beside the analysis of the loaded program: bench/edits.py [PLAI] [DOMAIN..]

Two programs of N predicates of two arguments, p(f(X),X). and p(X,Y) :- q(X,Z), r(Z,Y)., with one entry:

  forest   each p calls two later predicates near to it, so calls lead from few rows to what an edit changes
  drawn    q and r are drawn from all, so calls lead from nearly every row to it, as in a program of --make

The script has E edits, which in turn take away the first clause of a drawn predicate and add it again as the last, and then
as many that are quiet: of a predicate that nothing calls. The program writes a block before it begins the next edit, so the
time of an edit is that between the lines `end` of two blocks; it has the writing of the block in it. For each program and domain a line: the milliseconds of the loaded
program's analysis with its reading, of an edit (median, greatest), of a quiet edit (median), and the quotient.
"""
import os, pathlib, random, statistics, subprocess, sys, tempfile, time


def clauses(count, far):
    """The two clauses of each of that many predicates; each calls two others, drawn from all or from the next few."""
    draw = random.Random(1)
    found = []
    for number in range(count):
        near = range(number + 1, min(count, number + 9))
        q, r = (draw.randrange(count), draw.randrange(count)) if far or len(near) < 2 else draw.sample(near, 2)
        found.append([f"p{number}(f(X),X)", f"(p{number}(X,Y):-p{q}(X,Z),p{r}(Z,Y))"])
    return found


def program(found):
    """The program of these clauses, and of one predicate that nothing calls."""
    lines = [":- module(m, [p0/2]).", ":- entry p0(X, Y) : ground(X)."]
    lines += [f"{clause[1:-1] if clause.startswith('(') else clause}." for pair in found for clause in pair]
    return "\n".join([*lines, "alone(a).", ""])


def script(found, edits):
    """That many edits of drawn predicates, and as many quiet ones."""
    draw = random.Random(2)
    lines, left = [], [list(pair) for pair in found]
    for _ in range(edits // 2):
        number = draw.randrange(len(left))
        first = left[number].pop(0)
        left[number].append(first)
        lines += [f"del(m,p{number}/2,1).", f"add(m,{first})."]
    lines += ["add(m,alone(b)).", "del(m,alone/1,2)."] * (edits // 2)
    return "\n".join([*lines, ""])


def times(plai, domain, text, edits):
    """The milliseconds up to the end of each block since that of the one before."""
    with tempfile.TemporaryDirectory() as folder:
        path = pathlib.Path(folder, "m.pl")
        path.write_text(text)
        pathlib.Path(folder, "edits").write_text(edits)
        with open(pathlib.Path(folder, "edits"), "rb") as given:
            begun = time.perf_counter()
            run = subprocess.Popen([plai, "--domain", domain, path], stdin=given, stdout=subprocess.PIPE)
            found, left = [], b"\n"
            while part := os.read(run.stdout.fileno(), 1 << 20):
                now = time.perf_counter()
                *ended, left = (left + part).replace(b"\nend\n", b"\nend\n\n").split(b"\nend\n")
                if ended:
                    # (blocks that come at once share their time)
                    found += [(now - begun) * 1000 / len(ended)] * len(ended)
                    begun = now
            if run.wait() not in (0, 1):
                sys.exit(f"status {run.returncode}")
    return found


def main(plai="crates/plai/out/plai", *domains):
    print("domain  program  predicates     load     edit  greatest    quiet  load/edit  load/quiet")
    for domain in domains or ("ground", "share", "depth"):
        for name, far in (("forest", False), ("drawn", True)):
            for count in (100, 500, 2000):
                edits = 200 if count > 500 else 1000
                pairs = clauses(count, far)
                found = times(plai, domain, program(pairs), script(pairs, edits))
                load, changed, quiet = found[0], found[1:edits + 1], found[edits + 1:]
                edit, still = statistics.median(changed), statistics.median(quiet)
                print(f"{domain:7} {name:8} {count:10} {load:8.2f} {edit:8.3f} {max(changed):9.2f} {still:8.3f} {load / edit:10.1f} {load / still:11.1f}", flush=True)


main(*sys.argv[1:])
