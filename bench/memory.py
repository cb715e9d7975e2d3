#!/usr/bin/env python3
"""Shows what happens where memory is wanting: runs the program, with each of its growths refused in turn, and again with it and
all later ones refused, over two modules and a script of seven edits under each domain, over a refused file, over a made
program, and with words that form no command. A library that is loaded before the C library counts the calls of malloc, calloc and
realloc and refuses one; it is made anew with the C compiler (cc). Then made programs under less and less memory of any kind.

Each run must write a prefix of what it writes with ample memory, and end with 7, or with the whole output and its status. Prints
how many growths a run has and how many runs had each status; any other run is a fault, and the script's status is 1 then.
A word that is a number tries only each so many-th growth. PLAI names another program than ./plai, which must be one that the kit
has built, and no script.
"""
import collections
import os
import pathlib
import subprocess
import sys
import tempfile

from running import PROGRAM, TOP, Ended, run

REFUSE = r"""
#define _GNU_SOURCE
#include <dlfcn.h>
#include <errno.h>
#include <stdio.h>
#include <stdlib.h>
#include <unistd.h>

static unsigned long calls, first, last;
static void *(*next_malloc)(size_t), *(*next_realloc)(void *, size_t), *(*next_calloc)(size_t, size_t);

__attribute__((constructor)) static void begin(void) {
  next_malloc = dlsym(RTLD_NEXT, "malloc");
  next_realloc = dlsym(RTLD_NEXT, "realloc");
  next_calloc = dlsym(RTLD_NEXT, "calloc");
  first = strtoul(getenv("REFUSE_FIRST"), NULL, 10);
  last = strtoul(getenv("REFUSE_LAST"), NULL, 10);
  calls = 0;
}

static int refused(void) {
  calls++;
  if (calls < first || calls > last) return 0;
  errno = ENOMEM;
  return 1;
}

void *malloc(size_t size) {
  if (!next_malloc) next_malloc = dlsym(RTLD_NEXT, "malloc");
  return refused() ? NULL : next_malloc(size);
}

void *realloc(void *old, size_t size) {
  if (!next_realloc) next_realloc = dlsym(RTLD_NEXT, "realloc");
  return refused() ? NULL : next_realloc(old, size);
}

void *calloc(size_t count, size_t size) {
  if (!next_calloc) return NULL;
  return refused() ? NULL : next_calloc(count, size);
}

__attribute__((destructor)) static void end(void) {
  if (getenv("REFUSE_COUNT")) dprintf(2, "%lu\n", calls);
}
"""
NEVER = 1 << 62
EDITS = b"""del(lists,app/3,1). add(lists,app([],L,L)). add(sort,qsort(bad,_)). del(lists,app/3,9).
check(sort,(success (part(X,_,Y,_):ground(X)) => ground(Y))). all([uncheck(sort,1),drop(lists,app/3)]). foo.
"""
SORT = b""":- module(sort, [qsort/2]).
:- use_module(lists, [app/3]).
:- entry qsort(X, Y) : (ground(X), var(Y)).
:- check success (qsort(X, Y) : ground(X)) => ground(Y).
qsort([], []).
qsort([H|T], S) :- part(T, H, L, G), qsort(L, SL), qsort(G, SG), app(SL, [H|SG], S).
part([], _, [], []).
part([X|Xs], P, [X|L], G) :- X =< P, !, part(Xs, P, L, G).
part([X|Xs], P, L, [X|G]) :- X > P, part(Xs, P, L, G).
"""
FINDALL, LISTS = TOP / "examples" / "findall.pl", TOP / "examples" / "lists.pl"


def library(folder):
    """The path of the library that refuses."""
    source, made = folder / "refuse.c", folder / "refuse.so"
    source.write_text(REFUSE)
    subprocess.run(["cc", "-O1", "-shared", "-fPIC", "-o", made, source], check=True)
    return made


def refusing(loaded, first, last, **more):
    """The environment of a run in which the growths from one number to another are refused."""
    return {**os.environ, "LD_PRELOAD": str(loaded), "REFUSE_FIRST": str(first), "REFUSE_LAST": str(last), **more}


def growths(loaded, words, script):
    """How many growths the run with ample memory has."""
    env = refusing(loaded, NEVER, NEVER, REFUSE_COUNT="1")
    said = subprocess.run([PROGRAM, *words], input=script, capture_output=True, env=env).stderr
    return int(said.split()[-1])


def is_right(ended, whole):
    """Whether a run ended with 7 and a prefix, or as the whole one."""
    return ended == whole or (ended.status == 7 and whole.output.startswith(ended.output))


def refuse_each(loaded, name, words, script, step):
    """Refuses each growth, alone and with all behind it; how many runs were faults."""
    whole, count = run(words, script), growths(loaded, words, script)
    statuses, prefixes, faults = collections.Counter(), set(), 0
    for number in range(1, count + 2, step):
        for last in (number, NEVER):
            ended = run(words, script, env=refusing(loaded, number, last))
            statuses[ended.status] += 1
            prefixes.add(len(ended.output))
            if not is_right(ended, whole):
                faults += 1
                print(f"FAULT: {name}: growths {number} to {last}: status {ended.status}, {ended.output[-80:]!r}")
    said = ", ".join(f"{runs} of status {status}" for status, runs in sorted(statuses.items()))
    print(f"{name}: {count} growths, {sum(statuses.values())} runs: {said}; {len(prefixes)} lengths of output", flush=True)
    return faults


def squeeze(name, words):
    """Runs with less and less memory of any kind, as long as the system can load the program; how many were faults."""
    whole, faults, said = run(words), 0, []
    for megabytes in (4096, 512, 256, 128, 64, 48, 32, 24, 20, 16, 12, 10, 8, 6, 4):
        program = ["prlimit", f"--as={megabytes << 20}", PROGRAM, *words]
        ran = subprocess.run(program, stdin=subprocess.DEVNULL, capture_output=True)
        if ran.returncode == 127:
            break
        ended = Ended(ran.returncode, ran.stdout + ran.stderr)
        said.append(f"{megabytes} MB: status {ended.status}, {len(ended.output)} bytes")
        if not is_right(ended, whole):
            faults += 1
            said[-1] += f", a FAULT: {ended.output[-80:]!r}"
    print(f"{name}: {'; '.join(said)}", flush=True)
    return faults


def cases(folder):
    """Names, words and scripts of runs."""
    sort = folder / "sort.pl"
    sort.write_bytes(SORT)
    both = ["--", str(sort), str(LISTS)]
    yield "edits under groundness", both, EDITS
    yield "edits under sharing", ["--domain", "share", *both], EDITS
    yield "edits at depth 2", ["--domain=depth", "--depth=2", *both], EDITS
    yield "a stop by rows", ["--rows", "1", *both], EDITS
    yield "a refused file", ["--", str(FINDALL)], b""
    yield "a refused script", both, b"add(m,p). 'x"
    yield "no command", ["--rows", "0", "a.pl"], b""
    yield "a made program", ["--make", "2"], b""


def main():
    step, faults = int((sys.argv[1:] or ["1"])[0]), 0
    with tempfile.TemporaryDirectory() as name:
        folder = pathlib.Path(name)
        loaded = library(folder)
        for label, words, script in cases(folder):
            faults += refuse_each(loaded, label, words, script, step)
    faults += squeeze("made programs of 200", ["--make", "200"])
    faults += squeeze("made programs of 30 under sharing", ["--domain", "share", "--make", "30"])
    print(f"{faults} faults")
    return int(faults > 0)


if __name__ == "__main__":
    sys.exit(main())
