#!/usr/bin/env bash
# Runs the gate, `rt ci`, and prints what it spent: for each crate the processor seconds of its proof, of its tests'
# proof and of each must-fail edit, and the most megabytes that a check of it took. Words are handed on, so
# `bench/gate.sh plai_terms` measures that crate and those below it, and `bench/gate.sh --anew` all from nothing; without
# it only what changed is proved, and the table has only that. It looks at the running checks twice a second, so each
# figure may be half a second short. The gate's own output goes to the file $GATE_LOG (standard error, if unset).
set -u
cd "$(dirname "$0")/.." || exit 1
exec python3 - "$@" << 'PYTHON'
import collections, os, pathlib, subprocess, sys, time

TICKS = os.sysconf("SC_CLK_TCK")
PAGE = os.sysconf("SC_PAGE_SIZE")


def edits_of(crate):
    """The must-fail edits of a crate: name, file, and the first old and new text."""
    found = []
    for path in sorted(pathlib.Path("crates", crate, "must-fail").glob("*.edit")):
        lines = path.read_text().splitlines()
        first = lambda word: next(it[len(word):].strip() for it in lines if it.startswith(word))
        found.append((path.stem, first("file:"), first("old:"), first("new:")))
    return found


def edit_in(crate, folder):
    """The name of the edit that was applied in a copy of a crate, or None in a copy without one."""
    for name, file, old, new in edits_of(crate):
        try:
            text = pathlib.Path(folder, file).read_text()
        except OSError:
            return None
        if new in text and (old not in text or old in new):
            return name
    return None


def is_below(pid, above):
    """Whether a process was begun by another, or by one that it began."""
    while pid not in ("0", str(above)):
        pid = pathlib.Path("/proc", pid, "stat").read_text().rsplit(")", 1)[1].split()[1]
    return pid != "0"


def process(pid, gate):
    """What a running check of the gate is of, and its seconds and bytes so far; None for any other process."""
    words = pathlib.Path("/proc", pid, "cmdline").read_text().split("\0")
    if not words[0].endswith("/rattle") or "--crate-name" not in words:
        return None
    fields = pathlib.Path("/proc", pid, "stat").read_text().rsplit(")", 1)[1].split()
    parent = pathlib.Path("/proc", fields[1], "cmdline").read_text()
    if parent.split("\0")[0].endswith("/rattle") or not is_below(pid, gate):
        return None
    crate = words[words.index("--crate-name") + 1]
    folder = os.readlink(f"/proc/{pid}/cwd")
    edit = edit_in(crate, folder) if "rt-edit" in folder else None
    kind = edit or ("seed" if "rt-edit" in folder else "tests" if "--test" in words else "proof")
    seconds = sum(int(it) for it in fields[11:15]) / TICKS
    return (pid, fields[19]), crate, kind, seconds, int(fields[21]) * PAGE


def watch(gate):
    """Looks at the checks until the gate has ended; gives for each crate and kind its seconds and bytes."""
    seen = {}
    while gate.poll() is None:
        for pid in filter(str.isdigit, os.listdir("/proc")):
            try:
                found = process(pid, gate.pid)
            except (OSError, ValueError):
                continue
            if found:
                key, crate, kind, seconds, size = found
                old = seen.get(key, (crate, kind, 0, 0))
                # (a copy is made before its edit is applied)
                kind = kind if kind != "seed" else old[1]
                seen[key] = crate, kind, max(seconds, old[2]), max(size, old[3])
        time.sleep(0.5)
    return seen.values()


def main():
    log = open(os.environ["GATE_LOG"], "w") if "GATE_LOG" in os.environ else sys.stderr
    begun = time.time()
    gate = subprocess.Popen(["rt", "ci", *sys.argv[1:]], stdout=log, stderr=log, stdin=subprocess.DEVNULL)
    seconds, sizes = collections.defaultdict(lambda: collections.defaultdict(float)), collections.defaultdict(int)
    for crate, kind, spent, size in watch(gate):
        seconds[crate][kind] += spent
        sizes[crate] = max(sizes[crate], size)
    print(f"{'crate':20} {'proof':>7} {'tests':>7} {'seed':>7} {'edits':>7} {'all':>7} {'MB':>6}")
    whole = 0.0
    for crate in sorted(seconds, key=lambda it: -sum(seconds[it].values())):
        kinds = seconds[crate]
        edits = {it: spent for it, spent in kinds.items() if it not in ("proof", "tests", "seed")}
        spent = [kinds["proof"], kinds["tests"], kinds["seed"], sum(edits.values())]
        whole += sum(spent)
        print(f"{crate:20} " + " ".join(f"{it:7.0f}" for it in [*spent, sum(spent)]) + f" {sizes[crate] >> 20:6}")
        for edit, it in sorted(edits.items(), key=lambda pair: -pair[1]):
            print(f"    {edit} {it:.0f}")
    print(f"all: {whole:.0f} processor seconds in {time.time() - begun:.0f} seconds")
    return gate.returncode


sys.exit(main())
PYTHON
