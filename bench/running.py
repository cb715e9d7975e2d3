"""For scripts that run the built program: PLAI names it, else ./plai at the top builds it first."""
import os
import pathlib
import resource
import subprocess
import typing

TOP = pathlib.Path(__file__).resolve().parent.parent
PROGRAM = os.environ.get("PLAI", str(TOP / "plai"))


class Ran(typing.NamedTuple):
    """How a run ended. Seconds are the processor's, so that a busy machine counts less; the memory is the greatest that it had, or
    that of the script which started it, if that is more."""

    status: int
    seconds: float
    megabytes: int


class Ended(typing.NamedTuple):
    """How a run ended, and what it wrote."""

    status: int
    output: bytes


def measured(words, script, output, megabytes=6_000):
    """Runs the program over these words, a script's path and a path for its output, with at most so many megabytes."""

    def confine():
        resource.setrlimit(resource.RLIMIT_AS, (megabytes << 20, megabytes << 20))

    with open(script, "rb") as given, open(output, "wb") as taken:
        program = subprocess.Popen([PROGRAM, *words], stdin=given, stdout=taken, stderr=taken, preexec_fn=confine)
        _, ended, used = os.wait4(program.pid, 0)
        program.returncode = os.waitstatus_to_exitcode(ended)
        return Ran(program.returncode, used.ru_utime + used.ru_stime, used.ru_maxrss >> 10)


def run(words, script=b"", seconds=120, **how):
    """Runs the program over these words and a script. A run that takes too long ends with the status 124."""
    try:
        ran = subprocess.run([PROGRAM, *words], input=script, capture_output=True, timeout=seconds, **how)
    except subprocess.TimeoutExpired as stopped:
        return Ended(124, stopped.stdout or b"")
    return Ended(ran.returncode, ran.stdout + ran.stderr)


def fault(ended):
    """Why a run over readable files, a script and an open output with ample memory didn't end in a defined way, or none."""
    status, output = ended
    lines = output.split(b"\n")
    if status == 4:
        return "output at status 4" if output else None
    if status == 3:
        return None if output.startswith(b"refused ") and len(lines) == 2 and not lines[1] else "no one line at status 3"
    if status not in (0, 1):
        return f"status {status}"
    if lines[0] != b"edit 0" or lines[-2:] != [b"end", b""]:
        return "no whole blocks"
    short = any(line.startswith((b"refused ", b"stopped ")) for line in lines)
    return None if short == (status == 1) else f"status {status} beside the lines"
