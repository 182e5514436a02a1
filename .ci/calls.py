"""The calls with which the checks of outside faults try the program, a row for each command and each way of a run, and how
they are made. What they write was worked out by hand from docs/language.md.
"""
import collections
import os
import subprocess
import sys
import tempfile

TOP = os.path.join(os.path.dirname(os.path.abspath(__file__)), "..")
PROGRAM = os.path.abspath(os.path.join(TOP, "crates/ffrun/out/ffrun"))

NETWORK = "pipe(add 1 1, ofarm 2 rr (mul 1 2), id)"

# Its words, what it reads (None where it reads nothing), writes and tells, and whether it starts threads. A command is a row more.
Call = collections.namedtuple("Call", "words given out told threads")


def run_of(*words):
    by_threads = "--one" not in words and "--sweep" not in words
    return Call(["run", *words], b"1\nx\n2\n", b"4\n6\n", b"ffrun: 1 rejected\n", by_threads)


WAYS = ([], ["--cap", "1"], ["--one"], ["--sweep"])
CALLS = [
    *(run_of(*way, *kept, NETWORK) for way in WAYS for kept in ([], ["--rejects", "kept"])),
    run_of("-f", "net.txt"),
    run_of("--one", "--rejects", "kept", "-f", "net.txt"),
    Call(["check", NETWORK], None, NETWORK.encode() + b"\n", b"", False),
    Call(["plan", "-f", "one.txt"], None, b"0 stage 0 > 1 : add 1 5\n", b"", False),
    Call(["mdf", "q r = divmod 7 2; out q r", "--workers", "4"], None, b"q\t3\nr\t1\n", b"", True),
    Call(["soak", "3", "--workers", "2"], None, b"records 3\nkeys 3\ntotal 5106\n", b"", True),
]

# What the file of --rejects holds before a call, and behind one that came to its end.
OLD, NEW = b"old\n", b"x\n"

PIPES = {"stdin": subprocess.PIPE, "stdout": subprocess.PIPE, "stderr": subprocess.PIPE}
# How long a call may take, in seconds: some hundred times what it takes.
LIMIT = 60


def ended(ran, given=None):
    """The status of a process that was begun, None where it doesn't end in time, and what it writes and tells."""
    try:
        out, told = ran.communicate(given, timeout=LIMIT)
    except subprocess.TimeoutExpired:
        ran.kill()
        return None, *ran.communicate()
    return ran.returncode, out or b"", told or b""


class Tries:
    """Tries calls in a folder of their own, and counts those that end otherwise than they should."""

    def __init__(self):
        self.tried = self.failed = 0
        self.program = PROGRAM
        subprocess.run([os.path.join(TOP, "ffrun"), "check", "id"], stdout=subprocess.DEVNULL, check=True)
        self.room = tempfile.TemporaryDirectory()
        self.folder = self.room.name
        for name, held in (("net.txt", NETWORK.encode()), ("one.txt", b"add 1 5"), ("kept", OLD)):
            self.put(name, held)

    def put(self, name, held):
        with open(os.path.join(self.folder, name), "wb") as file:
            file.write(held)

    def held(self, name="kept"):
        with open(os.path.join(self.folder, name), "rb") as file:
            return file.read()

    def expect(self, what, found, wanted):
        self.tried += 1
        if found != wanted:
            self.failed += 1
            print("%s:\n  %s\n  and not %s" % (what, shown(found), shown(wanted)), flush=True)

    def command(self, words, around="", **how):
        """How a process is made, with redirections around it, or with a line that a shell does before it, which ends in `;`."""
        before, behind = (around, "") if around.endswith(";") else ("", around)
        shell = ["bash", "-c", '%s exec "$@" %s' % (before, behind), "-"] if around else []
        return {"args": [*shell, self.program, *words], "cwd": self.folder, **how}

    def ends(self, words, given=None, around="", **how):
        """The status of a call, what it wrote, told, and what the file of --rejects holds, which is as of old before."""
        self.put("kept", OLD)
        pipes = {**PIPES, "stdin": subprocess.DEVNULL} if given is None else PIPES
        with subprocess.Popen(**self.command(words, around, **{**pipes, **how})) as ran:
            return *ended(ran, given), self.held()

    def well(self, call):
        """How a call ends that nothing disturbs."""
        return 0, call.out, call.told, NEW if "--rejects" in call.words else OLD

    def end(self, told):
        print("%s: %d tried, %d failed" % (told, self.tried, self.failed))
        self.room.cleanup()
        return 1 if self.failed or not self.tried else 0


def shown(found):
    text = repr(found)
    return text if len(text) < 400 else text[:200] + " .. " + text[-200:]


def main(check, told):
    tries = Tries()
    check(tries)
    sys.exit(tries.end(told))
