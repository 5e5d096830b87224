"""What `bench/world` and `bench/check` share: the least time and memory of five calls, by this program and by another in turn.

VSYNC may name another program than the one that `launch/built` prints. OTHER may name one to compare with, for instance that of an earlier commit; what
is printed then has also what this program took over what the other took."""
import os
import pathlib
import subprocess
import sys
import time

ROOT = pathlib.Path(__file__).resolve().parent.parent
RUNS = 5


def built():
    """The program that VSYNC names, else the one that ./vsync runs: the proved one, or the standard error says that it is not."""
    return os.environ.get("VSYNC") or subprocess.run([ROOT / "launch/built"], stdout=subprocess.PIPE, text=True, check=True).stdout.strip()


def programs():
    """This program, and the one to compare with where there is one."""
    return [built()] + [os.environ[name] for name in ["OTHER"] if os.environ.get(name)]


def once(words, output):
    """One call, with its output to a file: its seconds, and the most kilobytes that it had."""
    with open(output, "wb") as file:
        begun = time.monotonic()
        process = subprocess.Popen(words, stdin=subprocess.DEVNULL, stdout=file)
        _, status, used = os.wait4(process.pid, 0)
        spent = time.monotonic() - begun
    process.returncode = os.waitstatus_to_exitcode(status)
    if process.returncode:
        sys.exit(f"{' '.join(words)}: status {process.returncode}")
    return spent, used.ru_maxrss


class Least:
    """The least seconds and kilobytes of five calls of each program, in turn; what the first of them printed stands in `output`. Behind the programs the words of other calls may
    be given, that are made in the same turns; their figures are the last."""

    def __init__(self, words, output, *others):
        calls = [[program, *words] for program in programs()]
        self.programs = len(calls)
        called = [[once(call, output if this == 0 else os.devnull) for this, call in enumerate([*calls, *others])] for _ in range(RUNS)]
        self.seconds = [min(call[0] for call in calls) for calls in zip(*called)]
        self.kilobytes = [min(call[1] for call in calls) for calls in zip(*called)]

    def beside(self):
        """The ratios to the other program, where there is one."""
        if self.programs == 1:
            return ""
        (time_here, time_there), (here, there) = self.seconds[:2], self.kilobytes[:2]
        return f"; {time_here / time_there:.2f} of the other's time, {here / there:.2f} of its memory"
