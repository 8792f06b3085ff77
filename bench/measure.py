"""Instructions by callgrind, and nanoseconds of interleaved runs."""

import os
import re
import shutil
import subprocess
import sys
import tempfile

COLLECTED = re.compile(r"Collected : (\d+)")
FUNCTION = re.compile(r"^ *[\d,]+ \( *([\d.]+)%\) +[^ ]*?:([^ ]+)(?: \[.*\])?$", re.MULTILINE)


REFUSED = 2  # the status of a program whose library refuses packed strings


class Refused(Exception):
    """A library from before packed strings."""


def have_callgrind():
    return shutil.which("valgrind") is not None


def instructions(command):
    """All instructions of one run of a program."""
    whole = ["valgrind", "--tool=callgrind", "--callgrind-out-file=/dev/null", *command]
    result = subprocess.run(whole, capture_output=True, text=True)
    found = COLLECTED.search(result.stderr)
    if result.returncode == REFUSED:
        raise Refused
    if result.returncode != 0 or found is None:
        raise RuntimeError(" ".join(command) + ": " + result.stderr.strip())
    return int(found.group(1))


def inclusive(command, functions):
    """For each function how often a run of a program calls it, and all instructions of these calls; None where the program finds a difference, fails otherwise or calls none of one."""
    with tempfile.TemporaryDirectory() as folder:
        path = os.path.join(folder, "calls")
        whole = ["valgrind", "--tool=callgrind", "--compress-strings=no", "--compress-pos=no", "--callgrind-out-file=" + path, *command]
        result = subprocess.run(whole, capture_output=True, text=True)
        # a short mixed run may miss answers that the gate's asks for; it is right where nothing differs
        if result.returncode != 0 and ", 0 failures" not in result.stdout:
            print(result.stdout[-1000:] + result.stderr[-1000:], file=sys.stderr)
            return None
        with open(path) as file:
            lines = file.read().splitlines()
    found = {name: [0, 0] for name in functions}
    for callee, calls, cost in zip(lines, lines[1:], lines[2:]):
        name = callee.removeprefix("cfn=")
        if callee.startswith("cfn=") and name in found:
            found[name][0] += int(calls.removeprefix("calls=").split()[0])
            found[name][1] += int(cost.split()[-1])
    return found if all(calls for calls, _ in found.values()) else None


def printed(command):
    """What a program prints."""
    result = subprocess.run(command, capture_output=True, text=True)
    if result.returncode == REFUSED:
        raise Refused
    result.check_returncode()
    return result.stdout


class Driver:
    """The common driver: the same task through each implementation."""

    def __init__(self, program):
        self.program = program
        self.versions = {line.split()[0]: " ".join(line.split()[1:]) for line in printed([program, "names"]).splitlines()}

    def per_field(self, name, task):
        """Instructions per field: the difference of a whole and a half run, so that start, recording and checks cancel."""
        kind, mode, side, entries, fields = task
        rounds = max(16, min(512, 8192 // fields))
        words = [self.program, "count", name, kind, mode, side, str(entries), str(fields), str(rounds)]
        half = rounds // 2
        difference = instructions([*words, str(rounds)]) - instructions([*words, str(half)])
        return difference / ((rounds - half) * fields)

    def lengths(self, name, task, rounds=64):
        """Bytes per field of what is decoded, and of its strings before they are packed."""
        kind, mode, side, entries, fields = task
        words = [self.program, "count", name, kind, mode, side, str(entries), str(fields), str(rounds), "0"]
        return [float(word) / fields for word in printed(words).split()]

    def times(self, task, rounds=1000, passes=21):
        """For each implementation: nanoseconds per field, and the time as a multiple of Kolowrotan's in the same pass."""
        kind, mode, side, entries, fields = task
        words = [self.program, "time", kind, mode, side, str(entries), str(fields), str(rounds), str(passes)]
        return {line.split()[0]: tuple(map(float, line.split()[1:])) for line in printed(words).splitlines()}


class Calls:
    """The program that makes one call of the library again and again on the same memory."""

    def __init__(self, program):
        self.program = program
        self.restoring = {}

    @staticmethod
    def words(place):
        return [str(place.get(name, 0)) for name in ["entries", "deletes", "listed", "horizon", "ready"]]

    def per_round(self, call, place, rounds=100):
        words = [self.program, *self.words(place), call]
        return (instructions([*words, str(2 * rounds)]) - instructions([*words, str(rounds)])) / rounds

    def cost(self, call, **place):
        """Instructions of one call on a memory: what a round has more than one that only restores the memory."""
        none = "none-" + call.split("-")[0]
        if none not in self.restoring:
            self.restoring[none] = self.per_round(none, place)
        return self.per_round(call, place) - self.restoring[none]

    def profile(self, call, function, place, rounds=500):
        """The functions that take the call's instructions, with their shares, largest first."""
        with tempfile.TemporaryDirectory() as folder:
            path = os.path.join(folder, "out")
            program = [self.program, *self.words(place), call, str(rounds)]
            whole = ["valgrind", "--tool=callgrind", "--toggle-collect=" + function, "--callgrind-out-file=" + path, *program]
            subprocess.run(whole, capture_output=True, check=True)
            shown = subprocess.run(["callgrind_annotate", "--auto=no", path], capture_output=True, text=True, check=True).stdout
        return [(name, float(share) / 100) for share, name in FUNCTION.findall(shown)]
