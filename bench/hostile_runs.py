"""What the scripts hostile_* have in common: the program under limits, and texts to change."""

import argparse
import glob
import importlib.machinery
import json
import multiprocessing
import os
import resource
import shutil
import subprocess
import sys
import tempfile

sys.dont_write_bytecode = True
HERE = os.path.dirname(os.path.abspath(__file__))
TOP = os.path.dirname(HERE)
PROVED = os.path.join(TOP, "crates", "sopl", "out", "sopl")
MEMORY, STACK = 1024 * 1048576, 8 * 1048576


def words_of(description, **numbers):
    """The words of a script; of each number its quick value and its long one, as name=(quick, long, help)."""
    parser = argparse.ArgumentParser(description=description, formatter_class=argparse.RawDescriptionHelpFormatter)
    parser.add_argument("--program", default=PROVED, help="the built program; the proved one of this repository where nothing is said")
    parser.add_argument("--quick", action="store_true", help="some seconds in place of some minutes")
    parser.add_argument("--seed", type=int, default=1)
    parser.add_argument("--jobs", type=int, default=2, help="how many processes at once")
    parser.add_argument("--cases", action="append", default=[], metavar="FILE", help="a list of objects in JSON whose member files has texts by name: more texts")
    for name, (_, most, told) in numbers.items():
        parser.add_argument("--" + name, type=int, default=None, help="%s; %d where nothing is said" % (told, most))
    words = parser.parse_args()
    for name, (quick, most, _) in numbers.items():
        if getattr(words, name) is None:
            setattr(words, name, quick if words.quick else most)
    words.program = os.path.abspath(words.program)
    if not os.access(words.program, os.X_OK):
        print("%s: no program at %s; ./sopl --build makes the proved one" % (os.path.basename(sys.argv[0]), words.program), file=sys.stderr)
        sys.exit(2)
    return words


def limit(memory=MEMORY):
    """From here on this process, and those that it starts, have so much memory, a stack of 8 MiB and no core."""
    resource.setrlimit(resource.RLIMIT_CORE, (0, 0))
    resource.setrlimit(resource.RLIMIT_STACK, (STACK, resource.getrlimit(resource.RLIMIT_STACK)[1]))
    if memory:
        resource.setrlimit(resource.RLIMIT_AS, (memory, memory))


def run(program, words, seconds=60):
    """The status, below 0 for a signal and `late` for none, and what was printed."""
    try:
        done = subprocess.run([program] + words, stdin=subprocess.DEVNULL, stdout=subprocess.PIPE, stderr=subprocess.DEVNULL, timeout=seconds)
    except subprocess.TimeoutExpired:
        return "late", b""
    return done.returncode, done.stdout


def examples():
    """The texts of examples/ and of bench/texts, by their names."""
    found = []
    for path in sorted(glob.glob(os.path.join(TOP, "examples", "**", "*.sopl"), recursive=True) + glob.glob(os.path.join(HERE, "texts", "*.sopl"))):
        with open(path, "rb") as file:
            found.append((os.path.relpath(path, TOP), file.read()))
    return found


def drawn(seed, count):
    """Random texts of bench/policies, in which elements, `allDifferent` and `cumulative` stand in one another."""
    policies = importlib.machinery.SourceFileLoader("policies", os.path.join(HERE, "policies")).load_module()
    return [("drawn %d" % number, policies.Model(seed * 1000003 + number).text().encode()) for number in range(count)]


def of_cases(paths):
    """The first file of each case that a command reads, each text once."""
    found = {}
    for path in paths:
        with open(path) as file:
            for case in json.load(file):
                model = next((word for word in case["words"][1:] if word in case["files"]), None)
                text = case["files"].get(model)
                if isinstance(text, str) and len(text) < 20000:
                    found.setdefault(text.encode(), "%s" % json.dumps(case["words"]))
    return [(name, text) for text, name in found.items()]


class Folder:
    """A folder for the files of one process, in memory where there is such a place."""

    def __enter__(self):
        self.path = tempfile.mkdtemp(dir="/dev/shm" if os.access("/dev/shm", os.W_OK) else None)
        return self

    def __exit__(self, *_):
        shutil.rmtree(self.path, ignore_errors=True)

    def file(self, name, content=None):
        path = os.path.join(self.path, name)
        if content is not None:
            with open(path, "wb") as file:
                file.write(content)
        return path


def content(path):
    with open(path, "rb") as file:
        return file.read()


def shared(jobs, one, units):
    """What `one` answers for each unit, in some order, by so many processes."""
    if jobs < 2:
        yield from map(one, units)
        return
    with multiprocessing.Pool(jobs) as pool:
        yield from pool.imap_unordered(one, units)


def add(counts, key, number=1):
    counts[key] = counts.get(key, 0) + number


def merged(into, counts):
    for key, number in counts.items():
        add(into, key, number)


def table(counts):
    return "".join("  %7d  %s\n" % (number, key) for key, number in sorted(counts.items(), key=lambda pair: str(pair[0])))
