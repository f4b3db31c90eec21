"""What the checks of this folder share: the commands, the files that they find, and runs of the program.

The program is named by PULL, the path of its file, or a line of words that starts it; where PULL isn't set, it is
crates/pull/out/pull, as the gate leaves it."""
import os
import shlex
import shutil
import struct
import subprocess
import sys
import tempfile

HERE = os.path.dirname(os.path.abspath(__file__))
EXAMPLES = os.path.join(HERE, "..", "examples")
BUILT = os.path.join(HERE, "..", "crates", "pull", "out", "pull")
LOG_BYTES = 1 << 20
CRASHED = 99
SLOTS = "pull.slots"
STARTS = (0, 167_772_176)

SCHEDULE = b"feed\ndeliver\nweld\ncut\ncut.saw\nweld.torch\n" * 3


def is_hint(status, error):
    """Whether standard error has what it should: a line that begins with the status, exactly where that isn't 0. A process
    that a signal ended has none."""
    if status <= 0 or status == CRASHED:
        return error == b""
    return error.startswith(b"pull: status %d, " % status) and error.count(b"\n") == 1


def program():
    """The words that start the program."""
    if "PULL" in os.environ:
        return shlex.split(os.environ["PULL"])
    if not os.path.exists(BUILT):
        sys.exit("set PULL to the program's file")
    return [BUILT]


class Command:
    """A command: its words, the files that it finds, and the one that it writes, if any."""

    def __init__(self, words, files, writes=None, before=()):
        self.words = words.split()
        self.files = files
        self.writes = writes
        self.before = before

    def __str__(self):
        return " ".join(self.words)

    def makes_slots(self):
        return "--slots" in self.words and self.words[0] == "run"


STOP = "run forty.toml --stop-after 50 --save forty.ckpt"
SAVE = "run forty.toml --every 50 --slots"

# The words, the files, the file that is written, and the commands that are run before.
COMMANDS = [
    Command("run two-stage.toml", ["two-stage.toml"]),
    Command("run mill.toml", ["mill.toml", "mill-demands.csv", "mill-times.csv"]),
    Command("run assembly.toml --workers 3", ["assembly.toml"]),
    Command("run assembly.toml --room 1 --workers 3", ["assembly.toml"]),
    Command("run assembly.toml --stand --workers 3", ["assembly.toml"]),
    Command(STOP, ["forty.toml"], "forty.ckpt"),
    Command(STOP.replace("50", "120"), ["forty.toml"], "forty.ckpt", [STOP]),
    Command(SAVE, ["forty.toml"], SLOTS),
    Command(SAVE, ["forty.toml"], SLOTS, [SAVE]),
    Command("resume forty.toml forty.ckpt", ["forty.toml"], None, [STOP]),
    Command("resume forty.toml --slots", ["forty.toml"], None, [SAVE]),
    Command("check mill.toml", ["mill.toml", "mill-demands.csv", "mill-times.csv"]),
    Command("replay two-stage.toml jobs.txt", ["two-stage.toml", "jobs.txt"]),
    Command("cycle cell.toml", ["cell.toml"]),
    Command("cards two-stage.toml 5", ["two-stage.toml"]),
    Command("whatif two-stage.toml slow-weld.txt", ["two-stage.toml", "slow-weld.txt"]),
    Command("big 7", []),
    Command("--help", []),
    Command("--version", []),
    Command("run", []),
    Command("cycle mill.toml", ["mill.toml", "mill-demands.csv", "mill-times.csv"]),
    Command("resume two-stage.toml forty.ckpt", ["two-stage.toml", "forty.toml"], None, [STOP]),
]


class Folder:
    """A folder in which commands run."""

    def __init__(self):
        self.path = tempfile.mkdtemp(prefix="hostile-")
        self.log = os.path.join(tempfile.gettempdir(), f"hostile-{os.getpid()}.log")

    def at(self, name):
        return os.path.join(self.path, name)

    def put(self, name, held):
        if name == SLOTS:
            put_slots(self.at(name), held)
        else:
            with open(self.at(name), "wb") as file:
                file.write(held)

    def held(self, name):
        """What a file holds; of the slots their heads and contents. None where it isn't there."""
        if not os.path.exists(self.at(name)):
            return None
        if name == SLOTS:
            return slots_of(self.at(name))
        with open(self.at(name), "rb") as file:
            return file.read()

    def all(self):
        return {name: self.held(name) for name in sorted(os.listdir(self.path))}

    def restore(self, files):
        """Makes the folder hold these files and no others."""
        for name in os.listdir(self.path):
            if name not in files:
                os.remove(self.at(name))
        for name, held in files.items():
            if self.held(name) != held:
                if os.path.exists(self.at(name)):
                    os.remove(self.at(name))
                self.put(name, held)

    def fill(self, command):
        """Makes the folder what the command finds."""
        for name in os.listdir(self.path):
            os.remove(self.at(name))
        for name in command.files:
            if name == "jobs.txt":
                self.put(name, SCHEDULE)
            else:
                shutil.copy(os.path.join(EXAMPLES, name), self.at(name))
        for words in command.before:
            self.run(words.split())

    def run(self, words, shim=None, order=None, timeout=120):
        """Runs the program. Answers its status and what it wrote."""
        env = dict(os.environ)
        env.pop("HOSTILE", None)
        started = program()
        if shim:
            with open(self.log, "wb") as file:
                file.truncate(LOG_BYTES)
            env.update(HOSTILE_LOG=self.log, LD_PRELOAD=shim)
            if order:
                env["HOSTILE"] = order
        done = subprocess.run(started + words, cwd=self.path, env=env, stdout=subprocess.PIPE,
                              stderr=subprocess.PIPE, timeout=timeout)
        if not is_hint(done.returncode, done.stderr):
            return done.returncode, b"STDERR " + done.stderr + done.stdout
        return done.returncode, done.stdout

    def counts(self):
        """How many requests for memory the last run made, and the letters of its calls."""
        with open(self.log, "rb") as file:
            requests, calls = struct.unpack("<QQ", file.read(16))
            return requests, file.read(calls).decode()

    def remove(self):
        shutil.rmtree(self.path)
        if os.path.exists(self.log):
            os.remove(self.log)


def slots_of(path):
    """The head of each slot, and behind it this many bytes of content as it tells."""
    held = []
    with open(path, "rb") as file:
        for start in STARTS:
            file.seek(start)
            head = file.read(16)
            length = int.from_bytes(head[2:10], "big")
            held.append(head + file.read(min(length, 1 << 20)))
    return tuple(held)


def put_slots(path, held):
    with open(path, "wb") as file:
        for start, bytes_ in zip(STARTS, held):
            file.seek(start)
            file.write(bytes_)


def build_shim():
    """Builds the shim, and answers its path."""
    path = os.path.join(tempfile.gettempdir(), f"hostile-{os.getpid()}.so")
    subprocess.run(["gcc", "-shared", "-fPIC", "-O2", "-o", path, os.path.join(HERE, "shim.c")],
                   check=True)
    return path


def is_prefix(front, whole):
    return whole is not None and front is not None and whole.startswith(front)
