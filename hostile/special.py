"""What the program does where a name is no plain file, and where it may not use a file or its output.

    PULL=.. python3 special.py

Puts a folder, a device, a pipe, a link, a ring of links or a file without permission in the place of the plant, of the
checkpoint that is written, of the one that is read, of the schedule, and of `pull.slots`; and closes, fills or breaks
standard output, where slots from a run before are to stay good. Prints a line a case, and ends with 1 where one has
another answer than is wanted. Where root runs it, the cases without permission are run by the user NOBODY."""
import os
import subprocess
import sys
import threading

from machine import EXAMPLES, SLOTS, Folder, is_hint, program

NOBODY = 65_534
WAITS = "waits for the other end"
SECONDS = 15

RUN = "run two-stage.toml"
RUN_X = "run x"
STOP = "run forty.toml --stop-after 50 --save x.ckpt"
RESUME = "resume forty.toml x.ckpt"
REPLAY = "replay two-stage.toml x"
SAVE = "run forty.toml --every 50 --slots"
FROM_SLOTS = "resume forty.toml --slots"
DISK, NOTHING = (12, b"disk\n"), (14, b"nothing saved\n")


def held(name):
    with open(os.path.join(EXAMPLES, name), "rb") as file:
        return file.read()


REPORT = 0, held("two-stage.report")


def fault(name):
    return 5, f"store: {name}\n".encode()


def too_long(name):
    return 10, f"too long: {name}\n".encode()


def folder(name):
    return lambda at: os.mkdir(at(name))


def link(name, to):
    return lambda at: os.symlink(to, at(name))


def ring(name):
    def make(at):
        os.symlink(name, at("y"))
        os.symlink("y", at(name))
    return make


def pipe(name):
    return lambda at: os.mkfifo(at(name))


def fed(name, text, endless=False):
    """A pipe into which another thread writes this text, once or until nobody reads."""
    def feed(path):
        try:
            with open(path, "wb") as file:
                file.write(text)
                while endless:
                    file.write(text)
        except BrokenPipeError:
            pass

    def make(at):
        os.mkfifo(at(name))
        threading.Thread(target=feed, args=(at(name),), daemon=True).start()
    return make


def closed_to_all(name, mode, text=b""):
    def make(at):
        with open(at(name), "wb") as file:
            file.write(text)
        os.chmod(at(name), mode)
    return make


def folder_shut(at):
    os.chmod(at(""), 0o555)


def nothing(_):
    pass


# What it is, what is made, the words, and what is wanted: WAITS, or the status and the output, None for any output.
CASES = [
    ("a plant that is a folder", folder("x"), RUN_X, fault("x")),
    ("a plant that is zeros without end", link("x", "/dev/zero"), RUN_X, too_long("x")),
    ("a plant that is the full device", link("x", "/dev/full"), RUN_X, too_long("x")),
    ("a plant that is the null device", link("x", "/dev/null"), RUN_X, (3, b"plant: missing: demands\n")),
    ("a plant that is a ring of links", ring("x"), RUN_X, fault("x")),
    ("a plant that is a link to nothing", link("x", "z"), RUN_X, fault("x")),
    ("a plant that isn't there", nothing, RUN_X, fault("x")),
    ("a plant below a file", nothing, "run two-stage.toml/x", fault("two-stage.toml/x")),
    ("a plant with the longest name", nothing, "run " + "x" * 255, fault("x" * 255)),
    ("a plant that is a link to a plant", link("x", "two-stage.toml"), RUN_X, REPORT),
    ("a plant that is a pipe", fed("x", held("two-stage.toml")), RUN_X, REPORT),
    ("a plant that is a pipe without end", fed("x", b"\n" * 4096, True), RUN_X, too_long("x")),
    ("a plant that is a pipe which nobody writes", pipe("x"), RUN_X, WAITS),
    ("a plant without permission", closed_to_all("x", 0), RUN_X, fault("x")),
    ("a schedule that is a folder", folder("x"), REPLAY, fault("x")),
    ("a schedule that is zeros without end", link("x", "/dev/zero"), REPLAY, too_long("x")),
    ("edits that are a ring of links", ring("x"), "whatif two-stage.toml x", fault("x")),
    ("a checkpoint to write that is a folder", folder("x.ckpt"), STOP, fault("x.ckpt")),
    ("a checkpoint to write that is the full device", link("x.ckpt", "/dev/full"), STOP, fault("x.ckpt")),
    # it can't be synced
    ("a checkpoint to write that is the null device", link("x.ckpt", "/dev/null"), STOP, fault("x.ckpt")),
    ("a checkpoint to write that is a ring of links", ring("x.ckpt"), STOP, fault("x.ckpt")),
    ("a checkpoint to write that is a link to nothing", link("x.ckpt", "z"), STOP, (0, b"stopped 96\n")),
    ("a checkpoint to write that is a pipe which nobody reads", pipe("x.ckpt"), STOP, WAITS),
    # another file takes its place, which asks for a folder that may be written
    ("a checkpoint to write without permission", closed_to_all("x.ckpt", 0o444), STOP, (0, b"stopped 96\n")),
    ("a checkpoint to write in a folder that is shut", folder_shut, STOP, fault("x.ckpt")),
    ("a checkpoint to read that is a folder", folder("x.ckpt"), RESUME, fault("x.ckpt")),
    ("a checkpoint to read that is zeros without end", link("x.ckpt", "/dev/zero"), RESUME, too_long("x.ckpt")),
    ("a checkpoint to read that is the null device", link("x.ckpt", "/dev/null"), RESUME, (7, b"checkpoint: line 1\n")),
    ("a checkpoint to read that is a ring of links", ring("x.ckpt"), RESUME, fault("x.ckpt")),
    ("a checkpoint to read without permission", closed_to_all("x.ckpt", 0), RESUME, fault("x.ckpt")),
    ("slots to write that are a folder", folder(SLOTS), SAVE, DISK),
    ("slots to write that are the full device", link(SLOTS, "/dev/full"), SAVE, DISK),
    ("slots to write that are the null device", link(SLOTS, "/dev/null"), SAVE, DISK),
    ("slots to write that are a ring of links", ring(SLOTS), SAVE, DISK),
    ("slots to write that are a pipe", pipe(SLOTS), SAVE, DISK),
    ("slots to write without permission", closed_to_all(SLOTS, 0o444), SAVE, DISK),
    ("slots to write in a folder that is shut", folder_shut, SAVE, DISK),
    ("slots to read that are a folder", folder(SLOTS), FROM_SLOTS, DISK),
    ("slots to read that are zeros without end", link(SLOTS, "/dev/zero"), FROM_SLOTS, NOTHING),
    ("slots to read that are a ring of links", ring(SLOTS), FROM_SLOTS, DISK),
    ("slots to read that are a link to nothing", link(SLOTS, "z"), FROM_SLOTS, NOTHING),
    ("slots to read that are a pipe", pipe(SLOTS), FROM_SLOTS, DISK),
    ("slots to read without permission to write", closed_to_all(SLOTS, 0o444), FROM_SLOTS, DISK),
    ("slots to read that aren't there", nothing, FROM_SLOTS, NOTHING),
]

# What becomes of standard output, and the words: the status is to be 6.
OUTPUTS = [
    ("closed", RUN),
    ("closed", "--version"),
    ("closed", RUN_X),
    ("closed", STOP),
    ("closed", SAVE),
    ("closed", FROM_SLOTS),
    ("full", RUN),
    ("full", "--help"),
    ("full", STOP),
    ("full", SAVE),
    ("full", FROM_SLOTS),
    ("broken", RUN),
    ("broken", SAVE),
    ("broken", "big 7"),
]


def made(make):
    """A folder with the plants and what the case puts there, open to all."""
    made_in = Folder()
    os.chmod(made_in.path, 0o777)
    for name in "two-stage.toml", "forty.toml":
        made_in.put(name, held(name))
    make(made_in.at)
    return made_in


def answer(made_in, words, user=None):
    """What the words come to: the status and the output, or WAITS."""
    try:
        done = subprocess.run(program() + words.split(), cwd=made_in.path, stdout=subprocess.PIPE,
                              stderr=subprocess.PIPE, timeout=SECONDS, user=user)
    except subprocess.TimeoutExpired:
        return WAITS
    return done.returncode, done.stdout if is_hint(done.returncode, done.stderr) else done.stdout + done.stderr


def status_with(made_in, words, output):
    """The status where standard output is closed, full or broken."""
    if output == "closed":
        return subprocess.run(["sh", "-c", '"$@" >&-', "sh"] + program() + words.split(), cwd=made_in.path).returncode
    if output == "full":
        with open("/dev/full", "wb") as full:
            return subprocess.run(program() + words.split(), cwd=made_in.path, stdout=full).returncode
    reads, writes = os.pipe()
    os.close(reads)
    status = subprocess.run(program() + words.split(), cwd=made_in.path, stdout=writes).returncode
    os.close(writes)
    return status


def is_wrong(title, answered, wanted):
    """Prints the line of a case. Answers whether it was answered otherwise than is wanted."""
    fits = answered == wanted
    print(f"{'ok   ' if fits else 'WRONG'} {title}: {answered if fits else f'{answered}, wanted {wanted}'}", flush=True)
    return not fits


def main():
    wrong = 0
    for title, make, words, wanted in CASES:
        made_in = made(make)
        user = NOBODY if os.getuid() == 0 and ("permission" in title or "shut" in title) else None
        wrong += is_wrong(f"{title}: {words[:60]}", answer(made_in, words, user), wanted)
        os.chmod(made_in.path, 0o777)
        made_in.remove()
    for output, words in OUTPUTS:
        made_in = made(nothing)
        answer(made_in, SAVE)
        before = made_in.held(SLOTS)
        wrong += is_wrong(f"output {output}: {words}", status_with(made_in, words, output), 6)
        if words == SAVE:
            same = answer(made_in, FROM_SLOTS) == answer(made_in, "run forty.toml")
        else:
            same = made_in.held(SLOTS) == before
        wrong += is_wrong(f"output {output}: {words}: slots stay good", same, True)
        made_in.remove()
    print(f"{len(CASES) + 2 * len(OUTPUTS)} cases, {wrong} wrong")
    sys.exit(1 if wrong else 0)


main()
