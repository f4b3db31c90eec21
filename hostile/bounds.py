"""What a file may cost: files of many shapes, each as long as it may be, through the command that reads it.

    PULL=.. python3 bounds.py [WORD [SHARE]]

Makes each file in turn (of those whose name has WORD in it), runs its command, and prints a line: the name, the length,
the status, the seconds of processor time, the most memory in MB, and the line that was written. With SHARE a file has this
part of its limit: 16 makes files of 4 MiB, which tell what the long ones would cost without taking the machine: with all
but a few shapes the cost is in proportion. No run gets more than CEILING bytes of memory: one that would need more answers
with status 9, and `ulimit -v` may set a lower one. Figures below 16 MB are this script's own. Ends with 1 where a run took
more than SECONDS or MEGABYTES, or came to no answer."""
import os
import random
import resource
import shutil
import sys
import tempfile

from machine import program

SHARE = int(sys.argv[2]) if len(sys.argv) > 2 else 1
FILE = 67_108_864 // SHARE
CHECKPOINT = 167_772_160 // SHARE
SECONDS = 20
MEGABYTES = 1000
CEILING = 6_000_000_000

TOP = b'policy = "kanban"\n'
STAGE = b'[[stage]]\nname = "a"\ncards = 1\n[[stage.machine]]\nname = "m"\ntime = 1\n'
PLANT = TOP + b"demands = [0]\n" + STAGE


def filled(front, unit, back=b"", length=FILE):
    """A front, as many whole units as fit, and a back; spaces up to the length where nothing else is possible."""
    count = (length - len(front) - len(back)) // len(unit)
    return front + unit * count + back


def numbered(front, unit, back=b"", length=FILE):
    """A front, units with the numbers 0, 1, .. in the place of #, as many as fit, and a back."""
    before, after = unit.split(b"#")
    parts, size, number = [front], len(front) + len(back), 0
    while True:
        part = b"%s%x%s" % (before, number, after)
        size += len(part)
        if size > length:
            return b"".join(parts) + back
        parts.append(part)
        number += 1


def nested(front, opening, middle, closing, back=b""):
    depth = (FILE - len(front) - len(middle) - len(back)) // (len(opening) + len(closing))
    return front + opening * depth + middle + closing * depth + back


def noise(length=FILE, seed=1):
    block = random.Random(seed).randbytes(1 << 20)
    return (block * (length // len(block) + 1))[:length]


def text_noise():
    draw = random.Random(2)
    block = bytes(draw.choice(b'[]{}="\'#.,\n a0_-\\') for _ in range(1 << 20))
    return block * (FILE // len(block))


TOML = {
    "spaces": lambda: b" " * FILE,
    "line feeds": lambda: b"\n" * FILE,
    "one comment": lambda: PLANT + filled(b"#", b"x", b"\n", FILE - len(PLANT)),
    "comments": lambda: filled(PLANT, b"#\n"),
    "noise": noise,
    "noise of toml": text_noise,
    "zeros": lambda: b"\0" * FILE,
    "a long string": lambda: filled(b'policy = "', b"a", b'"\n'),
    "a long string of escapes": lambda: filled(b'policy = "', b"\\u0061", b'"\n'),
    "a long string of many lines": lambda: filled(b'policy = """', b"\n", b'"""\n'),
    "a long string without an end": lambda: filled(b'policy = "', b"a"),
    "a long key": lambda: filled(b"", b"a", b" = 0\n"),
    "a long key in quotes": lambda: filled(b'"', b"\\n", b'" = 0\n'),
    "a long number": lambda: filled(b"cards = ", b"1", b"\n"),
    "a long number with underscores": lambda: filled(b"cards = 1", b"_1", b"\n"),
    "many keys": lambda: numbered(b"", b"a# = 0\n"),
    "many keys of the shortest form": lambda: numbered(b"", b"#=0\n"),
    "many keys in a table": lambda: numbered(b"[[stage]]\n", b"#=0\n"),
    "many keys in an inline table": lambda: numbered(b"stage = [{", b"#=0,", b"z=0}]"),
    "many tables": lambda: numbered(b"", b"[#]\n"),
    "many dotted keys": lambda: numbered(b"", b"#.a=0\n"),
    "a key given twice": lambda: filled(b"a=0\n", b"a=0\n"),
    "many stages": lambda: filled(TOP, b"[[stage]]\n"),
    "many stages, all of the form": lambda: TOP + b"demands = [0]\n" + filled(
        b"", STAGE.replace(b'"a"\n', b'"a"\nfeeds = "b"\n'), STAGE, FILE - 50),
    "many stages with names": lambda: numbered(TOP + b"demands=[0]\n", b'[[stage]]\nname="a#"\n'),
    "many inline stages": lambda: filled(TOP + b"stage = [", b"{},", b"{}]\n"),
    "many machines": lambda: filled(PLANT, b"[[stage.machine]]\n"),
    "many inline machines": lambda: filled(TOP + b'stage = [{name="a",machine=[', b"{},", b"{}]}]\n"),
    "many machines with names": lambda: numbered(PLANT, b'[[stage.machine]]\nname="b#"\n'),
    "many loops": lambda: filled(PLANT, b"[[loop]]\n"),
    "many inline loops": lambda: b"loop = [" + filled(b"", b"{},", b"{}]\n" + PLANT, FILE - 8),
    "many demands": lambda: filled(TOP + b"demands = [", b"0,", b"0]\n" + STAGE),
    "many demands of the greatest date": lambda: filled(TOP + b"demands = [", b"1000000000000,", b"0]\n" + STAGE),
    "many demands without an end": lambda: filled(TOP + b"demands = [", b"0,"),
    "many observe dates": lambda: b"observe = [" + filled(b"", b"0,", b"0]\n" + PLANT, FILE - 11),
    "many job times": lambda: filled(PLANT.replace(b"time = 1\n", b"times = ["), b"0,", b"0]\n"),
    "many texts in a list": lambda: filled(TOP + b"demands = [", b'"",', b"0]\n" + STAGE),
    "many lists in a list": lambda: filled(TOP + b"demands = [", b"[],", b"0]\n" + STAGE),
    "many dates in a list": lambda: filled(TOP + b"demands = [", b"1979-05-27,", b"0]\n" + STAGE),
    "many floats in a list": lambda: filled(TOP + b"demands = [", b"0.1,", b"0]\n" + STAGE),
    "open brackets": lambda: filled(b"a = ", b"["),
    "nested lists": lambda: nested(b"a = ", b"[", b"", b"]", b"\n"),
    "nested tables": lambda: nested(b"a = ", b"{a=", b"0", b"}", b"\n"),
    "open tables": lambda: filled(b"a = ", b"{a="),
    "a deep dotted key": lambda: filled(b"a", b".a", b" = 0\n"),
    "a deep table head": lambda: filled(b"[a", b".a", b"]\n"),
    "deep dotted keys of one table": lambda: numbered(b"", b"a" + b".a" * 77 + b".#=0\n"),
    "deep dotted keys": lambda: numbered(b"", b"#" + b".a" * 79 + b"=0\n"),
    "deep table heads": lambda: numbered(b"", b"[#" + b".a" * 79 + b"]\n"),
    "deep lists in a list": lambda: filled(TOP + b"demands = [", b"[" * 76 + b"]" * 76 + b",", b"0]\n" + STAGE),
    "tables of one key in a list": lambda: filled(TOP + b"stage = [", b"{a=0},", b"{a=0}]\n"),
    "deep tables in a list": lambda: filled(TOP + b"stage = [", b"{a=" * 76 + b"0" + b"}" * 76 + b",", b"{}]\n"),
    "lists of one number in a list": lambda: filled(TOP + b"demands = [", b"[0],", b"0]\n" + STAGE),
}

MACHINE = b'machine=[{name="m",time=1}]'


def chain(length):
    """Stages as inline tables, each of which feeds the next, up to this many bytes; and how many there are."""
    parts, size = [], 0
    while size < length:
        parts.append(b'{name="a%d",feeds="a%d",%s},' % (len(parts), len(parts) + 1, MACHINE))
        size += len(parts[-1])
    return b"".join(parts), len(parts)


def long_path():
    """One path of as many stages as fit."""
    stages, count = chain(FILE - 200)
    return b'policy="base-stock"\ndemands=[0]\nstage=[' + stages + b'{name="a%d",%s}]\n' % (count, MACHINE)


def long_path_with_loops():
    """One path of half the bytes, and loops round all of it in the other half."""
    stages, count = chain(FILE // 2)
    front = b'policy="base-stock"\ndemands=[0]\nstage=[' + stages + b'{name="a%d",%s}]\nloop=[' % (count, MACHINE)
    return filled(front, b'{from="a0",to="a%d",cards=1},' % count, b"]\n")


def long_path_with_heads():
    """Under CONWIP one path of half the bytes, and first stages that feed it in the other half."""
    stages, count = chain(FILE // 2)
    front = b'policy="conwip"\ncards=1\ndemands=[0]\nstage=['
    back = stages + b'{name="a%d",%s}]\n' % (count, MACHINE)
    return numbered(front, b'{name="b#",feeds="a0",' + MACHINE + b"},", back)


PATHS = {
    "a long path": long_path,
    "a long path with loops": long_path_with_loops,
    "a long path with first stages": long_path_with_heads,
}

CSV = {
    "line feeds": lambda: b"\n" * FILE,
    "commas": lambda: b"," * FILE,
    "zeros in lines": lambda: b"0\n" * (FILE // 2),
    "lines that are long": lambda: filled(b"", b"0" + b",0" * 511 + b"\n"),
    "one line of zeros": lambda: filled(b"0", b",0"),
    "one field": lambda: b"1" * FILE,
    "a long header": lambda: filled(b"a", b"a", b"\n0\n"),
    "a quoted field": lambda: filled(b'"', b"a", b'"\n'),
    "a quoted field without an end": lambda: filled(b'"', b"a"),
    "quotes": lambda: b'"' * FILE,
    "noise": noise,
    "a bad record at the end": lambda: filled(b"", b"0\n", b"x"),
}

LINES = {
    "line feeds": lambda: b"\n" * FILE,
    "one line": lambda: b"x" * FILE,
    "noise": noise,
    "carriage returns": lambda: b"\r" * FILE,
}

SCHEDULES = LINES | {
    "empty lines, then a station": lambda: filled(b"", b"\n", b"paint"),
    "feed over and over": lambda: filled(b"", b"feed\n"),
}

EDITS = LINES | {
    "a time over and over": lambda: filled(b"", b"time a.m 1 9\ntime a.m 1 1\n"),
    "a demand over and over": lambda: filled(b"", b"demand 1 5\ndemand 1 0\n"),
    "a bad line at the end": lambda: filled(b"", b"time a.m 1 9\n", b"time"),
    "a line of spaces": lambda: filled(b"time", b" "),
}


def start_lines():
    """The checkpoint of the plant's start, in format 2, as lines."""
    names = ["feed", "a", "a.m", "deliver"]
    places = [0, 1, 1, 1, 0, 0]
    return ([b"pull-checkpoint 2", b"delays 0"] + [b"station %s 0" % n.encode() for n in names]
            + [b"place %d %d%s" % (a, n, b" 0" * n) for a, n in enumerate(places)] + [b"end", b""])


def long_line(head, unit=b" 0"):
    """The start, with the line of this head as long as the whole may be, of equal dates."""
    lines = start_lines()
    at = next(i for i, line in enumerate(lines) if line.startswith(head))
    front, back = b"\n".join(lines[:at] + [b""]), b"\n" + b"\n".join(lines[at + 1:])
    count = (CHECKPOINT - len(front) - len(back) - len(head) - 20) // len(unit)
    return front + head + b" %d" % count + unit * count + back


CHECKPOINTS = {
    "line feeds": lambda: b"\n" * CHECKPOINT,
    "digits": lambda: b"7" * CHECKPOINT,
    "noise": lambda: noise(CHECKPOINT),
    "a count without an end": lambda: filled(b"pull-checkpoint 2\ndelays 0\nstation feed ", b"9", b"", CHECKPOINT),
    "a log of equal dates": lambda: long_line(b"station feed"),
    "a log of rising dates": lambda: long_line(b"station a.m", b" 1"),
    "a log of dates of format 1": lambda: long_line(b"station feed").replace(b"2\ndelays 0\n", b"1\n", 1),
    "a place of equal tokens": lambda: long_line(b"place 1"),
    "bytes behind the end": lambda: filled(b"\n".join(start_lines()), b"\n", b"", CHECKPOINT),
}

GREAT = {
    "the greatest plant": lambda: great_plant(63, 7, 1976, False),
    "the greatest plant, its times as lists": lambda: great_plant(63, 7, 1976, True),
    "the most demands": lambda: great_plant(23, 1, 20000, True),
}


def great_plant(stages, machines, jobs, lists):
    lines = ['policy = "extended"', "demands = [" + ", ".join(str(1000 * n) for n in range(jobs)) + "]"]
    for i in range(1, stages + 1):
        lines += ["[[stage]]", f'name = "s{i}"', "stock = 1", "cards = 5"] + ([f'feeds = "s{i + 1}"'] if i < stages else [])
        for j in range(1, machines + 1):
            times = "times = [" + ", ".join(str(900 + 37 * n % 100) for n in range(jobs)) + "]" if lists else "time = 950"
            lines += ["[[stage.machine]]", f'name = "m{j}"', "servers = 1", times]
    return ("\n".join(lines) + "\n").encode()


MANY_COLUMNS = (TOP + b'demands = [0]\ntimes_file = "t.csv"\n' + STAGE.replace(b"time = 1\n", b"column = 1\n")
                + b"".join(b'[[stage.machine]]\nname = "m%d"\ncolumn = 1\n' % n for n in range(500)))

GREATEST = great_plant(63, 7, 1976, False)
ALIKE = GREATEST.replace(b'"s', b'"a-stage-of-longer-name').replace(b'"m', b'"machine-of-longer-name')


def great_schedule():
    """Every firing of the greatest plant, job by job."""
    stations = ["feed"]
    for i in range(1, 64):
        stations += [f"s{i}"] + [f"s{i}.m{j}" for j in range(1, 8)]
    return ("\n".join(stations + ["deliver"]) + "\n").encode() * 1976


GREAT_SCHEDULES = {
    "every firing": great_schedule,
    "every firing behind empty lines": lambda: b"\n" * (FILE - 8_000_000) + great_schedule(),
}

GREAT_EDITS = {
    "a time of the last machine over and over": lambda: filled(b"time s1.m1 1 9999\n", b"time s63.m7 1 9\n"),
    "a time of every job": lambda: b"".join(b"time s1.m1 %d 999\n" % n for n in range(1, 1977)),
}

ALIKE_EDITS = {
    "a time of the last machine over and over": lambda: filled(
        b"", b"time a-stage-of-longer-name63.machine-of-longer-name7 1 9\n"),
}


def plant_of(text):
    return {"a.toml": text}


# The kind, its files, what else the command finds, the name of the file, and the words.
KINDS = [
    ("toml", TOML, {}, "a.toml", "run a.toml"),
    ("path", PATHS, {}, "a.toml", "run a.toml"),
    ("times of many machines", {"zeros in lines": CSV["zeros in lines"]}, plant_of(MANY_COLUMNS), "t.csv", "run a.toml"),
    ("great", GREAT, {}, "a.toml", "run a.toml"),
    ("great cycle", {k: GREAT[k] for k in list(GREAT)[:1]}, {}, "a.toml", "cycle a.toml"),
    ("great cards", GREAT, {}, "a.toml", "cards a.toml 0"),
    ("great cards of any wait", GREAT, {}, "a.toml", "cards a.toml 10000000000000000"),
    ("great schedule", GREAT_SCHEDULES, plant_of(GREATEST), "s.txt", "replay a.toml s.txt"),
    ("great edits", GREAT_EDITS, plant_of(GREATEST), "e.txt", "whatif a.toml e.txt"),
    ("great edits, alike", ALIKE_EDITS, plant_of(ALIKE), "e.txt", "whatif a.toml e.txt"),
    ("demands", CSV, plant_of(PLANT.replace(b"demands = [0]", b'demands_file = "d.csv"')), "d.csv", "run a.toml"),
    ("times", CSV, plant_of((TOP + b'demands = [0]\ntimes_file = "t.csv"\n' + STAGE).replace(b"time = 1", b"column = 1")),
     "t.csv", "run a.toml"),
    ("schedule", SCHEDULES, plant_of(PLANT), "s.txt", "replay a.toml s.txt"),
    ("edits", EDITS, plant_of(PLANT), "e.txt", "whatif a.toml e.txt"),
    ("checkpoint", CHECKPOINTS, plant_of(PLANT), "c.ckpt", "resume a.toml c.ckpt"),
]


def written(name, make):
    """Makes a file in a process of its own: what this one holds would count as memory of the runs that it starts."""
    child = os.fork()
    if child == 0:
        with open(name, "wb") as file:
            file.write(make())
        os._exit(0)
    _, ended = os.waitpid(child, 0)
    assert ended == 0, name


def ends_of(name):
    """The length, the first line and the last byte of a file."""
    with open(name, "rb") as file:
        first = file.readline(60)
        length = file.seek(0, os.SEEK_END)
        file.seek(max(0, length - 1))
        return length, first.decode("utf-8", "replace").rstrip("\n"), file.read(1)


def measured(words, folder):
    """Runs the program under the ceiling. Answers its status, seconds, and MB, with what it wrote in the file `out`."""
    out = os.path.join(folder, "out")
    child = os.posix_spawn(program()[0], program() + words.split(), os.environ, file_actions=[
        (os.POSIX_SPAWN_OPEN, 1, out, os.O_WRONLY | os.O_CREAT | os.O_TRUNC, 0o600)])
    _, ended, used = os.wait4(child, 0)
    return os.waitstatus_to_exitcode(ended), used.ru_utime + used.ru_stime, used.ru_maxrss / 1024


def main():
    word = sys.argv[1] if len(sys.argv) > 1 else ""
    _, most = resource.getrlimit(resource.RLIMIT_AS)
    ceiling = CEILING if most == resource.RLIM_INFINITY else min(CEILING, most)
    resource.setrlimit(resource.RLIMIT_AS, (ceiling, ceiling))
    bad = 0
    folder = tempfile.mkdtemp(prefix="bounds-")
    os.chdir(folder)
    for kind, files, others, name, words in KINDS:
        for title, make in files.items():
            if word not in f"{kind}: {title}":
                continue
            for other, text in others.items():
                written(other, lambda text=text: text)
            written(name, make)
            status, seconds, megabytes = measured(words, folder)
            length, first, last = ends_of("out")
            fits = seconds <= SECONDS and megabytes <= MEGABYTES and last == b"\n" and status in range(18)
            bad += not fits
            print(f"{'     ' if fits else 'OVER '}{kind}: {title}: {os.path.getsize(name)} bytes, status {status}, "
                  f"{seconds:.1f} s, {megabytes:.0f} MB, {length} bytes: {first}", flush=True)
            os.remove(name)
    shutil.rmtree(folder)
    sys.exit(1 if bad else 0)


main()
