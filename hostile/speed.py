"""How long ways of running a line take, side by side.

    python3 speed.py [TURNS]

Three lines of a million firings each, within the limits, under extended kanban: many stations, many jobs, and between.
In each turn every way is run once, one after the other, so that what else the machine does meets all alike; the output
goes to /dev/null. Beside them stand the programs of bench/, built with g++, or those that BESIDE names: each is run
with the plant file as its one word. For each way a line: the least and
the first quartile of all turns, in milliseconds of the clock, and both as parts of those of `run`. It makes its
files where TMPDIR says: in memory or on a disk, which runs that save feel. Checks nothing; stop all else first.
`bench/table` writes the same as the table of docs/SPEED.md."""
import os
import shlex
import sys
import tempfile
import time

from machine import HERE, program

sys.path.append(os.path.join(HERE, "..", "bench"))
import programs

TURNS = 41
EVERY = 95_000  # ten saves for each of the plants

# Stages, machines in each, and jobs.
PLANTS = [(63, 7, 1_976), (6, 7, 20_000), (16, 7, 7_692)]


def large_plant(stages, machines, jobs):
    """A serial line, the same each time for the same numbers."""
    state = 7

    def draw(below):
        nonlocal state
        state = (state * 6_364_136_223_846_793_005 + 1_442_695_040_888_963_407) % 2**64
        return (state >> 33) % below

    date, dates = 0, []
    for _ in range(jobs):
        date += draw(30)
        dates.append(date)
    lines = ['policy = "extended"', f"demands = {dates}"]
    for i in range(1, stages + 1):
        stock = draw(4)
        lines += ["[[stage]]", f'name = "s{i}"']
        lines += [f'feeds = "s{i + 1}"'] if i < stages else []
        lines += [f"cards = {stock + 1 + draw(4)}", f"stock = {stock}"]
        for j in range(1, machines + 1):
            servers = 1 + draw(3)
            lines += ["[[stage.machine]]", f'name = "m{j}"', f"servers = {servers}", f"time = {1 + draw(20)}"]
    return "\n".join(lines) + "\n"


def stations(stages, machines, _jobs):
    """How many stations such a line has."""
    return stages * (machines + 1) + 2


def ways(firings, beside):
    """The ways of running a line with this many firings: how each is called, its words, and the words before it. The
    other programs come first."""
    pull = program()
    stop = [*pull, "run", "line.toml", "--stop-after", str(firings // 2), "--save", "line.ckpt"]
    for other in beside:
        yield os.path.basename(other), [other, "line.toml"]
    yield "run", [*pull, "run", "line.toml"]
    for words in ["--workers 4", "--stand --workers 4", "--room 64 --workers 4", f"--every {EVERY} --slots"]:
        yield f"run {words}", [*pull, "run", "line.toml", *words.split()]
    yield "resume from the middle", [*pull, "resume", "line.toml", "line.ckpt"], stop


def timed(words):
    """How long a run takes, in milliseconds."""
    null = [(os.POSIX_SPAWN_OPEN, 1, "/dev/null", os.O_WRONLY, 0)]
    start = time.perf_counter()
    child = os.posix_spawn(words[0], words, os.environ, file_actions=null)
    _, status = os.waitpid(child, 0)
    taken = time.perf_counter() - start
    if status != 0:
        sys.exit(f"{' '.join(words)}: status {status}")
    return taken * 1000


def least_and_quartile(times):
    """The least and the first quartile of these."""
    times = sorted(times)
    return times[0], times[len(times) // 4]


def measured(stages, machines, jobs, turns, beside):
    """Runs each way this many times with a plant: by how it is called, the least and the first quartile of its times."""
    with open("line.toml", "w", encoding="utf-8") as file:
        file.write(large_plant(stages, machines, jobs))
    rows = list(ways(stations(stages, machines, jobs) * jobs, beside))
    for _, _, *before in rows:
        for words in before:
            timed(words)
    taken = [[timed(words) for _, words, *_ in rows] for _ in range(turns)]
    return {name: least_and_quartile(turn[k] for turn in taken) for k, (name, *_) in enumerate(rows)}


def main():
    turns = int(sys.argv[1]) if len(sys.argv) > 1 else TURNS
    with tempfile.TemporaryDirectory(prefix="speed-") as folder:
        beside = shlex.split(os.environ["BESIDE"]) if "BESIDE" in os.environ else programs.build(folder).values()
        os.chdir(folder)
        for plant in PLANTS:
            found = measured(*plant, turns, beside)
            print(f"{stations(*plant)} stations, {plant[2]} jobs, {turns} turns")
            for name, both in found.items():
                parts = [mine / its for mine, its in zip(both, found["run"])]
                print(f"{name:28}{both[0]:9.1f}{both[1]:9.1f}{parts[0]:9.2f}{parts[1]:9.2f}", flush=True)


if __name__ == "__main__":
    main()
