"""Draws plants, and compares what each way of running them writes with the report of another program.

    python3 drawn.py [SECONDS] [SEED]

The plants are lines and trees under each policy, of one stage to forty, with several servers, travel and card times,
lists of job times and dates to observe. The other program is bench/line.cpp, built with g++, or what BESIDE names: run
with the plant file as its one word, it writes the report by other means, and ends with another status than 0 where it
knows no answer; that plant is left out. The ways are one worker and several, in bursts, with bounded rings, standing, with saves in the slots, resumed from these, and stopped at a drawn
number of firings and resumed. Prints each run that differs with its plant, and ends with 1 where there is one."""
import os
import random
import shlex
import subprocess
import sys
import tempfile
import time

from machine import HERE, SLOTS, Folder

sys.path.append(os.path.join(HERE, "..", "bench"))
import programs

SECONDS = 60
PLANT = "drawn.toml"
SAVED = "drawn.ckpt"
NOTHING_SAVED = 14

POLICIES = ["kanban", "extended", "base-stock", "conwip"]


def feeds_of(draw, stages):
    """Which stage each feeds, the last one none: the next one, or in a tree one of the next three."""
    reach = draw.choice([1, 3])
    return [draw.randrange(i + 1, min(stages, i + 1 + reach)) for i in range(stages - 1)] + [None]


def most_stock_on_a_way(feeds, stock):
    """The greatest sum of stocks from a stage that none feeds down to the last."""
    sums = []
    for first in set(range(len(feeds))) - set(feeds):
        sums.append(0)
        while first is not None:
            sums[-1] += stock[first]
            first = feeds[first]
    return max(sums)


def cards_of(draw, policy, stock):
    """The lines of a stage that say its cards and its stock."""
    if policy == "kanban":
        return [f"cards = {stock + 1}"]
    if policy == "extended":
        return [f"cards = {stock + 1 + draw.randrange(4)}", f"stock = {stock}"]
    return [f"stock = {stock}"]


def machine(draw, number, jobs):
    """The lines of a machine."""
    times = f"times = {[draw.randrange(9) for _ in range(jobs)]}"
    time_or_times = times if draw.random() < 0.2 else f"time = {draw.randrange(10)}"
    return ["[[stage.machine]]", f'name = "m{number}"', f"servers = {draw.randrange(1, 4)}", time_or_times]


def drawn_plant(draw):
    """The text of a plant, and how many firings it has at most."""
    is_large = draw.random() < 0.25
    policy = draw.choice(POLICIES)
    stages = draw.choice([10, 16, 24, 40] if is_large else [1, 2, 3, 5, 8, 12, 20])
    jobs = draw.choice([20, 70, 150] if is_large else [1, 2, 5, 17, 33, 60, 200])
    date, dates = 0, []
    for _ in range(jobs):
        date += draw.choice([0, 0, 1, 3, draw.randrange(20)])
        dates.append(date)
    feeds = feeds_of(draw, stages)
    stock = [draw.randrange(4) for _ in range(stages)]
    lines = [f'policy = "{policy}"', f"demands = {dates}"]
    if policy == "conwip":
        lines += [f"cards = {most_stock_on_a_way(feeds, stock) + draw.randrange(1, 6)}", f"card_time = {draw.randrange(5)}"]
    if draw.random() < 0.5:
        lines.append(f"observe = {sorted(draw.sample(range(500), draw.randrange(1, 6)))}")
    machines = 0
    for i in range(stages):
        lines += ["[[stage]]", f'name = "s{i}"', *cards_of(draw, policy, stock[i])]
        lines += [f'feeds = "s{feeds[i]}"'] if feeds[i] is not None else []
        lines += [f"travel = {draw.randrange(6)}"] if draw.random() < 0.3 else []
        lines += [f"card_time = {draw.randrange(6)}"] if policy in POLICIES[:2] and draw.random() < 0.3 else []
        for number in range(draw.choice([1, 3, 7] if is_large else [1, 1, 2, 3])):
            lines += machine(draw, number, jobs)
            machines += 1
    return "\n".join(lines) + "\n", (stages + machines + 2) * jobs


def workers(draw, most):
    """The words that ask for a drawn number of workers, this many at most."""
    return ["--workers", str(draw.randrange(1, most + 1))]


def drawn_ways(draw):
    """The words behind `run PLANT` of each way that runs to the end."""
    yield []
    yield ["--workers", "2"]
    yield ["--workers", "4"]
    yield workers(draw, 16)
    yield ["--stand", *workers(draw, 5)]
    yield ["--room", str(draw.choice([1, 2, 64])), *workers(draw, 8)]
    yield ["--every", str(draw.randrange(1, 400)), "--slots", *workers(draw, 8)]


class Drawn:
    """One plant in a folder of its own, and the report that every run of it is to write."""

    def __init__(self, draw, other):
        self.draw, self.folder, self.runs, self.wrong = draw, Folder(), 0, 0
        self.text, self.firings = drawn_plant(draw)
        self.folder.put(PLANT, self.text.encode())
        ended = subprocess.run([*other, PLANT], cwd=self.folder.path, stdout=subprocess.PIPE, check=False)
        self.report = ended.stdout if ended.returncode == 0 else None

    def compare(self, *words, also=None):
        """Runs the program with these words: it is to write the report, or to end with the status `also`. Answers
        whether it stopped before all firings."""
        self.runs += 1
        status, output = self.folder.run(list(words))
        if words[-1] == SAVED and output.startswith(b"stopped ") and status == 0:
            return True
        if (status != 0 or output != self.report) and status != also:
            self.wrong += 1
            print(f"{' '.join(words)}: status {status}, differs\n{self.text}", flush=True)
        return False

    def check(self):
        for words in drawn_ways(self.draw):
            self.compare("run", PLANT, *words)
        if os.path.exists(os.path.join(self.folder.path, SLOTS)):
            self.compare("resume", PLANT, "--slots", "--workers", "3", also=NOTHING_SAVED)
        stop = str(self.draw.randrange(self.firings + 1))
        if self.compare("run", PLANT, "--workers", "3", "--stop-after", stop, "--save", SAVED):
            self.compare("resume", PLANT, SAVED, *workers(self.draw, 16))


def compare_drawn(draw, seconds, other):
    """Draws plants for so many seconds. Answers whether a run differs from the other program's report."""
    end = time.time() + seconds
    plants = runs = wrong = 0
    while time.time() < end:
        drawn = Drawn(draw, other)
        if drawn.report is not None:
            drawn.check()
            plants, runs, wrong = plants + 1, runs + drawn.runs, wrong + drawn.wrong
        drawn.folder.remove()
    print(f"{plants} plants, {runs} runs, {wrong} differ")
    return wrong > 0


def main():
    seconds = float(sys.argv[1]) if len(sys.argv) > 1 else SECONDS
    draw = random.Random(int(sys.argv[2]) if len(sys.argv) > 2 else 1)
    with tempfile.TemporaryDirectory(prefix="drawn-") as folder:
        beside = os.environ.get("BESIDE")
        other = shlex.split(beside) if beside else [programs.build(folder)["line"]]
        sys.exit(1 if compare_drawn(draw, seconds, other) else 0)


if __name__ == "__main__":
    main()
