"""What no contract can say of a run's memory and threads, tried on the built program.

    PULL=.. python3 growth.py

Each way of running a line is tried three times. With 60 jobs and with 4,080, the number of requests for memory is to be
the same: no step, sweep or burst takes memory, nor does formatting. A list that is read asks again each time that it
doubles, so a few requests more are let pass (`DOUBLINGS`); one for each job would be thousands. By bursts of several
workers each thread asks for some when it is begun, and how many are begun is up to the clock: there no requests are
counted. Then the run is given to a user who may begin no thread: it is to end, with the same bytes. Prints a line for
each way, and ends with 1 where one is wrong. It is run by root, since it becomes user 65534 for the last trial."""
import os
import resource
import subprocess
import sys

from machine import Folder, build_shim, program
from soak import drawn_plant

FEW, MANY = 60, 4080
DOUBLINGS = 24
NOBODY = 65534
SECONDS = 30

# The words behind `run PLANT`, and whether how many threads are begun is up to the clock. The line has fifty stations:
# two workers have enough of them for a long burst, three go by bursts alone.
WAYS = [
    ([], False),
    (["--room", "3"], False),
    (["--stand"], False),
    (["--stand", "--workers", "3"], False),
    (["--stop-after", "1000", "--save", "a.ckpt"], False),
    (["--every", "1000000", "--slots"], False),
    (["--workers", "2"], True),
    (["--workers", "3"], True),
    (["--room", "3", "--workers", "3"], True),
]


def requests(folder, shim, jobs, way):
    """How many requests the run makes with this many jobs."""
    folder.put("line.toml", drawn_plant(12, 3, jobs).encode())
    status, out = folder.run(["run", "line.toml", *way], shim)
    assert status == 0, (way, jobs, status, out[:200])
    return folder.counts()[0]


def become_nobody():
    """A user other than root, who has as many threads as he may have."""
    os.setgroups([])
    os.setgid(NOBODY)
    os.setuid(NOBODY)
    resource.setrlimit(resource.RLIMIT_NPROC, (0, 0))


def without_threads(folder, way):
    """The status of a run that can begin no thread, and what it wrote; none where it doesn't end."""
    os.chmod(folder.path, 0o777)
    try:
        done = subprocess.run([*program(), "run", "line.toml", *way], cwd=folder.path, preexec_fn=become_nobody,
                              stdout=subprocess.PIPE, stderr=subprocess.PIPE, timeout=SECONDS)
    except subprocess.TimeoutExpired:
        return None
    return done.returncode, done.stdout


def put_line(folder):
    """Makes the folder hold the line with few jobs, and nothing else."""
    folder.restore({"line.toml": drawn_plant(12, 3, FEW).encode()})


def memory_of(folder, shim, way):
    """What the run asks for with few jobs and with many, and whether that grows."""
    few, many = requests(folder, shim, FEW, way), requests(folder, shim, MANY, way)
    return f"{few} requests for memory with {FEW} jobs, {many} with {MANY}", many - few > DOUBLINGS


def threads_of(folder, way):
    """How the run ends without threads, and whether that is wrong."""
    put_line(folder)
    usual = folder.run(["run", "line.toml", *way])
    put_line(folder)
    alone = without_threads(folder, way)
    if alone is None:
        return f"without threads it doesn't end in {SECONDS} seconds", True
    return f"without threads {'the same bytes' if alone == usual else 'other bytes'}", alone != usual


def main():
    shim, folder, failed = build_shim(), Folder(), False
    for way, by_the_clock in WAYS:
        found = [] if by_the_clock else [memory_of(folder, shim, way)]
        found.append(threads_of(folder, way))
        wrong = any(is_wrong for _, is_wrong in found)
        failed = failed or wrong
        print(f"{'WRONG ' if wrong else ''}run {' '.join(way)}: {'; '.join(said for said, _ in found)}", flush=True)
    folder.remove()
    return 1 if failed else 0


if __name__ == "__main__":
    sys.exit(main())
