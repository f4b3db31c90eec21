"""The crates of crates.txt, and copies of them in a folder of their own, for the scripts beside this file."""
import os
import shutil

TOP = os.path.dirname(os.path.dirname(os.path.abspath(__file__)))


def listed_crates():
    """The crates that each crate of crates.txt names, those of the toolchain too."""
    with open(f"{TOP}/crates.txt") as file:
        lines = [line.split("#")[0].strip() for line in file]
    return {line.split(":")[0].split()[0]: line.split(":")[1].split() for line in lines if line}


def with_those_below(crates, crate):
    """The crates of the repository that a crate stands on, each behind those that it stands on itself, and the crate last."""
    found = []
    for other in crates[crate]:
        if other in crates:
            found += [it for it in with_those_below(crates, other) if it not in found]
    return found + [crate]


def copy_crates(room, crates, names):
    """Copies what these crates are proved from into a workspace of their own, without wrong bodies."""
    for name in names:
        shutil.copytree(f"{TOP}/crates/{name}", f"{room}/crates/{name}", ignore=shutil.ignore_patterns("out", "must-fail"))
    shutil.copy(f"{TOP}/HANDLES", room)
    with open(f"{room}/crates.txt", "w") as file:
        file.writelines(f"{name}: {' '.join(crates[name])}\n" for name in names)
    os.makedirs(f"{room}/.git", exist_ok=True)
