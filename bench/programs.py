"""The programs beside which `pull` is timed and compared: the same report of a plant file, in C++."""
import os
import shutil
import subprocess
import sys

HERE = os.path.dirname(os.path.abspath(__file__))

# What each is compiled with.
FLAGS = {"fast": ["-O3", "-march=native"], "line": ["-O2"]}


def build(folder):
    """Compiles them into this folder, and answers the path of each by its name."""
    if shutil.which("g++") is None:
        sys.exit("bench: g++ is wanted, and the headers of toml++ (apt-get install g++ libtomlplusplus-dev)")
    paths = {}
    for name, flags in FLAGS.items():
        paths[name] = os.path.join(folder, name)
        words = ["g++", "-std=c++17", *flags, "-o", paths[name], os.path.join(HERE, f"{name}.cpp")]
        if subprocess.run(words, check=False).returncode != 0:
            sys.exit(f"bench: {name}.cpp can't be compiled; it wants toml++ (apt-get install libtomlplusplus-dev)")
    return paths
