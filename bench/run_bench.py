"""What the scripts of this folder share: programs of the repository, and the shortest of several times."""

import os
import shutil
import subprocess
import sys
import time

HERE = os.path.dirname(os.path.realpath(__file__))


def program(name):
    """The path of a program of the repository, which is built where it isn't there. With no words it says what words it takes."""
    folder = f"{HERE}/../crates/{name}"
    built = f"{folder}/out/{name}"
    if os.path.exists(built):
        return built
    rt = shutil.which("rt") or "/opt/rattle/bin/rt"
    if not os.path.exists(rt):
        sys.exit(f"skipped: {name} isn't built, and rt, which builds it, isn't there")
    print(f"building {name}, which takes some minutes the first time", file=sys.stderr)
    subprocess.run([rt, "run"], cwd=folder, stdout=subprocess.DEVNULL, stderr=subprocess.DEVNULL, check=False)
    if not os.path.exists(built):
        sys.exit(f"{name} can't be built: see rt run in crates/{name}")
    return built


def best_of(runs, words):
    """The shortest time of a command in seconds."""
    times = []
    for _ in range(runs):
        begun = time.perf_counter()
        subprocess.run(words, stdin=subprocess.DEVNULL, stdout=subprocess.DEVNULL, check=True)
        times.append(time.perf_counter() - begun)
    return min(times)
