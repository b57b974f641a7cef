"""The record layer called from C: a corpus of calls with their answers, and the program that goes over it."""
import os
import struct
import subprocess
import sys

HERE = os.path.dirname(os.path.abspath(__file__))
ROOT = os.path.dirname(os.path.dirname(HERE))
sys.path.append(os.path.join(ROOT, "python"))
import build_wheel_here
from record_store import library, transaction
from record_store.engines.memory import Memory
import scripts

# so many calls of each script, of scripts that aren't long
CALLS, STEPS = 12, 60


def corpus() -> dict[bytes, bytes]:
    """Calls and their answers, as the scripts make them, whose replies are held against the program's elsewhere."""
    found: dict[bytes, bytes] = {}
    plain = library.drive
    for _, steps, _, wanted in scripts.suited():
        if len(steps) > STEPS:
            continue
        noted: list[tuple[bytes, bytes]] = []

        def drive(given: bytes, noted: list[tuple[bytes, bytes]] = noted) -> bytes:
            noted.append((given, plain(given)))
            return noted[-1][1]

        vars(transaction)["drive"] = drive
        try:
            list(scripts.differences(Memory(), steps, wanted))
        finally:
            vars(transaction)["drive"] = plain
        found.update(noted[:: max(1, len(noted) // CALLS)])
    return found


def called(folder: str) -> tuple[int, list[str]]:
    """Compiles the program and has it go over the corpus: its status, and its last line."""
    path, _ = build_wheel_here.archive()
    words = ["cc", "-std=c11", "-Wall", "-Wextra", "-Werror", "-O2", "-pthread",
             "-I", os.path.join(ROOT, "crates", "record_c"), "-o", f"{folder}/caller", os.path.join(HERE, "caller.c"),
             path, *build_wheel_here.heap(path), *(f"-Wl,--wrap={it}" for it in ("malloc", "realloc", "free"))]
    subprocess.run(words, check=True)
    with open(f"{folder}/calls", "wb") as file:
        for pair in corpus().items():
            for data in pair:
                file.write(struct.pack("<I", len(data)) + data)
    ran = subprocess.run([f"{folder}/caller", f"{folder}/calls"], capture_output=True, text=True, check=False)
    return ran.returncode, ran.stdout.splitlines()
