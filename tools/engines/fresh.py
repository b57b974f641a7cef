"""The lines of Python of the front page, on a fresh machine of Debian, after the two commands that stand there.

    python3 tools/engines/fresh.py [--kept FOLDER]

It is run as root. debootstrap makes a Debian with Python, pip and a C compiler alone, in a folder that is removed at
the end, unless it is one to be kept, in which a Debian that is there already is used. In it, with no network, an empty
home, the toolchain and a copy of this repository's files as git knows them, run as a user who isn't root: the commands
and the lines, as they stand in README.md. The commands are run in a virtual environment, since Debian's own Python
takes no packages.

The last line is 'N passed, M failed'; the status is 0 where M is 0.
"""
from __future__ import annotations

import argparse
import os
import re
import shutil
import subprocess
import sys
import tempfile

HERE = os.path.dirname(os.path.abspath(__file__))
ROOT = os.path.dirname(os.path.dirname(HERE))
SUITE, MIRROR = "bookworm", "http://deb.debian.org/debian"
PACKAGES = ("python3", "python3-venv", "python3-pip", "gcc", "libc6-dev")
COMMANDS = re.compile(r"after `(python3 [^`]*)` \([^)]*\)\s+and `(pip [^`]*)`")
LINES = re.compile(r"^```python\n(.*?)^```", re.M | re.S)
WANTED = "[{'title': 'Emma', 'copies': 3}]\n"
USER, SECONDS = "1000", 1800
# what is run within: mounts are seen by it alone, and end with it
SCRIPT = """set -e
mount --bind {kit} {root}{kit}
mount -o remount,bind,ro {root}{kit}
mount -t proc proc {root}/proc
exec chroot --userspec={user}:{user} {root} /usr/bin/env -i HOME=/home/new PATH={kit}/bin:/usr/bin:/bin sh -c {words}
"""


def debian(folder: str) -> None:
    """Makes a Debian in a folder, unless there is one."""
    if not os.path.exists(f"{folder}/usr/bin/python3"):
        subprocess.run(["debootstrap", "--variant=minbase", f"--include={','.join(PACKAGES)}", SUITE, folder, MIRROR],
                       check=True, stdout=subprocess.DEVNULL)
    shutil.rmtree(f"{folder}/home/new", ignore_errors=True)
    os.makedirs(f"{folder}/home/new/store")


def copied(folder: str) -> None:
    """Puts a copy of the repository's files into the home of the new machine's user."""
    names = subprocess.run(["git", "ls-files", "-z", "-co", "--exclude-standard"], cwd=ROOT, check=True,
                           capture_output=True).stdout.decode().split("\0")
    for name in filter(None, names):
        os.makedirs(os.path.dirname(f"{folder}/home/new/store/{name}"), exist_ok=True)
        shutil.copy(os.path.join(ROOT, name), f"{folder}/home/new/store/{name}")
    subprocess.run(["chown", "-R", f"{USER}:{USER}", f"{folder}/home/new"], check=True)


def kit() -> str:
    """The folder of the toolchain, whose `rt` is on the path."""
    told = subprocess.run(["rt", "doc"], capture_output=True, text=True, check=True).stdout
    return os.path.dirname(told.strip())


def run(root: str, words: str) -> subprocess.CompletedProcess[str]:
    """Runs a command in the new machine, in the repository's folder, with no network."""
    quoted = "'" + f"cd /home/new/store && {words}".replace("'", "'\\''") + "'"
    os.makedirs(root + kit(), exist_ok=True)
    script = SCRIPT.format(kit=kit(), root=root, user=USER, words=quoted)
    return subprocess.run(["unshare", "--mount", "--pid", "--net", "--fork", "--kill-child", "sh", "-c", script],
                          capture_output=True, text=True, timeout=SECONDS, check=False)


def steps() -> list[tuple[str, str, str | None]]:
    """What is run in turn: what it shows, the command, and what it is to print, if that is told."""
    with open(os.path.join(ROOT, "README.md"), encoding="utf-8") as file:
        text = file.read()
    build, install = COMMANDS.findall(text)[0]
    (lines,) = LINES.findall(text)
    inside = ". ~/venv/bin/activate && "
    python = f"cat > ~/lines.py <<'END' && cd && python lines.py\n{lines}END\n"
    return [
        ("nothing is there before", "python3 -c 'import record_store' 2>&1 | tail -1",
         "ModuleNotFoundError: No module named 'record_store'\n"),
        ("a virtual environment", "python3 -m venv ~/venv", ""),
        (build, build, None),
        (install, inside + install, None),
        ("the lines", inside + python, WANTED),
        ("the lines once more", inside + python, WANTED),
    ]


def tried(root: str) -> int:
    """Runs all in turn, until one fails, and prints what came of it; the status."""
    debian(root)
    copied(root)
    passed, all_steps = 0, steps()
    for shows, words, wanted in all_steps:
        ran = run(root, words)
        if ran.returncode or wanted not in (None, ran.stdout):
            print(f"FAILED: {shows}: status {ran.returncode}: {ran.stdout[-2000:]}{ran.stderr[-2000:]}")
            break
        print(f"passed: {shows}", flush=True)
        passed += 1
    failed = len(all_steps) - passed
    print(f"{passed} passed, {failed} failed")
    return 1 if failed else 0


def main() -> int:
    """The status."""
    parser = argparse.ArgumentParser(description=__doc__, formatter_class=argparse.RawDescriptionHelpFormatter)
    parser.add_argument("--kept", metavar="FOLDER", help="where the Debian is made, and kept")
    kept = parser.parse_args().kept
    if not shutil.which("debootstrap"):
        for words in (["update"], ["install", "-y", "--no-install-recommends", "debootstrap"]):
            subprocess.run(["apt-get", "-q", *words], check=True, stdin=subprocess.DEVNULL)
    if kept:
        os.makedirs(kept, exist_ok=True)
        return tried(os.path.abspath(kept))
    with tempfile.TemporaryDirectory(prefix="fresh-") as folder:
        os.chmod(folder, 0o755)
        return tried(folder)


if __name__ == "__main__":
    sys.exit(main())
