"""The lines of Python that documents show, run as a reader would."""
import os
import re
import subprocess
import sys
from collections.abc import Iterator

ROOT = os.path.dirname(os.path.dirname(os.path.dirname(os.path.abspath(__file__))))
BLOCK = re.compile(r"^```python\n(.*?)^```", re.M | re.S)
EMMA = "[{'title': 'Emma', 'copies': 3}]\n"
# documents, each with what its lines print
BLOCKS = [("README.md", EMMA), ("python/README.md", EMMA)]


def printed(path: str, folder: str) -> str:
    """What the lines of a document print, or the error that ends them."""
    with open(os.path.join(ROOT, path), encoding="utf-8") as file:
        lines = "".join(BLOCK.findall(file.read()))
    os.makedirs(folder, exist_ok=True)
    ran = subprocess.run([sys.executable, "-c", lines], cwd=folder, capture_output=True, text=True, check=False)
    return ran.stdout + ran.stderr


def different(folder: str) -> Iterator[str]:
    """What documents print otherwise than they are said to, where they are run twice in one folder."""
    for number, (path, wanted) in enumerate(BLOCKS * 2):
        found = printed(path, f"{folder}/documents{number % len(BLOCKS)}")
        if found != wanted:
            yield f"{path}: {found}"
