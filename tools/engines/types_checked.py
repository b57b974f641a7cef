"""The package and its tests held against a checker of types: Debian's mypy, strict, by python/pyproject.toml."""
import os
import shutil
import subprocess

ROOT = os.path.dirname(os.path.dirname(os.path.dirname(os.path.abspath(__file__))))
MYPY = "mypy"


def is_there() -> bool:
    """Whether the checker is installed."""
    return shutil.which(MYPY) is not None


def faults() -> list[str]:
    """What the checker finds, or that it isn't there."""
    if not is_there():
        return [f"{MYPY} isn't installed"]
    words = [MYPY, "--config-file", "python/pyproject.toml", "--cache-dir", os.devnull, "python", "tools/engines"]
    environment = {name: value for name, value in os.environ.items() if name != "PYTHONPATH"}
    ran = subprocess.run(words, cwd=ROOT, env=environment, capture_output=True, text=True, check=False)
    return [*ran.stdout.splitlines(), *ran.stderr.splitlines()] if ran.returncode else []
