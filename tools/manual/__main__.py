"""Writes the manual page of `recordctl`, and its completion for bash, from what the program's own help tells.

    manual PROGRAM [--to FOLDER]

The files are recordctl.1 and recordctl.bash; the folder is docs/manual where none is named.
`man docs/manual/recordctl.1` shows the one, `. docs/manual/recordctl.bash` has bash take the other.
"""
import argparse
import os

from helped import helped
from written import completion, page

FOLDER = os.path.join("docs", "manual")


def files_of(program):
    """The names of the files, and their texts."""
    whole, commands = helped(program)
    return {"recordctl.1": page(whole, commands), "recordctl.bash": completion(commands)}


def main():
    parser = argparse.ArgumentParser(description=__doc__, formatter_class=argparse.RawDescriptionHelpFormatter)
    parser.add_argument("program", help="a built recordctl")
    parser.add_argument("--to", metavar="FOLDER", default=FOLDER)
    options = parser.parse_args()
    os.makedirs(options.to, exist_ok=True)
    for name, text in files_of(os.path.abspath(options.program)).items():
        with open(os.path.join(options.to, name), "w", encoding="utf-8") as file:
            file.write(text)


if __name__ == "__main__":
    main()
