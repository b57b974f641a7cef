"""Counts what breaks the house's rules, in the files of a repository. It is run at the top of the repository.

1. README.md is short and narrow.
2. The code in README.md, in the tour and in the page on embedding stands in a file that is proved, run or tested: that
   of Rattle in a source, a clause's in a specification or a proof, JSON and what is printed in examples/ or a stdout.
3. No source file is long.
4. No body of a function of Rattle is long, from its `{` to its `}`.
5. No line of Rattle, of a specification or of Python is wide, counted in characters. Data may be: in a file of Rattle a
   line whose first character too many stands in a text or in the table of a static. The files of proofs/ aren't held
   to it, since proof terms are laid out by the formatter, which breaks no line of its own.
6. Each public item of a crate has a doc comment.
7. Each crate of crates.txt has a README.md.
8. The drawing of the crates, docs/guide/crates.svg, is that of crates.txt.
9. Each file of Rattle begins with a comment, which says what it holds.
10. Each wrong body can be put into the sources.
11. The words that specifications of several crates define, the stretches of six lines or more that two files share, and
   the lines of clauses and doc comments above 100 columns are those that known.txt beside this file knows of. It says
   what stands, and is to shrink: --known prints its lines as they are now.
12. No document, code, specification or edit leans on a text outside the repository, or on a mark that only one tells.
13. A definition that serves private clauses, invariants or proofs alone, to which no contract leads that a crate hands
   out, has a comment that begins with `-- Private: `; a file that has no others may say so once, at its begin. No other
   definition says so.
14. A list of what to read, as docs/proof/HEADLINE.md has one, has just the files with a definition to which its first
   ones lead in turn, also by what types of sources are seen as. It says of which files only a part is needed, and how
   many lines are needed, of each and of all: rounded to 5 and to 100, and right to within that or a tenth. And
   docs/proof/DEFINITIONS.md names each of these files.
15. No line of another document than README.md is wide, counted in characters, but for a row of a table, a line of a
   block of code, and a line that is one link.
16. Each relative link of a document leads to a file that is there, and where it has an anchor to a heading of that one.
17. Each of the facts of facts.py is told in one document; others link to it, and a crate's README may tell it as a
   clause.
18. Each file of Rattle, of a specification or a proof is laid out as `rt fmt` lays it out: `rt ci` proves no crate of
   which one isn't.

A line is printed for each fault, and then one for each rule, with the number of things that it was held against. A rule
passes where nothing breaks it and there was something to break it. The last line is 'N passed, M failed'; the status is
0 where M is 0.
"""
import argparse
import os
import sys
from rules import RULES, counted

KNOWN_HEAD = "# what stands, and is to shrink: words with two homes, repeats of two files, wide lines of clauses"


def main():
    parser = argparse.ArgumentParser(description=__doc__, formatter_class=argparse.RawDescriptionHelpFormatter)
    parser.add_argument("--only", default="", help="a part of the names of the rules that are looked at")
    parser.add_argument("--known", action="store_true", help="print what known.txt should have")
    options = parser.parse_args()
    if options.known:
        print(KNOWN_HEAD, *counted(os.getcwd()), sep="\n")
        return 0
    passed, summary = [], []
    for name, rule in RULES.items():
        if options.only in name:
            seen, faults = rule(os.getcwd())
            for place, what in faults:
                print(f"{place}: {what}")
            passed.append(seen > 0 and not faults)
            summary.append(f"{'passed' if passed[-1] else 'FAILED'}: {name}: {len(faults)} of {seen}")
    print(*summary, sep="\n")
    print(f"{sum(passed)} passed, {len(passed) - sum(passed)} failed")
    return 0 if passed and all(passed) else 1


if __name__ == "__main__":
    sys.exit(main())
