"""Whether drawings are XML, and have what is printed without them.

`explain --svg` has a box and a text for each line of `explain --tree`, `run --svg` a box for each step with the reply
that `run --names` prints, and one for each client that a step tells what became of its transactions.
"""
import json
import re
import subprocess
from xml.etree import ElementTree

SECONDS = 60
# longer scripts aren't drawn; how many random ones are
LONGEST, SEEDS = 20_000, 40
NAMESPACE = "{http://www.w3.org/2000/svg}"
# the left ends of boxes
MARGIN, INDENT = 12, 32
NOT_OF_XML = re.compile("[^\t\n\r\x20-\ud7ff\ue000-\ufffd\U00010000-\U0010ffff]")
# texts of cells that would break XML which doesn't escape them
HOSTILE = ("<a>", "a&amp;b", "\"'", "]]>", "</text><script>", "\u00e9\U0001f600", "\x01\x7f\ufffe\uffff", "  x  ")
SCHEMA = {"types": [{"name": "t", "fields": [["k", "text"], ["s", "text"]], "key": ["k"]}]}


def hostile_texts():
    """Queries that ask for such texts, in a range and in a filter."""
    for text in HOSTILE:
        filters = ["and", ["starts", "k", text], ["=", "s", text]]
        yield json.dumps({"schema": SCHEMA, "query": {"type": "t", "filter": filters}}).encode()


def printed(program, words, text):
    done = subprocess.run([program, *words], input=text, capture_output=True, timeout=SECONDS, check=False)
    return done.stdout.decode() if (done.returncode, done.stderr) == (0, b"") else None


def drawing_fault(program, text):
    """What is wrong with the drawing of the plan that a text asks for, or None."""
    tree, svg = printed(program, ["explain", "--tree"], text), printed(program, ["explain", "--svg"], text)
    if tree is None or svg is None:
        return "no plan is printed"
    try:
        root = ElementTree.fromstring(svg)
    except ElementTree.ParseError as why:
        return f"no XML: {why}"
    lines = tree.split("\n")[:-1]
    depths = [(len(it) - len(it.lstrip(" "))) // 2 for it in lines]
    texts = [it.text for it in root.iter(f"{NAMESPACE}text")]
    if texts != [NOT_OF_XML.sub("\ufffd", it.lstrip(" ")) for it in lines]:
        return f"other lines: {texts}"
    if [int(it.get("x")) for it in root.iter(f"{NAMESPACE}rect")] != [MARGIN + INDENT * it for it in depths]:
        return "other boxes"
    edges = len(list(root.iter(f"{NAMESPACE}path")))
    return None if edges == len(lines) - 1 else f"{edges} lines between {len(lines)} boxes"


# where a line tells of another transaction, and what is drawn of one
NEXT = re.compile(r", (?=client \d+ (?:committed|conflict|unknown))")
TOLD = re.compile(r"client (\d+) (committed \d+|unknown|conflict \d+)(?: (.*))?")


def boxes_of(reply):
    """The texts of the boxes of a step that replies so, after its own: what each client is told, and what else is."""
    told = {}
    for report in NEXT.split(reply):
        found = TOLD.fullmatch(report)
        if not found:
            return reply, []
        told.setdefault(found[1], []).append(f"{found[2]}: {found[3]}" if found[3] else found[2])
    return "", ["; ".join(it) for it in told.values()]


def schedule_fault(program, text):
    """What is wrong with the drawing of a script's steps, or None."""
    lines, svg = printed(program, ["run", "--names"], text), printed(program, ["run", "--svg"], text)
    if lines is None or svg is None:
        return "nothing is printed"
    try:
        root = ElementTree.fromstring(svg)
    except ElementTree.ParseError as why:
        return f"no XML: {why}"
    wanted = []
    for line in lines.split("\n")[:-1]:
        reply, told = boxes_of(line.partition(" ")[2])
        wanted += [reply, *told]
    titles = [it.find(f"{NAMESPACE}title").text.split("\n") for it in root.iter(f"{NAMESPACE}g")]
    kinds = [it.get("class") for it in root.iter(f"{NAMESPACE}g")]
    found = ["".join(it) if kind in ("good", "bad") else it[1] for kind, it in zip(kinds, titles)]
    if len(found) != len(wanted):
        return f"{len(found)} boxes, wanted {len(wanted)}"
    other = next((pair for pair in zip(found, wanted) if pair[0] != NOT_OF_XML.sub("\ufffd", pair[1])), None)
    return f"a box of {other[0]!r}, wanted {other[1]!r}" if other else None


def drawing_faults(program, cases):
    """What each drawing shows, and what is wrong with it, or None."""
    scripts = [it.given for it in cases if it.words == ["run"] and it.status == 0 and len(it.given) <= LONGEST]
    made = (printed(program, ["simulate", "--seed", str(seed), "--steps", "60"], b"") for seed in range(SEEDS))
    for number, text in enumerate([*scripts, *(it.encode() for it in made)]):
        yield f"drawing of steps {number}", schedule_fault(program, text)
    texts = [it.given for it in cases if it.words == ["explain", "--tree"] and it.status == 0]
    for number, text in enumerate([*texts, *hostile_texts()]):
        yield f"drawing {number}", drawing_fault(program, text)
