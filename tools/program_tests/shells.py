"""What is typed at the shell: steps told before their replies, lines cut short, and files that are read or imported."""
import json
from cases import Case

# what is typed, and what is told of it with the step before each reply
TYPED = b"""begin
create
type t k int, s text key k
save t 1 "a"
save t 2 null
query t
query t where k = 3
commit
"""
TYPED_ECHOED = b"""["begin",0]
begun 0
["create",0,{"types":[]}]
ok
["type",0,{"name":"t","fields":[["k","int"],["s","text"]],"key":["k"]}]
ok
["save",0,"t",[1,"a"]]
saved new
["save",0,"t",[2,null]]
saved new
["query",0,{"type":"t"}]
[1,"a"]
[2,null]
["query",0,{"type":"t","filter":["=","k",3]}]
["commit",0],["settle"]
submitted 1
client 0 committed 1
"""


def written(folder, name, data):
    """The path of a file with these bytes."""
    path = f"{folder}/{name}"
    with open(path, "wb") as file:
        file.write(data)
    return path


# a script whose steps are on several lines, and what it replies in a shell
SCRIPT = b"""{ "steps": [
  ["begin",0], ["create",0,{"types":[
    {"name":"t","fields":[["k","int"]],"key":["k"]}]}],
  ["commit",0], ["settle"] ] }
"""
REPLIED = b"begun 0\nok\nsubmitted 1\nclient 0 committed 1\n"


def script_cases(folder):
    """Scripts that are read: laid out in any way, with steps told before replies, bad ones, and dumps."""
    laid_out = written(folder, "laid_out.json", SCRIPT)
    bad = written(folder, "bad.json", b'{"steps":[\n["settle"]\n["settl"]]}')
    with_config = written(folder, "config.json", b'{"config":{"logs":2},"steps":[["settle"]]}')
    frames = written(folder, "frames.json", b'{"steps":[\n["begin",0],\n["abandon",0]\n]}\n')
    within = written(folder, "within", f".read {frames}\nsettle\n.quit\nsettle\n".encode())
    echoed = b'["begin",0]\nbegun 1\n["abandon",0]\nok\n'
    return [
        Case("a script is read", ["shell"], f".read {laid_out}\n.schema\n".encode(), 0,
             REPLIED + b"type t k int key k\n", b""),
        Case("a script is read, echoed", ["shell", "--echo"], f".read {laid_out}\n.read {frames}".encode(), 0,
             b'["begin",0]\nbegun 0\n["create",0,{"types":[ {"name":"t","fields":[["k","int"]],"key":["k"]}]}]\nok\n'
             b'["commit",0]\nsubmitted 1\n["settle"]\nclient 0 committed 1\n' + echoed, b""),
        Case("a bad script is read", ["shell"], f".read {bad}\nsettle\n".encode(), 0,
             f"{bad}:3:1: a comma is missing before this\n"
             f'{bad}:3:2: step 2: no step is called "settl"; did you mean "settle"?\nnothing\n'.encode(), b""),
        Case("a script with a configuration is read", ["shell"], f".read {with_config}\n".encode(), 0,
             f"{with_config} has a config, which a shell can't take: run it by recordctl run\n".encode(), b""),
        Case("a script with a step a line is typed", ["shell"], b'{"steps":[\n["begin",0],\n["abandon",0]\n]}\n', 0,
             b"begun 0\nok\n", b""),
        Case("a file that reads another one", ["shell"], f".read {within}\nsettle\n".encode(), 0,
             b"a file that is read reads no other one\nnothing\nnothing\n", b""),
    ]


MADE = "begin\ncreate\ntype book title text, copies int, mark bytes key title\ncommit\n"
TOLD = "begun 0\nok\nok\nsubmitted 1\nclient 0 committed 1\n"


def import_case(shows, path, told, rows):
    """The case of a file that is imported, of what that tells, and of the records that are there then."""
    typed = f"{MADE}.import {path} book\nbegin\nquery book\n"
    begun = 1 if rows == "[]" else 2
    return Case(shows, ["shell"], typed.encode(), 0, f"{TOLD}{told}begun {begun}\nrows {rows}\n".encode(), b"")


def many(folder, count):
    """The case of so many lines, each in the place of one of 700 records."""
    lines = "".join(f'["b{it % 700:03}",{it},null]\n' for it in range(count))
    path = written(folder, "many.jsonl", lines.encode())
    last = {f"b{it % 700:03}": it for it in range(count)}
    rows = json.dumps([[title, copies, None] for title, copies in sorted(last.items())], separators=(",", ":"))
    typed = f"{MADE}.import {path} book\nbegin\nquery book\n"
    transactions = -(-count // 500)
    told = f"{TOLD}{count} records are saved\nbegun {1 + transactions}\nrows {rows}\n"
    return Case(f"{count} lines are imported", ["shell"], typed.encode(), 0, told.encode(), b"")


def large(folder):
    """The case of records of which a hundred don't fit into a transaction."""
    text = "n" * 99_000
    path = written(folder, "large.jsonl", "".join(f'["{it}",{it},{{"hex":"{"00" * 20_000}"}}]\n' if it % 2 else
                                                  f'["{it}","{text}",null]\n' for it in range(0, 300, 2)).encode())
    wrong = f"{path}:1: refused WrongKind\n0 records are saved\n"
    return import_case("a text for a number is imported", path, wrong, "[]")


def store_case(folder):
    """The case of a file that is imported by a client, into the store in which it began last."""
    path = written(folder, "numbers.jsonl", b"[1]\n[2]\n")
    typed = (f"2: begin 3\n2: create\n2: type t k int key k\n2: commit\n.import {path} t\n2: .import {path} t\n"
             f"2: begin 3\n2: .import {path} t\n2: query t\n")
    told = ("begun 0\n  client 2 is in store 3\nok\nok\nsubmitted 1\nclient 2 committed 1\nno type t is committed\n"
            "2 records are saved\nbegun 2\n  client 2 is in store 3\n"
            "the client 2 has a transaction: commit or abandon it first\nrows [[1],[2]]\n")
    return Case("a client's file is imported", ["shell"], typed.encode(), 0, told.encode(), b"")


def import_cases(folder):
    """Files of records: lines of JSON, tables, what is wrong in them, and many lines."""
    json_lines = written(folder, "books.jsonl", b'["Emma",3,null]\n\n {"copies":1, "title":"Persuasion"} \n'
                                                b'{"title":"Z","mark":{"hex":"00ff"}}')
    table = written(folder, "books.csv", b'copies,title,mark\r\n3,Emma,\r\n1,"P, ""Q""\n",00FF\r\n,Z,')
    rows = '[["Emma",3,null],["Persuasion",1,null],["Z",null,{"hex":"00ff"}]]'
    table_rows = '[["Emma",3,null],["P, \\"Q\\"\\n",1,{"hex":"00ff"}],["Z",null,null]]'
    bad = {
        "bad.jsonl": (b'["Emma",3,null]\n["Z",3 null]\n["Y",1,null]',
                      ":2: column 8: a comma is missing before this\n1 record is saved\n", '[["Emma",3,null]]'),
        "field.jsonl": (b'{"titel":"Emma"}', ':1: no field is called "titel"; did you mean "title"?\n'
                        "0 records are saved\n", "[]"),
        "float.jsonl": (b'["Emma",1.5,null]', ':1: a cell is a whole number, a text, {"hex":".."} or null\n'
                        "0 records are saved\n", "[]"),
        "text.jsonl": (b'"Emma"', ":1: a line is a list of cells, or an object with them at the names of fields\n"
                       "0 records are saved\n", "[]"),
        "null.jsonl": (b'["Emma",1,null]\n[null,1,null]\n', ":2: refused NullKey\n1 record is saved\n",
                       '[["Emma",1,null]]'),
        "field.csv": (b"title,copeis\nEmma,1\n", ':1: no field is called "copeis"; did you mean "copies"?\n'
                      "0 records are saved\n", "[]"),
        "twice.csv": (b"title,title\nEmma,1\n", ':1: the field "title" stands twice\n0 records are saved\n', "[]"),
        "number.csv": (b"title,copies\nEmma,1\nZ,many\n",
                       ':3: copies is a whole number of 64 bits, not "many"\n1 record is saved\n', '[["Emma",1,null]]'),
        "hex.csv": (b"title,mark\nEmma,0\n", ':2: mark is of pairs of hexadecimal digits, not "0"\n'
                    "0 records are saved\n", "[]"),
        "short.csv": (b"title,copies\nEmma,1\nZ\n", ":3: a row has 2 cells, as the first line, not 1\n"
                      "1 record is saved\n", '[["Emma",1,null]]'),
    }
    busy = f"{MADE}begin\n.import {json_lines} book\n.import {json_lines} film\n.import nowhere book\n"
    return [
        import_case("lines of JSON are imported", json_lines, "3 records are saved\n", rows),
        import_case("a table is imported", table, "3 records are saved\n", table_rows),
        *[import_case(f"imported: {name}", (path := written(folder, name, data)), path + told, there)
          for name, (data, told, there) in bad.items()],
        store_case(folder),
        many(folder, 1_234),
        large(folder),
        Case("nothing is imported", ["shell"], busy.encode(), 0,
             f"{TOLD}begun 1\nthe client 0 has a transaction: commit or abandon it first\n"
             "no type film is committed\nnowhere can't be read\n".encode(), b""),
    ]


def shell_cases(folder):
    """What is typed at the shell: with steps told before their replies, in files, cut short, or not as text."""
    path = f"{folder}/typed"
    with open(path, "wb") as file:
        file.write(TYPED)
    read = f".read {path}\nbegin\n.quit\nbegin\n".encode()
    told = (b"begun 0\nok\nok\nsaved new\nsaved new\nrows [[1,\"a\"],[2,null]]\nrows []\n"
            b"submitted 1\nclient 0 committed 1\n")
    return [
        Case("typed, echoed as JSON", ["shell", "--echo", "--json"], TYPED, 0, TYPED_ECHOED, b""),
        Case("a file of lines", ["shell"], read, 0, told + b"begun 1\n", b""),
        Case("nothing is typed", ["shell"], b"", 0, b"", b""),
        Case("a line without an end", ["shell"], b"settle", 0, b"nothing\n", b""),
        Case("lines of Windows", ["shell"], b"settle\r\n\r\nlost\r\n", 0, b"nothing\nnothing\n", b""),
        Case("a line that isn't UTF-8", ["shell"], b"\xff\nsettle\n", 0,
             b"column 1: this line isn't UTF-8\nnothing\n", b""),
        Case("a line of 200,000 words", ["shell"], b"save t" + b" 1" * 200_000 + b"\n", 0,
             b"refused NoTransaction\n  the client has no transaction: begin begins one\n", b""),
        Case("20,000 lines", ["shell"], b"settle\n" * 20_000, 0, b"nothing\n" * 20_000, b""),
        *script_cases(folder),
        *import_cases(folder),
    ]
