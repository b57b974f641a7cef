"""Databases in folders: what a plain run of the same steps tells is told, outlives the program, and stands in the log.

Of each script of the cases a run over a new folder must print what one in memory prints; what was committed by it must
be there afterwards; and the lines of its log, done as steps in memory, must come to the same records.
"""
import ctypes
import os
from crashes import FIRST, FIRST_ENTRY, SECOND, SECOND_ENTRY, bytes_in, crash_faults, log_of, put, ran, told_fault

LIBC = ctypes.CDLL(None, use_errno=True)
# what drops a capability for good, and those by which the superuser writes and reads what is closed to all
PR_CAPBSET_DROP, CAP_DAC_OVERRIDE, CAP_DAC_READ_SEARCH = 24, 1, 2
# what tells the contents of the first three stores, after a line that isn't taken
MARK = b"contents\n"
CONTENTS = MARK + b"15: abandon\n" + b"".join(
    b"15: begin %d\n15: .schema\n15: .indexes\n15: .dump\n15: abandon\n" % it for it in (1, 2, 3))
NO_STEPS = b'{"steps":[]}'
ASKED = b'begin\nquery book where author = "Scott"\n'
FOUND = b'begun 2\nrows [["Ivanhoe","Scott",2]]\n'
# a script of two clients, of which one is committed and isn't told, and the other one has a conflict
SCRIPT = b"""{"steps":[["begin",0],["create",0,{"types":[{"name":"t","fields":[["k","int"],["v","int"]],"key":["k"]}]}],
["commit",0],["settle"],["begin",1],["begin",2],["save",1,"t",[1,1]],["save",2,"t",[1,2]],["commit",1],["commit",2],
["resolve",0],["resolve",0],["log",0],["log",0],["lost"],["report"],["settle"]]}
"""
AGAIN = b'{"steps":[["begin",3],["load",3,"t",[1]],["save",3,"t",[2,2]],["commit",3],["settle"]]}\n'
AGAIN_TOLD = b"1 begun 2\n2 found [1,1]\n3 saved new\n4 submitted 3\n5 client 3 committed 3\n"


def contents(program, words, before=b""):
    """What a shell tells of the contents of its stores, but for the versions at which it reads."""
    status, output, errors = ran(program, ["shell", *words], before + CONTENTS)
    _, _, told = output.rpartition(b"no line begins with contents")
    return status, [it for it in told.split(b"\n")[2:] if not it.startswith(b"begun ")], errors


def typed_log(lines):
    """The lines of a log, as they are typed to be done once more: each entry a transaction in its store."""
    typed, client = [], None
    for line in [*lines.decode().splitlines(), "version"]:
        if line.startswith("version"):
            typed += [] if client is None else [f'["commit",{client}]', '["settle"]']
            words = line.split()
            if len(words) > 1:
                client = words[3]
                typed.append(f'["begin",{client},{words[7]}]')
        else:
            typed.append(line)
    return "".join(f"{it}\n" for it in typed).encode()


def script_fault(program, folder, number, case):
    """What is wrong where a script is run over a new folder, or None."""
    data = os.path.join(folder, f"script-{number}")
    fault = told_fault(program, [*case.words, "--data", data], case.given, (case.status, case.output, case.errors))
    if fault:
        return fault
    kept = contents(program, ["--data", data])
    status, lines, errors = ran(program, ["log", data], b"")
    if (status, errors) != (0, b""):
        return f"its log: {status} {errors!r}"
    if contents(program, [], typed_log(lines) + b"settle\n") != kept:
        return "the lines of its log come to something else"
    text = case.given or bytes_in(case.words[-1])
    if b'"config"' in text:
        return None
    path = os.path.join(folder, "script.json")
    put(path, text)
    wanted = contents(program, [], f".read {path}\n".encode())
    return None if kept == wanted else f"{kept!r} is there, wanted {wanted!r}"


def outlived_fault(program, folder):
    """What is wrong where a database is opened again, or None."""
    data = os.path.join(folder, "outlived")
    wanted = ran(program, ["shell", "--echo"], FIRST + SECOND)
    return (told_fault(program, ["shell", "--echo", "--data", data], FIRST + SECOND, wanted)
            or told_fault(program, ["log", data], b"", (0, FIRST_ENTRY + SECOND_ENTRY, b""))
            or told_fault(program, ["shell", "--data", data], ASKED, (0, FOUND, b""))
            or told_fault(program, ["shell", "--data", data + "/"], ASKED, (0, FOUND, b"")))


def lost_fault(program, folder):
    """What is wrong with a commit of which its client isn't told, and with the version after a conflict, or None."""
    data = os.path.join(folder, "lost")
    ran(program, ["run", "--data", data], SCRIPT)
    return told_fault(program, ["run", "--data", data], AGAIN, (0, AGAIN_TOLD, b""))


def bad_script_fault(program, folder):
    """What is wrong where a script is refused, or None: no folder is made then."""
    for text, told in ((b"[]", b"bad script at step 0\n"), (b'{"steps":[["settl"]]}', b"bad script at step 1\n"),
                       (b'{"config":{"logs":0},"steps":[]}', b"bad config BadCount\n")):
        data = os.path.join(folder, "unmade")
        fault = told_fault(program, ["run", "--data", data], text, (1, b"", told))
        if fault or os.path.exists(data):
            return fault or "a folder is made"
    return None


def refused_cases(folder):
    """Words of folders that can't be opened, and what is told of each."""
    plain, within = os.path.join(folder, "plain"), os.path.join(folder, "within")
    put(plain, b"")
    os.makedirs(os.path.join(within, "log"))
    lacks = os.path.join(folder, "no", "such")
    unopened, unmade = "the log can't be opened", "the folder can't be made"
    return [
        (["shell", "--data", plain], f"{plain}/log: {unopened}: a file stands in its place\n"),
        (["shell", "--data", within], f"{within}/log: {unopened}: a folder stands in its place\n"),
        (["shell", "--data", lacks], f"{lacks}: {unmade}: there is no such folder\n"),
        (["run", "--data", lacks], f"{lacks}: {unmade}: there is no such folder\n"),
        (["log", lacks], f"{lacks}/log: there is no such file\n"),
        (["log", within], f"{within}/log: the log can't be read\n"),
    ]


def as_others():
    """Gives up what lets the superuser read and write what is closed to all; nobody else has it."""
    for capability in CAP_DAC_OVERRIDE, CAP_DAC_READ_SEARCH:
        LIBC.prctl(PR_CAPBSET_DROP, capability, 0, 0, 0)


def closed_fault(program, folder):
    """What is wrong where a folder or its file may not be written or read, or None: it is told, and nothing changes."""
    data = os.path.join(folder, "closed")
    ran(program, ["shell", "--data", data], FIRST)
    log, new = log_of(data), os.path.join(data, "new")
    unopened = f"{log}: the log can't be opened: permission is denied\n".encode()
    unmade = f"{new}: the folder can't be made: permission is denied\n".encode()
    try:
        os.chmod(log, 0o444)
        os.chmod(data, 0o555)
        fault = (told_fault(program, ["shell", "--data", data], b"", (1, b"", unopened), preexec_fn=as_others)
                 or told_fault(program, ["shell", "--data", new], b"", (1, b"", unmade), preexec_fn=as_others)
                 or told_fault(program, ["log", data], b"", (0, FIRST_ENTRY, b""), preexec_fn=as_others))
        os.chmod(log, 0)
        unread = f"{log}: the log can't be read\n".encode()
        return fault or told_fault(program, ["log", data], b"", (1, b"", unread), preexec_fn=as_others)
    finally:
        os.chmod(data, 0o755)


def folder_faults(program, folder, cases):
    """What each case shows, and what is wrong with it, or None."""
    folder = os.path.join(folder, "folders")
    os.mkdir(folder)
    scripts = [it for it in cases if it.words[:1] == ["run"] and it.status == 0 and "--svg" not in it.words]
    for number, case in enumerate(scripts):
        yield f"over a folder: {case.shows}", script_fault(program, folder, number, case)
    yield "a database outlives its process", outlived_fault(program, folder)
    yield "a lost report, and a gap of versions", lost_fault(program, folder)
    yield "a script that is refused makes no folder", bad_script_fault(program, folder)
    for words, told in refused_cases(folder):
        yield f"no database: {words[0]}", told_fault(program, words, NO_STEPS, (1, b"", told.encode()))
    yield "a folder that may not be written", closed_fault(program, folder)
    yield from crash_faults(program, folder)
