"""Databases in folders whose program is killed, or whose file is cut short, damaged, in use, or can't grow.

What was told to be committed is there after each kill, and of the transaction at which the program was all or nothing.
A file that ends in the midst of an entry, or lacks some of its bytes, has those before it. Where an entry has another
byte the file is refused, at the place where that entry begins, and keeps each byte. What is there is what a plain shell
tells that did the same transactions.
"""
import os
import random
import resource
import subprocess
import time

SECONDS = 60
# how often a shell is killed, and a run; how many transactions more are told before that at most, and the seconds then
KILLS, KILLED_RUNS, MORE, PAUSE = 40, 10, 4, 0.004
# how long a file may get on a full disk: longer than the room that it begins with, and no longer than two of these
FULL = 100_000
SEED = 20261130
FIRST = b"""begin
create
type book title text, author text, copies int key title
index by_author on book author
save book "Emma" "Austen" 3
commit
"""
SECOND = b"""begin
save book "Ivanhoe" "Scott" 2
remove book "Waverley"
load book "Emma"
commit
"""
THIRD = b'begin\nremove book "Emma"\ncommit\n'
FIRST_ENTRY = b"""version 1 client 0 number 1 store 1
["create",0,{"types":[],"indexes":[]}]
["type",0,{"name":"book","fields":[["title","text"],["author","text"],["copies","int"]],"key":["title"]}]
["index",0,{"name":"by_author","kind":"value","type":"book","columns":["author"]}]
["save",0,"book",["Emma","Austen",3]]
"""
SECOND_ENTRY = b"""version 2 client 0 number 2 store 1
["save",0,"book",["Ivanhoe","Scott",2]]
["remove",0,"book",["Waverley"]]
"""
ENTRIES = [FIRST_ENTRY, SECOND_ENTRY, b'version 3 client 0 number 3 store 1\n["remove",0,"book",["Emma"]]\n']
MADE = b"begin\ncreate\ntype t k int, v int key k\ncommit\n"
MADE_STEPS = (b'["begin",0],["create",0,{"types":[{"name":"t","fields":[["k","int"],["v","int"]],"key":["k"]}]}],'
              b'["commit",0],["settle"]')
ROWS = b"begin\nquery t\nabandon\n"
UNWRITTEN = b"the log can't be written: what is committed last may be in it or not\n"


def ran(program, words, given, **options):
    """What the program does with these words and this input: its status, and what it wrote on both outputs."""
    done = subprocess.run([program, *words], input=given, capture_output=True, timeout=SECONDS, check=False, **options)
    return done.returncode, done.stdout, done.stderr


def told_fault(program, words, given, wanted, **options):
    """What is wrong with what the program does, or None."""
    found = ran(program, words, given, **options)
    return None if found == wanted else f"{found!r}, wanted {wanted!r}"


def log_of(data):
    """The path of the file of a database."""
    return os.path.join(data, "log")


def bytes_in(path):
    with open(path, "rb") as file:
        return file.read()


def written(path):
    """The blocks of a file, before the room of zeros behind them: each is 65 bytes and as many as it says."""
    data, end = bytes_in(path), 0
    while data[end:end + 1] == b"\1":
        end += 65 + int.from_bytes(data[end + 1:end + 9], "big")
    return data[:end]


def put(path, data):
    with open(path, "wb") as file:
        file.write(data)


def typed(number):
    """The transaction of a number, as it is typed: two records, which are there both or not at all."""
    return b"begin\nsave t %d %d\nsave t %d %d\ncommit\n" % (2 * number, number, 2 * number + 1, number)


def as_steps(number):
    """The same as steps of a script."""
    return b'["begin",0],["save",0,"t",[%d,%d]],["save",0,"t",[%d,%d]],["commit",0],["settle"]' % (
        2 * number, number, 2 * number + 1, number)


def rows(program, words, before=b""):
    """The line of all rows, or all that the shell tells where there is none."""
    found = ran(program, ["shell", *words], before + ROWS)
    lines = [it for it in found[1].split(b"\n") if it.startswith(b"rows ")]
    return lines[0] if found[0] == 0 and len(lines) == 1 else found


def rows_of(program, count):
    """The same in memory after so many transactions."""
    return rows(program, [], MADE + b"".join(typed(it) for it in range(count)))


def kept_fault(program, data, told, begun):
    """How many transactions are there, and what is wrong with them, or None: those that were told, and no others than
    those that were begun."""
    found = rows(program, ["--data", data])
    count = found.count(b"[") // 2 if isinstance(found, bytes) else -1
    if not told <= count <= begun:
        return count, f"{count} are there, where {told} of {begun} were told: {found!r}"
    return count, None if found == rows_of(program, count) else f"{found[:200]!r} is there, of {count}"


def killed_once(program, data, count, chosen):
    """Kills a shell in the midst of a transaction, after some others. The number of those that were told."""
    process = subprocess.Popen([program, "shell", "--data", data], stdin=subprocess.PIPE, stdout=subprocess.PIPE)
    told, most = count, count + chosen.randrange(MORE + 1)
    while told < most:
        process.stdin.write(typed(told))
        process.stdin.flush()
        while b"committed" not in process.stdout.readline():
            pass
        told += 1
    process.stdin.write(typed(told))
    process.stdin.flush()
    time.sleep(chosen.uniform(0, PAUSE))
    process.kill()
    output, _ = process.communicate(timeout=SECONDS)
    return told + output.count(b"committed")


def killed_fault(program, folder):
    """What is wrong where the shell is killed in the midst of a transaction, again and again, or None."""
    data, chosen, count = os.path.join(folder, "killed"), random.Random(SEED), 0
    if ran(program, ["shell", "--data", data], MADE)[0]:
        return "it isn't made"
    for number in range(KILLS):
        told = killed_once(program, data, count, chosen)
        count, fault = kept_fault(program, data, told, told + 1)
        if fault:
            return f"kill {number}: {fault}"
    return None


def killed_runs_fault(program, folder):
    """What is wrong where a run is killed, or None."""
    chosen, many = random.Random(SEED), 400
    script = b'{"steps":[' + MADE_STEPS + b"," + b",".join(as_steps(it) for it in range(many)) + b"]}\n"
    for number in range(KILLED_RUNS):
        data = os.path.join(folder, f"killed-{number}")
        process = subprocess.Popen([program, "run", "--data", data], stdin=subprocess.PIPE, stdout=subprocess.PIPE)
        process.stdin.write(script)
        process.stdin.close()
        least = 200 * (1 + chosen.randrange(40))
        while not os.path.exists(log_of(data)) or len(written(log_of(data))) < least:
            time.sleep(0.001)
        process.kill()
        output = process.stdout.read()
        process.wait(SECONDS)
        count, fault = kept_fault(program, data, max(0, output.count(b"committed") - 1), many)
        if fault or count == many:
            return f"kill {number}: {fault or 'it was done'}"
    return None


def made_steps(program, folder, name):
    """A new database, and what its file has after each of three transactions, but for the room behind."""
    data, seen = os.path.join(folder, name), []
    for given in (FIRST, SECOND, THIRD):
        status, _, errors = ran(program, ["shell", "--data", data], given)
        if (status, errors) != (0, b""):
            raise ValueError(f"{given!r}: {status} {errors!r}")
        seen.append(written(log_of(data)))
    return data, seen


def torn_tails(second, third):
    """What a crash may leave of the third transaction: no byte of it, some of its bytes, and bytes behind a zero."""
    entry = third[len(second):]
    for missing in (1, 2, 7, 40, len(entry) - 1):
        yield second + entry[:missing - 1] + b"\0" + entry[missing:]
        yield second + bytes(missing) + entry[missing:]
    yield from (second + it for it in (bytes(4096), b"\0" + b"\xff" * 77))


def torn_fault(program, folder):
    """What is wrong where a file ends in the midst of an entry, or lacks some of its bytes, or None.

    It has the entries before it, and takes more. Behind the last one stands room of zeros.
    """
    data, seen = made_steps(program, folder, "torn")
    second, third = seen[1:]
    ends = [0, *(len(it) for it in seen)]
    tails = [third[:it] for it in [*range(0, len(third), 5), *ends]] + list(torn_tails(second, third))
    for tail in tails:
        count = max(it for it, end in enumerate(ends) if tail[:end] == third[:end])
        put(log_of(data), tail)
        fault = (told_fault(program, ["log", data], b"", (0, b"".join(ENTRIES[:count]), b""))
                 or told_fault(program, ["shell", "--data", data], b"settle\n", (0, b"nothing\n", b""))
                 or (None if written(log_of(data)) == third[:ends[count]] else "another end is wiped"))
        if fault:
            return f"{len(tail)} bytes of {len(third)}: {fault}"
    put(log_of(data), third[:-2])
    if ran(program, ["shell", "--data", data], THIRD)[0] or written(log_of(data)) != third:
        return "it doesn't go on where it was cut off"
    return None


def damage_fault(program, folder):
    """What is wrong where a byte of an entry is another one, or zero where an entry stands behind it, or None."""
    data, (first, second, third) = made_steps(program, folder, "damaged")
    second_at, lost = len(first), len(second.rstrip(b"\0")) - 1
    for at, other, begin, lines in ((0, 2, 0, b""), (1, 1, 0, b""), (17, 0, 0, b""), (100, third[100] ^ 1, 0, b""),
                                    (second_at + 17, 254, second_at, FIRST_ENTRY),
                                    (second_at + 60, third[second_at + 60] ^ 1, second_at, FIRST_ENTRY),
                                    (lost, 0, second_at, FIRST_ENTRY)):
        damaged = third[:at] + bytes([other]) + third[at + 1:]
        put(log_of(data), damaged)
        told = f"{log_of(data)}: the log is damaged from byte {begin} on\n".encode()
        fault = (told_fault(program, ["shell", "--data", data], b"settle\n", (1, b"", told))
                 or told_fault(program, ["run", "--data", data], b'{"steps":[["settle"]]}', (1, b"", told))
                 or told_fault(program, ["log", data], b"", (1, lines, told)))
        if fault or bytes_in(log_of(data)) != damaged:
            return fault or "the damaged file is written"
    put(log_of(data), second)
    return told_fault(program, ["log", data], b"", (0, FIRST_ENTRY + SECOND_ENTRY, b""))


def busy_fault(program, folder):
    """What is wrong where two processes open one database, or None: the second one is refused, and may print it."""
    data = os.path.join(folder, "busy")
    process = subprocess.Popen([program, "shell", "--data", data], stdin=subprocess.PIPE, stdout=subprocess.PIPE)
    process.stdin.write(FIRST)
    process.stdin.flush()
    while b"committed" not in process.stdout.readline():
        pass
    told = (1, b"", f"{log_of(data)}: another process has this database open\n".encode())
    fault = (told_fault(program, ["shell", "--data", data], b"", told)
             or told_fault(program, ["run", "--data", data], b'{"steps":[["settle"]]}', told)
             or told_fault(program, ["log", data], b"", (0, FIRST_ENTRY, b"")))
    process.communicate(timeout=SECONDS)
    return fault or told_fault(program, ["shell", "--data", data], b"settle\n", (0, b"nothing\n", b""))


def no_growth(size):
    """What lets no file of a process get longer, as a full disk does; the process is told, and not ended."""
    return {"restore_signals": False, "preexec_fn": lambda: resource.setrlimit(resource.RLIMIT_FSIZE, (size, size))}


def full_fault(program, folder):
    """What is wrong where the file can't get longer, or None: it is told after all that was committed before."""
    many = 600
    given = MADE + b"".join(typed(it) for it in range(many))
    script = b'{"steps":[' + MADE_STEPS + b"," + b",".join(as_steps(it) for it in range(many)) + b"]}\n"
    for words, input_of in (["shell"], given), (["run"], script):
        wanted = ran(program, words, input_of)[1]
        data = os.path.join(folder, f"full-{words[0]}")
        status, output, errors = ran(program, [*words, "--data", data], input_of, **no_growth(FULL))
        told = output.count(b"committed") - 1
        if (status, errors) != (1, UNWRITTEN) or not wanted.startswith(output) or not 0 < told < many:
            return f"{words[0]}: {status} {errors!r} after {output[-200:]!r}"
        count, fault = kept_fault(program, data, told, told + 1)
        more = b"".join(typed(it) for it in range(count, many))
        if fault or ran(program, ["shell", "--data", data], more)[0] or \
                rows(program, ["--data", data]) != rows_of(program, many):
            return f"{words[0]}, opened again: {fault}"
    return None


def crash_faults(program, folder):
    """What each case shows, and what is wrong with it, or None."""
    yield "a shell that is killed", killed_fault(program, folder)
    yield "a run that is killed", killed_runs_fault(program, folder)
    yield "a file that ends in the midst of an entry", torn_fault(program, folder)
    yield "a file with another byte", damage_fault(program, folder)
    yield "a database that is in use", busy_fault(program, folder)
    yield "a disk that is full", full_fault(program, folder)
