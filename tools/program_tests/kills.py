"""A database in a folder in which eight clients have transactions open at once, killed again and again.

Each transaction saves two records under an index, a count and a sum. After each kill it is there whole or not at all,
it is there where it was told to be committed, no index has more or less than the records, and no total. A copy of the
file that is cut short somewhere has the first ones of the transactions that the file has, in the order of versions.
"""
import json
import os
import random
import shutil
import subprocess
import time
from collections import Counter
from crashes import log_of, put, ran, written

CLIENTS, SHOPS, KILLS, CUTS = 8, 5, 200, 40
# the most rounds of the eight clients that are told before a kill, and the most seconds from there to it
ROUNDS, PAUSE = 2, 0.003
SECONDS = 60
SEED = 20261201
MADE = b"""begin
create
type sale id int, shop int, amount int key id
index by_shop on sale shop
count sales on sale shop
sum sold of amount on sale shop
commit
"""
QUERIES = [b"query sale", *(b"query sale where shop = %d" % it for it in range(SHOPS))]
TOTALS = [b"aggregate %s %d" % (name, it) for name in (b"sales", b"sold") for it in range(SHOPS)]
ASKED = b"begin\n" + b"".join(it + b"\n" for it in [*QUERIES, *TOTALS])


def records_of(number):
    """The records of a transaction."""
    return [[2 * number + it, (number + it) % SHOPS, number % 97 + it] for it in range(2)]


def typed_round(first, chosen):
    """The transactions of eight clients that are open together, each ended when chance has it."""
    begun = [b"%d: begin" % it for it in range(CLIENTS)]
    saved = [b"%d: save sale %d %d %d" % (it, *record) for it in range(CLIENTS) for record in records_of(first + it)]
    ended = [b"%d: commit" % it for it in range(CLIENTS)]
    for lines in saved, ended:
        chosen.shuffle(lines)
    return b"\n".join([*begun, *saved, *ended, b""])


def told_clients(lines):
    """The clients of which lines tell that their transactions are committed."""
    return [int(it.split()[1]) for it in lines if it.startswith(b"client ") and it.split()[2] == b"committed"]


def killed_once(program, data, first, chosen):
    """Kills a shell in the midst of a round, after some others. The transactions that were told, and the number of the
    next one."""
    process = subprocess.Popen([program, "shell", "--data", data], stdin=subprocess.PIPE, stdout=subprocess.PIPE)
    told, most = [], first + CLIENTS * chosen.randrange(ROUNDS + 1)
    while first < most:
        process.stdin.write(typed_round(first, chosen))
        process.stdin.flush()
        clients = []
        while len(clients) < CLIENTS:
            clients += told_clients([process.stdout.readline()])
        told += [first + it for it in clients]
        first += CLIENTS
    process.stdin.write(typed_round(first, chosen))
    process.stdin.flush()
    time.sleep(chosen.uniform(0, PAUSE))
    process.kill()
    output, _ = process.communicate(timeout=SECONDS)
    return told + [first + it for it in told_clients(output.split(b"\n"))], first + CLIENTS


def totals_of(rows):
    """What the counts and the sums of rows are, in the order in which they are asked for."""
    sales, sold = Counter(), Counter()
    for _, shop, amount in rows:
        sales[shop] += 1
        sold[shop] += amount
    return [total[it] for total in (sales, sold) for it in range(SHOPS)]


def found_in(program, data):
    """The numbers of the transactions that are there, and what is wrong, or None."""
    status, output, errors = ran(program, ["shell", "--data", data], ASKED)
    lines = output.split(b"\n")
    rows = [json.loads(it[5:]) for it in lines if it.startswith(b"rows ")]
    totals = [int(it[6:]) for it in lines if it.startswith(b"total ")]
    if (status, errors, len(rows), len(totals)) != (0, b"", len(QUERIES), len(TOTALS)):
        return set(), f"{status} {errors!r} {output[:300]!r}"
    whole, *by_shop = rows
    numbers = {it[0] // 2 for it in whole}
    if whole != [it for number in sorted(numbers) for it in records_of(number)]:
        return numbers, "a transaction is there in part"
    if by_shop != [[it for it in whole if it[1] == shop] for shop in range(SHOPS)]:
        return numbers, "the index has more or less than the records"
    return numbers, None if totals == totals_of(whole) else f"the totals are {totals}"


def committed_in(program, data):
    """The numbers of the transactions in the order in which the log has them, and what is wrong, or None."""
    status, output, errors = ran(program, ["log", data], b"")
    saved = [json.loads(it)[3][0] // 2 for it in output.split(b"\n") if it.startswith(b'["save"')]
    return list(dict.fromkeys(saved)), None if (status, errors) == (0, b"") else f"log: {status} {errors!r}"


def killed_fault(program, data, chosen):
    """What is wrong where it is killed so often, or None."""
    told, first = set(), 0
    for number in range(KILLS):
        more, first = killed_once(program, data, first, chosen)
        told |= set(more)
        there, fault = found_in(program, data)
        if fault or not told <= there:
            return f"kill {number}: {fault or f'{sorted(told - there)} are gone, which were told'}"
        if not there <= set(range(first)):
            return f"kill {number}: {sorted(there)[-3:]} are there, which were never begun"
    return None


def cut_fault(program, data, made, folder, chosen):
    """What is wrong with a copy of its file that is cut short at random places, behind its first bytes, or None."""
    whole = written(log_of(data))
    order, fault = committed_in(program, data)
    for number in range(CUTS):
        if fault:
            return f"cut {number}: {fault}"
        copy = os.path.join(folder, "cut")
        os.makedirs(copy)
        put(log_of(copy), whole[:chosen.randrange(made, len(whole))])
        there, fault = found_in(program, copy)
        if not fault and there != set(order[:len(there)]):
            fault = f"{len(there)} are there, which aren't the first ones"
        shutil.rmtree(copy)
    return None


def kill_faults(program, folder):
    """What each case shows, and what is wrong with it, or None."""
    data, chosen = os.path.join(folder, "clients"), random.Random(SEED)
    status, output, _ = ran(program, ["shell", "--data", data], MADE)
    made = len(written(log_of(data))) if status == 0 else 0
    fault = killed_fault(program, data, chosen) if made else f"it isn't made: {status} {output!r}"
    yield "eight clients whose shell is killed", fault
    yield "the file of eight clients, cut short", fault or cut_fault(program, data, made, folder, chosen)
