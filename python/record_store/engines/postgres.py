"""A PostgreSQL database, by `psycopg` (version 3).

**Rule of a commit.** A function in the database locks the row with the version, so that one commit is made at a time,
and refuses it where a key of a range that was read has a version above the one that was read. A key that is cleared
stays as a row without a value, with the version that cleared it, so that a deletion shows as a write does. SERIALIZABLE
would not do: it lets a transaction commit after one that overwrote what it has read, since it may order the two the
other way round.

Reads are made in a transaction of PostgreSQL's own (REPEATABLE READ), whose snapshot has the version's row and the
pairs of that version. The function runs at READ COMMITTED, where what it looks at after the lock is what the commit
before it left. A commit outlives the server as far as its `synchronous_commit` says, which is on where nothing is said.

A key has about 2,700 bytes at most, or some more where it can be compressed, since it is to fit into a page of the
table's index: a commit of a longer one is TooLarge. How long a server may be silent is the connection string's matter
(`connect_timeout`, `tcp_user_timeout`). A connection that was lost while no transaction used it is made anew. Where one
is lost in a commit, or the server ends it or cancels what it does, the commit is Unknown, and isn't made again.
"""
from __future__ import annotations

import sys
import threading
from collections.abc import Iterator, Sequence
from contextlib import contextmanager
from selectors import EVENT_READ, EVENT_WRITE, DefaultSelector
from typing import Any

import psycopg

from ..engine import page_of, read_of
from ..errors import Conflict, RecordError, TooLarge, TooOld, Unavailable, Unknown
from ..form import Mutation, Read, Want

TransactionStatus = psycopg.pq.TransactionStatus
ENDED_BY_ROLLBACK = TransactionStatus.INTRANS, TransactionStatus.INERROR
Connection = psycopg.Connection[Any]
COMMITTED, NEWER, SWEPT = 0, 1, 2
KEPT, SWEEP_EACH = 10_000, 1000

TABLES = """
create table if not exists record_pairs(key bytea primary key, value bytea, version bigint not null);
create table if not exists record_clock(one int primary key check (one = 1), version bigint not null,
    swept bigint not null);
insert into record_clock values (1, 0, 0) on conflict do nothing;

create or replace function record_added(value bytea, operand bytea) returns bytea language plpgsql immutable as $$
declare
    carry int := 0;
    total int;
    sum bytea := operand;
begin
    for place in 0 .. length(operand) - 1 loop
        total := get_byte(operand, place) + carry;
        if place < length(coalesce(value, '')) then
            total := total + get_byte(value, place);
        end if;
        sum := set_byte(sum, place, total % 256);
        carry := total / 256;
    end loop;
    return sum;
end $$;

create or replace function record_commit(read_version bigint, begins bytea[], ends bytea[], kinds int[], firsts bytea[],
    seconds bytea[], sweep_each bigint, kept bigint, out told int, out made bigint) language plpgsql as $$
declare
    sweeps bigint;
    value_there bytea;
begin
    select version, swept into made, sweeps from record_clock for update;
    if sweeps > read_version then
        told := 2;
        return;
    end if;
    if exists (select 1 from unnest(begins, ends) as r(b, e) where exists
        (select 1 from record_pairs where key >= r.b and key < r.e and version > read_version)) then
        told := 1;
        return;
    end if;
    made := made + 1;
    for place in 1 .. coalesce(array_length(kinds, 1), 0) loop
        if kinds[place] = 1 then
            update record_pairs set value = null, version = made
                where key >= firsts[place] and key < seconds[place] and value is not null;
        elsif kinds[place] = 3 then
            update record_pairs set value = null, version = made
                where key = firsts[place] and value = seconds[place];
        else
            value_there := seconds[place];
            if kinds[place] = 2 then
                select value into value_there from record_pairs where key = firsts[place];
                value_there := record_added(value_there, seconds[place]);
            end if;
            insert into record_pairs values (firsts[place], value_there, made)
                on conflict (key) do update set value = excluded.value, version = excluded.version;
        end if;
    end loop;
    if made % sweep_each = 0 and made > kept then
        delete from record_pairs where value is null and version <= made - kept;
        sweeps := greatest(sweeps, made - kept);
    end if;
    update record_clock set version = made, swept = sweeps;
    told := 0;
end $$;
"""
READ = """select key, value from record_pairs where key >= %s and key < %s and value is not null
    order by key limit %s"""
READ_BACK = """select key, value from record_pairs where key >= %s and key < %s and value is not null
    order by key desc limit %s"""
COMMIT = "select told, made from record_commit(%s, %s, %s, %s, %s, %s, %s, %s)"
# PostgreSQL's error codes: two transactions couldn't both be made; a version that isn't kept
CONFLICTS, TOO_OLD = ("40001", "40P01"), "72000"
# classes of codes: after these nobody can tell (of the connection, of a rollback, an operator's, or a limit of time);
# and what is above a limit, as a key that doesn't fit into a page of the table's index
UNTOLD, LIMIT = ("08", "40", "57"), "54"


@contextmanager
def answering() -> Iterator[None]:
    """Tells an error of PostgreSQL's in a read as the package's."""
    try:
        yield
    except psycopg.Error as why:
        raise (TooOld if why.sqlstate == TOO_OLD else Unavailable)(f"PostgreSQL: {why}") from why


def of_commit(why: psycopg.Error) -> RecordError:
    """What an error of PostgreSQL's means of a commit: one without a code is a lost connection's."""
    if why.sqlstate in CONFLICTS:
        return Conflict(f"PostgreSQL: {why}")
    if why.sqlstate is None or why.sqlstate.startswith(UNTOLD):
        return Unknown(f"PostgreSQL: {why}")
    return (TooLarge if why.sqlstate.startswith(LIMIT) else Unavailable)(f"PostgreSQL: {why}")


def send_rest(connection: Connection) -> None:
    """Sends what isn't sent yet, and takes meanwhile what comes."""
    with DefaultSelector() as selector:
        selector.register(connection, EVENT_READ | EVENT_WRITE)
        while connection.pgconn.flush():
            if any(events & EVENT_READ for _, events in selector.select()):
                connection.pgconn.consume_input()


@contextmanager
def at_once(connection: Connection) -> Iterator[None]:
    """Sends what is executed within in one round trip. Where that is interrupted the connection is lost.

    `psycopg` waits for answers though a part of a long command isn't sent yet, for which the server waits: so all that
    is to be sent is sent before it waits, in the way that libpq tells of its non-blocking calls.
    """
    outer = sys.exc_info()[1]
    try:
        with connection.pipeline():
            yield
            if connection.pgconn.flush():
                send_rest(connection)
    except BaseException as why:
        interrupt: BaseException | None = why
        while interrupt is not outer and isinstance(interrupt, Exception):
            interrupt = interrupt.__context__  # what an interrupt breaks off in `psycopg` may end in another error
        if interrupt is not None and interrupt is not outer:
            connection.close()
            raise interrupt
        raise


class Postgres:
    """A PostgreSQL database, by a connection string of libpq. Its tables are made where they aren't there.

    Each `sweep_each` versions the rows are swept of keys that were cleared more than `kept` versions ago.
    """

    def __init__(self, conninfo: str, sweep_each: int = SWEEP_EACH, kept: int = KEPT) -> None:
        self.conninfo, self.sweep_each, self.kept = conninfo, sweep_each, kept
        self.lock, self.is_open = threading.Lock(), True
        self.free: list[Connection] = []
        with answering(), self.connected() as connection:
            connection.execute("begin")
            connection.execute("select pg_advisory_xact_lock(7263)")  # one process at a time makes the tables
            connection.execute(TABLES)
            connection.execute("commit")

    def connected(self) -> Connection:
        """A connection for one transaction at a time."""
        return psycopg.connect(self.conninfo, autocommit=True)

    def begin(self, wants: Sequence[Want]) -> tuple[PostgresSnapshot, list[Read]]:
        """A snapshot of the newest version, and what it has at once of these ranges."""
        while True:
            with self.lock:
                free = self.free.pop() if self.free else None
            with answering():
                snapshot = PostgresSnapshot(self, free or self.connected())
            try:
                return snapshot, snapshot.begin(wants)
            except Unavailable:
                snapshot.connection.close()
                if free is None:
                    raise

    def give_back(self, connection: Connection) -> None:
        """Takes back a connection that no transaction uses any more."""
        with self.lock:
            if self.is_open:
                self.free.append(connection)
                return
        connection.close()

    def close(self) -> None:
        """Closes the connections that no transaction uses, and each other one when its transaction ends."""
        with self.lock:
            self.is_open = False
            while self.free:
                self.free.pop().close()


class PostgresSnapshot:
    """A version of a PostgreSQL database: a read transaction of PostgreSQL's own."""

    def __init__(self, engine: Postgres, connection: Connection) -> None:
        self.engine, self.connection, self.version, self.is_open = engine, connection, -1, True

    def begin(self, wants: Sequence[Want]) -> list[Read]:
        """Begins to read, in one round trip with the first reads."""
        with answering():
            with at_once(self.connection):
                self.connection.execute("begin isolation level repeatable read read only")
                clock = self.connection.execute("select version from record_clock")
                asked = self.asked(wants)
            self.version = int(clock.fetchall()[0][0])
            return self.answers(wants, asked)

    def asked(self, wants: Sequence[Want]) -> list[psycopg.Cursor[Any]]:
        """Sends a read of a beginning of each range."""
        return [self.connection.execute(READ_BACK if want.reverse else READ, (want.begin, want.end, page_of(want)),
                                        binary=True) for want in wants]

    def answers(self, wants: Sequence[Want], asked: Sequence[psycopg.Cursor[Any]]) -> list[Read]:
        """What was read of each range."""
        return [read_of(want, page_of(want), cursor.fetchall()) for want, cursor in zip(wants, asked)]

    def read(self, wants: Sequence[Want]) -> list[Read]:
        """Reads of each range a beginning, in the direction that it asks for."""
        with answering():
            with at_once(self.connection):
                asked = self.asked(wants)
            return self.answers(wants, asked)

    def commit(self, reads: Sequence[tuple[bytes, bytes]], mutations: Sequence[Mutation],
               known: dict[bytes, bytes]) -> int:
        """Commits these writes, by the rule, and answers the version."""
        columns = [list(it) for it in zip(*mutations)] or [[], [], []]
        ranges = [[begin for begin, _ in reads], [end for _, end in reads]]
        given = (self.version, *ranges, *columns, self.engine.sweep_each, self.engine.kept)
        try:
            with at_once(self.connection):
                self.connection.execute("rollback")  # ends the reads
                self.connection.execute("begin isolation level read committed read write")
                cursor = self.connection.execute(COMMIT, given)
                self.connection.execute("commit")
            told, version = cursor.fetchall()[0]
        except psycopg.Error as why:
            raise of_commit(why) from why
        if told == NEWER:
            raise Conflict("another transaction wrote what was read")
        if told == SWEPT:
            raise TooOld("the version was read too long ago")
        return int(version)

    def close(self) -> None:
        """Ends PostgreSQL's transaction, and gives the connection back, unless it is lost."""
        if not self.is_open:
            return
        self.is_open, connection = False, self.connection
        try:
            if connection.info.transaction_status in ENDED_BY_ROLLBACK:
                connection.execute("rollback")
            if connection.info.transaction_status == TransactionStatus.IDLE:
                self.engine.give_back(connection)
                return
        except psycopg.Error:
            pass
        connection.close()
