"""Servers for tests, on loopback alone, in a folder of their own: three nodes of etcd, and PostgreSQL."""
import glob
import json
import os
import pwd
import shutil
import signal
import socket
import subprocess
import time
import urllib.request
from collections.abc import Callable
from contextlib import suppress
from typing import Any

import psycopg

NODES, WAIT = 3, 60
# a transaction of etcd may have so many operations, where 128 are its own default
ETCD_OPERATIONS = "20000"


def free_ports(count: int) -> list[int]:
    """Ports of loopback that nobody listens on."""
    sockets = [socket.socket() for _ in range(count)]
    for one in sockets:
        one.bind(("127.0.0.1", 0))
    ports = [one.getsockname()[1] for one in sockets]
    for one in sockets:
        one.close()
    return ports


def wait_until(ready: Callable[[], bool], what: str) -> None:
    """Waits until something is ready."""
    until = time.monotonic() + WAIT
    while not ready():
        if time.monotonic() > until:
            raise TimeoutError(f"{what} isn't ready after {WAIT} s")
        time.sleep(0.1)


class EtcdNodes:
    """Three nodes of one etcd cluster."""

    def __init__(self, folder: str) -> None:
        self.folder = folder
        ports = free_ports(2 * NODES)
        self.clients = [f"127.0.0.1:{it}" for it in ports[:NODES]]
        self.peers = [f"http://127.0.0.1:{it}" for it in ports[NODES:]]
        self.processes = [self.started(it, "new") for it in range(NODES)]
        for node in range(NODES):
            self.wait(node)

    def started(self, node: int, state: str) -> subprocess.Popen[bytes]:
        """Starts a node."""
        cluster = ",".join(f"n{it}={peer}" for it, peer in enumerate(self.peers))
        client = f"http://{self.clients[node]}"
        words = ["etcd", "--name", f"n{node}", "--data-dir", f"{self.folder}/n{node}", "--log-level", "error",
                 "--listen-peer-urls", self.peers[node], "--initial-advertise-peer-urls", self.peers[node],
                 "--listen-client-urls", client, "--advertise-client-urls", client, "--initial-cluster", cluster,
                 "--initial-cluster-state", state, "--initial-cluster-token", "records",
                 "--max-txn-ops", ETCD_OPERATIONS, "--max-request-bytes", "16000000"]
        with open(f"{self.folder}/n{node}.log", "ab") as log:
            return subprocess.Popen(words, stdin=subprocess.DEVNULL, stdout=log, stderr=log)

    def wait(self, node: int) -> None:
        """Waits until a node says that it is well."""
        def is_well() -> bool:
            try:
                with urllib.request.urlopen(f"http://{self.clients[node]}/health", timeout=2) as reply:
                    return b'"true"' in reply.read()
            except OSError:
                return False
        wait_until(is_well, f"node {node} of etcd")

    def leader(self) -> int | None:
        """The number of the node that leads."""
        for node, client in enumerate(self.clients):
            request = urllib.request.Request(f"http://{client}/v3/maintenance/status", b"{}", method="POST")
            try:
                with urllib.request.urlopen(request, timeout=2) as reply:
                    told = json.load(reply)
            except OSError:
                continue
            if told["leader"] == told["header"]["member_id"]:
                return node
        return None

    def kill_leader(self) -> int:
        """Kills the node that leads with signal 9, and answers its number."""
        wait_until(lambda: self.leader() is not None, "a leader of etcd")
        node = self.leader()
        assert node is not None
        self.processes[node].send_signal(signal.SIGKILL)
        self.processes[node].wait()
        return node

    def start_again(self, node: int) -> None:
        """Starts a node that was killed."""
        self.processes[node] = self.started(node, "existing")
        self.wait(node)

    def stop(self) -> None:
        """Ends all nodes."""
        for process in self.processes:
            process.kill()
        for process in self.processes:
            process.wait()


class PostgresServer:
    """A PostgreSQL server with a database of its own, run as its own user where the tests are root's."""

    def __init__(self, folder: str) -> None:
        self.folder, self.port = folder, free_ports(1)[0]
        self.commands = sorted(glob.glob("/usr/lib/postgresql/*/bin"))[-1]
        os.makedirs(folder)
        self.how: dict[str, Any] = {}
        if os.geteuid() == 0:
            user = pwd.getpwnam("postgres")
            os.chown(folder, user.pw_uid, user.pw_gid)
            self.how = {"user": user.pw_uid, "group": user.pw_gid, "extra_groups": []}
        self.run("initdb", "-D", f"{folder}/data", "-A", "trust", "-U", "records", "--no-sync")
        with open(f"{folder}/server.log", "wb") as log:
            self.process = subprocess.Popen(
                [f"{self.commands}/postgres", "-D", f"{folder}/data", "-p", str(self.port), "-k", folder,
                 "-c", "listen_addresses="], stdin=subprocess.DEVNULL, stdout=log, stderr=log, cwd=folder, **self.how)
        wait_until(self.is_ready, "PostgreSQL")
        self.conninfo = f"host={folder} port={self.port} user=records dbname=postgres"

    def of(self, database: str) -> str:
        """The connection string of a database."""
        return self.conninfo.replace("dbname=postgres", f"dbname={database}")

    def connected(self, database: str = "postgres") -> psycopg.Connection[Any]:
        """A connection to a database."""
        return psycopg.connect(self.of(database), autocommit=True)

    def is_ready(self) -> bool:
        """Whether the server takes connections."""
        words = [f"{self.commands}/pg_isready", "-h", self.folder, "-p", str(self.port)]
        return not subprocess.run(words, capture_output=True, check=False).returncode

    def stop_clients(self, database: str) -> None:
        """Has the server end all connections to a database."""
        with self.connected() as connection:
            connection.execute("select pg_terminate_backend(pid) from pg_stat_activity where datname = %s", [database])

    def kill_client(self, database: str) -> None:
        """Kills what serves a connection to a database with signal 9, after which the server begins anew."""
        with suppress(psycopg.OperationalError), self.connected() as connection:
            wait_until(lambda: self.killed(connection, database), "a client of PostgreSQL")
            connection.execute("select pg_sleep(60)")
        wait_until(self.is_ready, "PostgreSQL")

    def killed(self, connection: psycopg.Connection[Any], database: str) -> bool:
        """Kills what serves the first connection to a database, if there is one."""
        found = connection.execute("select pid from pg_stat_activity where datname = %s", [database]).fetchone()
        if found:
            os.kill(found[0], signal.SIGKILL)
        return found is not None

    def run(self, command: str, *words: str) -> None:
        """Runs a command of PostgreSQL's."""
        subprocess.run([f"{self.commands}/{command}", *words], check=True, capture_output=True, cwd=self.folder,
                       **self.how)

    def stop(self) -> None:
        """Ends the server at once."""
        self.process.send_signal(signal.SIGINT)
        try:
            self.process.wait(20)
        except subprocess.TimeoutExpired:
            self.process.kill()
            self.process.wait()


def installed(*commands: str) -> bool:
    """Whether commands are there."""
    return all(shutil.which(it) or glob.glob(f"/usr/lib/postgresql/*/bin/{it}") for it in commands)
