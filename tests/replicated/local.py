"""Members of etcd and replicas of vlmd as processes of this machine, for tests and measurements. VLM_PREFIX names the
folder into which vlmd is installed."""

import os
import shutil
import signal
import socket
import subprocess
import tempfile
import time
from pathlib import Path
from types import TracebackType
from typing import Any, Callable, Dict, List, Optional, Tuple, Type


HOST = "127.0.0.1"
# How long a process may take until it serves, and a call to etcd.
START, CALL = 60.0, 2.0
# Where files are in memory, and how many bytes members of etcd may need there.
_MEMORY, _NEEDED = Path("/dev/shm"), 4 << 30
# The processes end with this one, even if it is killed.
_WITH_US = ["setpriv", "--pdeathsig", "KILL"] if shutil.which("setpriv") else []


def free_ports(count: int) -> List[int]:
    """Ports that nobody uses."""
    sockets = [socket.create_server((HOST, 0)) for _ in range(count)]
    ports = [it.getsockname()[1] for it in sockets]
    for it in sockets:
        it.close()
    return ports


def start(words: List[str], log: Path) -> "subprocess.Popen[bytes]":
    """Starts a process that writes what it says into a file."""
    with log.open("ab") as said:
        return subprocess.Popen([*_WITH_US, *words], stdin=subprocess.DEVNULL, stdout=said, stderr=said,
                                start_new_session=True)


def _place(on_disk: bool) -> Optional[Path]:
    """Where a temporary folder is made. On a disk that others keep busy, appends may wait for longer than leases last.
    """
    has_room = os.access(_MEMORY, os.W_OK) and shutil.disk_usage(_MEMORY).free > _NEEDED
    return _MEMORY if has_room and not on_disk else None


# Settings of replicas with TLS, and options of members. The keys of both are in one folder.
_SECURED = """tls-certificate {keys}/m1.pem
tls-key {keys}/m1.key
tls-authority {keys}/locks.pem
rights {keys}/rights
etcd-authority {keys}/etcd.pem
etcd-certificate {keys}/list.pem
etcd-key {keys}/list.key
"""
_SECURED_MEMBER = ("--cert-file {keys}/etcd1.pem --key-file {keys}/etcd1.key --trusted-ca-file {keys}/etcd.pem "
                   "--client-cert-auth --peer-cert-file {keys}/etcd1.pem --peer-key-file {keys}/etcd1.key "
                   "--peer-trusted-ca-file {keys}/etcd.pem --peer-client-cert-auth")


class Local:
    """A number of etcd's members and of replicas, in a temporary folder. Each can be killed and started again."""

    def __init__(self, members: int, replicas: int, chunk: int = 1 << 20, search: int = 1000,
                 keys: Optional[str] = None, on_disk: bool = False) -> None:
        """`chunk` is how many bytes of entries a chunk has, and `search` how many milliseconds a request waits before a
        search for deadlocks. With a folder of keys all connections of TCP have TLS. Members that are not `on_disk` keep
        their data in memory, if there is enough."""
        self._keys = keys
        self.folder = Path(tempfile.mkdtemp(prefix="vlm-replicated-", dir=_place(on_disk)))
        ports = free_ports(2 * members + replicas)
        self._clients, self._peers, self.ports = ports[:members], ports[members:2 * members], ports[2 * members:]
        secured = _SECURED.format(keys=keys) if keys is not None else ""
        (self.folder / "conf").write_text(f"chunk {chunk}\nsearch {search}\n{secured}")
        self.processes: Dict[str, "subprocess.Popen[bytes]"] = {}
        for number in range(members):
            self.start_member(number)
        for number in range(replicas):
            self.start_replica(number)

    @property
    def members(self) -> List[str]:
        """Where etcd is."""
        return [f"{HOST}:{port}" for port in self._clients]

    @property
    def places(self) -> List[Tuple[str, int]]:
        """Where the replicas are."""
        return [(HOST, port) for port in self.ports]

    def start_member(self, number: int, state: str = "new") -> None:
        scheme = "http" if self._keys is None else "https"
        secured = [] if self._keys is None else _SECURED_MEMBER.format(keys=self._keys).split()
        peers = [f"{scheme}://{HOST}:{port}" for port in self._peers]
        client = f"{scheme}://{self.members[number]}"
        self._start(f"etcd {number}", [
            "etcd", "--name", f"m{number}", "--data-dir", str(self.folder / f"m{number}"), "--log-level", "error",
            "--listen-client-urls", client, "--advertise-client-urls", client,
            "--listen-peer-urls", peers[number], "--initial-advertise-peer-urls", peers[number],
            "--initial-cluster", ",".join(f"m{at}={url}" for at, url in enumerate(peers)),
            "--initial-cluster-state", state, *secured])

    def empty_member(self, number: int) -> None:
        """Kills a member, which loses its disk, and has it join again as a new one. The others are up."""
        self.kill(f"etcd {number}")
        shutil.rmtree(self.folder / f"m{number}")
        # (only Debian's Python may have it)
        import etcd3
        host, port = self.members[(number + 1) % len(self.members)].split(":")
        client = etcd3.client(host, int(port), timeout=CALL)
        url = f"http://{HOST}:{self._peers[number]}"
        self._insist(lambda: self._is_left(client, url))
        self._insist(lambda: self._is_joined(client, url))
        self.start_member(number, "existing")

    @staticmethod
    def _is_left(client: Any, url: str) -> bool:
        """Has a member leave, and tells whether it had left."""
        there = [it for it in client.members if url in it.peer_urls]
        for it in there:
            it.remove()
        return not there

    @staticmethod
    def _is_joined(client: Any, url: str) -> bool:
        """Has a member join, and tells whether it had joined."""
        there = [it for it in client.members if url in it.peer_urls]
        if not there:
            client.add_member([url])
        return bool(there)

    @staticmethod
    def _insist(is_so: Callable[[], bool]) -> None:
        """Etcd refuses a change while another one is not done everywhere."""
        import grpc
        from etcd3.exceptions import Etcd3Exception
        end = time.monotonic() + START
        while True:
            try:
                if is_so():
                    return
            except (grpc.RpcError, Etcd3Exception):
                if time.monotonic() > end:
                    raise
            time.sleep(0.2)

    def start_replica(self, number: int, first: int = 0) -> None:
        """Starts a replica, which asks this member first."""
        members = self.members[first:] + self.members[:first]
        self._start(f"replica {number}", [
            f"{os.environ['VLM_PREFIX']}/bin/vlmd", "-c", str(self.folder / "conf"), "-s", self.socket(number),
            "--etcd", ",".join(members), "--listen", f"{HOST}:{self.ports[number]}"])

    def socket(self, number: int) -> str:
        """The Unix socket of a replica."""
        return str(self.folder / f"socket {number}")

    def _start(self, name: str, words: List[str]) -> None:
        self.processes[name] = start(words, self.folder / f"{name}.log")

    def wait(self) -> None:
        """Waits until all replicas serve."""
        for number, port in enumerate(self.ports):
            self.wait_for(port, self.socket(number))

    def wait_for(self, port: int, path: str = "") -> None:
        """Waits for a replica at a port. One with TLS greets nobody there, so it is asked at its Unix socket."""
        end = time.monotonic() + START
        is_plain = self._keys is None
        while True:
            try:
                with socket.socket(socket.AF_INET if is_plain else socket.AF_UNIX) as made:
                    made.settimeout(1.0)
                    made.connect((HOST, port) if is_plain else path)
                    if not made.recv(1):
                        raise ConnectionError
                    return
            except OSError:
                if time.monotonic() > end:
                    raise TimeoutError(f"port {port} is not served:\n{self.logs()}") from None
                time.sleep(0.1)

    def logs(self) -> str:
        """The ends of what the processes said."""
        said = {log.name: log.read_text(errors="replace")[-1500:] for log in sorted(self.folder.glob("*.log"))}
        return "".join(f"{name}: {text}\n" for name, text in said.items() if text)

    def kill(self, name: str) -> None:
        """Kills a process at once."""
        self.processes[name].kill()
        self.processes[name].wait()

    def signal(self, name: str, number: signal.Signals) -> None:
        self.processes[name].send_signal(number)

    def close(self) -> None:
        for process in self.processes.values():
            process.kill()
            process.wait()
        shutil.rmtree(self.folder, ignore_errors=True)

    def __enter__(self) -> "Local":
        return self

    def __exit__(self, kind: Optional[Type[BaseException]], error: Optional[BaseException],
                 trace: Optional[TracebackType]) -> None:
        self.close()
