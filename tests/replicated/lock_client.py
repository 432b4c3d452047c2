"""A client of a replicated vlmd: a session at whichever replica answers. It needs nothing but Python, and shares
nothing with the client of the library.

    client = Client([("127.0.0.1", 7001), ("127.0.0.1", 7002)])
    client.ask("declare P")
    client.ask("enq P EX name=A block=1 ast=8")
    client.next_ast(10.0)
"""

import socket
import time
from collections import deque
from typing import Callable, Deque, List, Optional, Sequence, Tuple

Place = Tuple[str, int]
# Lines whose answers are lines up to a blank one.
_LISTS = ("show", "tails", "locks", "token")
# How long a connection may take to be made, and the pause after one that failed.
_CONNECT, _PAUSE = 1.0, 0.1


class SessionEnded(Exception):
    """The session has ended, with all its processes and locks."""


class Client:
    """A session. If a connection breaks, or a replica does not answer in time, it goes on at the next replica. There it
    repeats its last line with the same number, so the step is made once. One thread uses it."""

    def __init__(self, replicas: Sequence[Place], seconds: int = 5) -> None:
        self.replicas, self.seconds = deque(replicas), seconds
        self.session: Optional[str] = None
        # How long a replica may take to answer, so that there is time to go on at another.
        self._patience = min(5.0, max(1.0, seconds / 4))
        # Until when the lease lasts at least, by this machine's clock. After it the locks may be another's.
        self.lease_until = 0.0
        # Is called whenever that has changed.
        self.on_lease: Callable[[], None] = lambda: None
        # The number of its last line.
        self.number = 0
        # Completions and blocking ASTs. A completion comes with the line of its status block, which is left out.
        self._asts: Deque[str] = deque()
        self._got = 0
        self._socket: Optional[socket.socket] = None
        self._rest = b""

    def ask(self, line: str) -> str:
        """Sends a line and returns its answer."""
        self.number += 1
        return self._answer(line)[0]

    def texts(self, line: str) -> List[str]:
        """The answer to a line whose answer ends with a blank line."""
        return self._answer(line)

    def next_ast(self, seconds: float) -> Optional[str]:
        """Waits for the next AST, at most for this many seconds, and keeps the lease alive meanwhile."""
        end = time.monotonic() + seconds
        while not self._asts and time.monotonic() < end:
            self.keep_alive()
            self._hear(min(end - time.monotonic(), self.seconds / 6))
        return self._asts.popleft() if self._asts else None

    def keep_alive(self) -> None:
        """Has the lease go on, once a third of its time is over."""
        if self.lease_until - time.monotonic() < self.seconds * 2 / 3:
            asked = time.monotonic()
            self._answer("alive")
            self._last_from(asked)

    def _last_from(self, asked: float) -> None:
        """The lease began after this client asked for it."""
        self.lease_until = max(self.lease_until, asked + self.seconds)
        self.on_lease()

    def _answer(self, line: str) -> List[str]:
        while True:
            try:
                self._connect()
                self._send(f"{self.number} {line}")
                return self._read_answer(line)
            except OSError:
                self.disconnect()

    def _read_answer(self, line: str) -> List[str]:
        start = f"{self.number} "
        while not (text := self._line(self._patience)).startswith(start):
            self._hear_line(text)
        texts = [text[len(start):]]
        while line.split()[0] in _LISTS and texts[-1]:
            texts.append(self._line(self._patience))
        return [text for text in texts if text]

    def _hear(self, seconds: float) -> None:
        """Waits for a line that was not asked for."""
        try:
            self._connect()
            self._hear_line(self._line(max(seconds, 0.001)))
        except socket.timeout:
            return
        except OSError:
            self.disconnect()

    def _hear_line(self, text: str) -> None:
        if text.startswith("session"):
            self.disconnect()
            if text == "session ended":
                raise SessionEnded
            raise OSError(text)
        if text.startswith("lost "):
            self._got += int(text.split()[1])
        elif ": block " not in text:
            self._asts.append(text)
            self._got += 1

    def _connect(self) -> None:
        """Connects to the next replica that answers, if there is no connection, and begins the session or goes on."""
        while self._socket is None:
            try:
                asked = time.monotonic()
                self._socket = socket.create_connection(self.replicas[0], _CONNECT)
                self._socket.setsockopt(socket.IPPROTO_TCP, socket.TCP_NODELAY, 1)
                begin = f"resume {self.session} asts={self._got}" if self.session else f"open seconds={self.seconds}"
                greeting = self._line(self._patience)
                if not greeting.startswith("vlm protocol 1 "):
                    raise ConnectionError(greeting)
                self._send(begin)
                answer = self._line(self._patience).split()
                if answer == ["session", "ended"]:
                    raise SessionEnded
                if answer[0::2] != ["session", "seconds", "number", "asts"]:
                    # An earlier try to go on has moved the session to a connection that is gone.
                    raise ConnectionError(" ".join(answer))
                self.session = answer[1]
                self._last_from(asked)
            except OSError:
                self.disconnect()
                time.sleep(_PAUSE)

    def disconnect(self) -> None:
        """Leaves the replica. The session goes on at the next one."""
        if self._socket is not None:
            self._socket.close()
        self._socket, self._rest = None, b""
        self.replicas.rotate(-1)

    def _send(self, text: str) -> None:
        assert self._socket is not None
        self._socket.settimeout(self._patience)
        self._socket.sendall(text.encode() + b"\n")

    def _line(self, seconds: float) -> str:
        """The next line. Raises socket.timeout if it takes too long, and what was read stays for the next call."""
        assert self._socket is not None
        end = time.monotonic() + seconds
        while b"\n" not in self._rest:
            self._socket.settimeout(max(end - time.monotonic(), 0.001))
            part = self._socket.recv(65_536)
            if not part:
                raise ConnectionError("the replica has gone")
            self._rest += part
        line, _, self._rest = self._rest.partition(b"\n")
        return line.decode()
