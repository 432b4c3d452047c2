"""Proxies from TCP to the Unix socket of one vlmd, or to a port of it: several of them look like several replicas. A
proxy may cut its connections, keep bytes back, or refuse connections."""

import contextlib
import random
import select
import socket
import threading
import time

# How long a carrier waits before it looks at the proxy again.
LOOK = 0.02
CHUNK = 4096


class Proxy:
    """Carries bytes between its port and a socket. With `most`, each connection is cut after some random count of bytes
    in one direction, below that. With `delay`, bytes are carried after some random part of so many seconds."""

    def __init__(self, path, most=None, seed=0, host="127.0.0.1", delay=0):
        self.path = path
        self.delay = delay
        self.host = host
        self.most = most
        self.cuts = 0
        self.is_held = False  # nothing is carried, in either direction
        self.keeps_answers = False
        self.accepted = self.ended = 0  # connections
        self._random = random.Random(seed)
        self._lock = threading.Lock()
        self._connections = set()
        self._listener = None
        self.port = 0
        self.listen()

    @property
    def address(self):
        return f"[{self.host}]:{self.port}" if ":" in self.host else f"{self.host}:{self.port}"

    def listen(self):
        """Accepts connections again, on the same port."""
        family = socket.AF_INET6 if ":" in self.host else socket.AF_INET
        listener = socket.create_server((self.host, self.port), family=family, backlog=64)
        self.port = listener.getsockname()[1]
        self._listener = listener
        threading.Thread(target=self._accept, args=[listener], daemon=True).start()

    def refuse(self):
        """Ends all connections, and refuses others."""
        listener, self._listener = self._listener, None
        if listener:
            listener.shutdown(socket.SHUT_RDWR)
            listener.close()
        self.cut()

    def cut(self):
        """Ends all connections."""
        with self._lock:
            for it in self._connections:
                with contextlib.suppress(OSError):  # (a side that has reset it is gone)
                    it.shutdown(socket.SHUT_RDWR)

    def __enter__(self):
        return self

    def __exit__(self, *_):
        self.is_held = False
        self.refuse()

    def _accept(self, listener):
        while True:
            try:
                made, _ = listener.accept()
            except OSError:
                return
            self.accepted += 1
            threading.Thread(target=self._carry, args=[made], daemon=True).start()

    def _carry(self, client):
        service = socket.socket(socket.AF_INET if isinstance(self.path, tuple) else socket.AF_UNIX)
        with client, service:
            try:
                service.connect(self.path)
                with self._lock:
                    self._connections.add(client)
                self._exchange(client, service)
            except OSError:
                pass
            with self._lock:
                self._connections.discard(client)
                self.ended += 1

    def _exchange(self, client, service):
        with self._lock:
            left = {it: self._random.randrange(1, self.most) if self.most else 1 << 60 for it in (client, service)}
        while True:
            heard = [client] if self.keeps_answers else [client, service]
            ready = [] if self.is_held else select.select(heard, [], [], LOOK)[0]
            if self.is_held:
                time.sleep(LOOK)
            for it in ready:
                found = it.recv(CHUNK)
                if not found:
                    return
                time.sleep(self._random.uniform(0, self.delay))
                (service if it is client else client).sendall(found[:left[it]])
                left[it] -= len(found)
                if left[it] <= 0:
                    with self._lock:
                        self.cuts += 1
                    return


def addresses(*proxies, scheme="tcp"):
    """The address by which a client takes each of these for a replica."""
    return f"{scheme}:" + ",".join(it.address for it in proxies)
