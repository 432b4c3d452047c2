"""Certificates for tests, made by the commands of docs/CERTIFICATES.md, and a client that speaks lines over TLS."""

import re
import socket
import ssl
import subprocess
import time
from pathlib import Path

from daemons import SECONDS, Client
from harness import PLAIN_ROOM, TOP, Once

HOST = "127.0.0.1"
# Beside those of the page: the use of a certificate, and what it is good for. `late` has run out, and `stranger` and
# `far` are of other authorities and hosts.
MORE = """
certificate locks bob clientAuth
certificate locks operator clientAuth
certificate locks mallory clientAuth
certificate locks 'two words' clientAuth
certificate locks far serverAuth IP:10.9.9.9,DNS:far.example
certificate locks second serverAuth IP:127.0.0.1,DNS:localhost
certificate etcd stranger clientAuth
certificate locks late clientAuth
openssl x509 -req -in late.csr -CA locks.pem -CAkey locks.key -days 0 -copy_extensions copy -out late.pem
"""


def page_commands():
    """The commands of the page, for this machine instead of the first of three."""
    page = (TOP / "docs" / "CERTIFICATES.md").read_text()
    commands = re.search(r"^```sh\n(authority\(\).*?)^```", page, re.M | re.S)[1]
    return commands.replace("10.0.0.1", HOST).replace("m1.example", "localhost")


def made_keys():
    """The folder with all certificates and keys. Its name has no blank."""
    folder = Path(PLAIN_ROOM().name) / "keys"
    folder.mkdir()
    subprocess.run(["sh", "-e", "-c", page_commands() + MORE], cwd=folder, check=True, capture_output=True,
                   timeout=SECONDS)
    # (a certificate of no days has run out a second later)
    time.sleep(1.1)
    return folder


KEYS = Once(made_keys)


def environment(name, authority="locks"):
    """The environment of a client with the certificate of a name."""
    return {"VLM_TLS_CERTIFICATE": str(KEYS() / f"{name}.pem"), "VLM_TLS_KEY": str(KEYS() / f"{name}.key"),
            "VLM_TLS_AUTHORITY": str(KEYS() / f"{authority}.pem")}


def context_of(name, authority="locks"):
    """What a client in Python shows and accepts. Without a name it has no certificate."""
    context = ssl.SSLContext(ssl.PROTOCOL_TLS_CLIENT)
    context.load_verify_locations(KEYS() / f"{authority}.pem")
    if name is not None:
        context.load_cert_chain(KEYS() / f"{name}.pem", KEYS() / f"{name}.key")
    return context


class SecuredClient(Client):
    """A connection by TLS to a port of a vlmd."""

    def __init__(self, port, name="alice", **how):
        made = socket.create_connection((HOST, port), SECONDS)
        self.socket = context_of(name, **how).wrap_socket(made, server_hostname=HOST)
        self.heard = b""
        self.greeting = self.line()

    def begin(self, *names):
        """Opens a session with processes of these names. Its lease outlasts a slow machine."""
        for line in ("open seconds=60", *(f"declare {name}" for name in names)):
            self.ask(line)
        return self


class Halves:
    """The bytes of a handshake and of lines, which a test sends as it likes."""

    def __init__(self, port, name="alice", text=b"open\n"):
        self.socket = socket.create_connection((HOST, port), SECONDS)
        self.text = text
        self._in, self._out = ssl.MemoryBIO(), ssl.MemoryBIO()
        self._tls = context_of(name).wrap_bio(self._in, self._out, server_hostname=HOST)
        self._is_written = False

    def next(self):
        """The bytes that are to be sent next, or none once all lines are."""
        while not self._out.pending:
            try:
                self._tls.do_handshake()
            except ssl.SSLWantReadError:
                if not self._out.pending:
                    self._hear()
                continue
            if self._is_written:
                return b""
            self._tls.write(self.text)
            self._is_written = True
        return self._out.read()

    def _hear(self):
        heard = self.socket.recv(1 << 16)
        if not heard:
            raise ConnectionError("the service has ended the handshake")
        self._in.write(heard)
