"""The sessions that docs/CLUSTER.md shows, with the daemons that it starts. A session has another name each time, and a
lock other seconds."""

import os
import re
import signal
import subprocess
import unittest
from pathlib import Path

from local import Local
from test_service import Lines

PAGE = (Path(__file__).resolve().parents[2] / "docs" / "CLUSTER.md").read_text()
FIRST, SHOWN, AGAIN = re.findall(r"^```text\n((?:vlm protocol|\$ VLM_SOCKET).*?)^```", PAGE, re.M | re.S)


def known(line, sessions):
    """A line with names of sessions by the order in which they came."""
    for name in re.findall(r"\b[0-9a-f]{16}\b", line):
        sessions.setdefault(name, f"session {len(sessions)}")
    return re.sub(r"\b[0-9a-f]{16}\b", lambda it: sessions[it[0]], line)


class Page(unittest.TestCase):
    def setUp(self):
        self.local = Local(1, 3)
        self.addCleanup(self.local.close)
        self.local.wait()
        # The names of sessions that the page has, and those of this run.
        self.shown, self.here = {}, {}

    def name_here(self, line):
        """A line of the page with the sessions of this run."""
        for name, known_as in self.shown.items():
            line = line.replace(name, next(it for it, other in self.here.items() if other == known_as))
        return line

    def talk(self, replica, lines):
        connection = Lines(self.local.places[replica])
        self.addCleanup(connection.close)
        found = iter([connection.greeting])
        for line in lines.splitlines():
            if line.startswith("> "):
                connection.send(self.name_here(line[2:]))
                found = iter(connection.next, "")
            else:
                self.assertEqual(known(next(found), self.here), known(line, self.shown))

    def test_the_page_shows_what_replicas_answer(self):
        self.talk(0, FIRST)
        command, *wanted = SHOWN.splitlines()
        self.assertEqual(command, "$ VLM_SOCKET=/tmp/two.sock vlm who")
        told = subprocess.run([f"{os.environ['VLM_PREFIX']}/bin/vlm", "who"], capture_output=True, text=True,
                              env={**os.environ, "VLM_SOCKET": self.local.socket(1)}, check=True).stdout
        self.assertEqual([known(line, self.here).split()[:-2] for line in told.splitlines()],
                         [known(line, self.shown).split()[:-2] for line in wanted])
        self.local.signal("replica 0", signal.SIGTERM)
        self.local.processes["replica 0"].wait()
        self.talk(1, AGAIN)


if __name__ == "__main__":
    unittest.main()
