"""A time of day that a test sets for the programs that it starts. Their other clocks stay true."""

import tempfile
from pathlib import Path

# Gives a program another time of day.
FAKED_TIME = Path("/usr/lib/x86_64-linux-gnu/faketime/libfaketime.so.1")


class TimeOfDay:
    """The true time of day until it jumps, for programs that have `env` in their environment."""

    def __init__(self):
        self._file = tempfile.NamedTemporaryFile("w")
        self.env = {"LD_PRELOAD": str(FAKED_TIME), "FAKETIME_TIMESTAMP_FILE": self._file.name, "FAKETIME_NO_CACHE": "1",
                    "FAKETIME_DONT_FAKE_MONOTONIC": "1", "DONT_FAKE_MONOTONIC": "1"}
        self.jump(0)

    def jump(self, seconds):
        """From here on it is this many seconds off the true one."""
        self._file.seek(0)
        self._file.write(f"{seconds:+d}\n")
        self._file.flush()

    def close(self):
        self._file.close()

    def __enter__(self):
        return self

    def __exit__(self, *_):
        self.close()
