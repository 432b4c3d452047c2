"""Which member of etcd is asked."""

import threading


class Place:
    """The member that calls of one kind ask: the one after the last that failed. Threads may share it."""

    def __init__(self, members: int) -> None:
        self._members, self._lock = members, threading.Lock()
        self.at = 0

    def leave(self, failed: int) -> None:
        """Goes on to the member after one that failed, unless another thread has left that one already: else as many
        threads as there are members, all of which a hung one let down, would be back at it."""
        with self._lock:
            if self.at == failed:
                self.at = (failed + 1) % self._members
