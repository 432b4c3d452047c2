"""Forked children of tests."""

import os


def status_of_child(call, *arguments):
    """How a forked child ends that makes this call: 0 if it raises nothing."""
    child = os.fork()
    if not child:
        try:
            call(*arguments)
            os._exit(0)
        finally:
            os._exit(1)
    return os.waitpid(child, 0)[1]
