"""The lock manager of OpenVMS ($ENQ, $DEQ): its proved library, for Python. Nothing of this package is proved.

    with Shared() as shared:
        client = shared.declare()
        with client.lock("A", Mode.EX, timeout=1.0) as held:
            held.write(b"version 7")

`Shared` is for threads and asyncio, `LockManager` has the calls of the library, `Hub` is for threads that never wait.
include/vlm.h of the repository says what each call answers. The first call finds the shared library: the file that the
environment variable VLM_LIBRARY names, else libvlm.so.0.2 in the folder lib of VLM_PREFIX, else the one of a wheel
that has it, else where the loader looks.
"""

from .clients import AsyncLock, Client
from .connection import Connection, ServedEvent, ServedLock, ServedProcess, connect
from .errors import (AbortError, AccVioError, BadParamError, CancelError, CancelGrantError, ClosedError,
                     CvtUngrantError, DeadlockError, DepartedError, ExDepthError, ExEnqLmError, FullError,
                     InsfMemError, IvBufLenError, IvLockIdError, LostError, NoLockIdError, NoSysLckError, NonExprError,
                     NotQueuedError, ParNotGrantError, SubLocksError, TimedOutError, TurnEndedError, UnsupportedError,
                     VlmError)
from .held import Held
from .hub import Answer, AstItem, Entry, Hub, Port, StepKind
from .manager import LockManager
from .process import Process
from .shared import Deadlock, Shared, Wait
from .values import (Accepted, Ast, AstKind, Condition, DequeueFlags, Event, Flags, InBlock, LockView, Mode,
                     ProcessView, Queue, Resource, StatusBlock)

__all__ = ["AbortError", "AccVioError", "Accepted", "Answer", "Ast", "AstItem", "AstKind", "AsyncLock",
           "BadParamError", "CancelError", "CancelGrantError", "Client", "ClosedError", "Condition", "Connection",
           "CvtUngrantError", "Deadlock", "DeadlockError", "DepartedError", "DequeueFlags", "Entry", "Event",
           "ExDepthError", "ExEnqLmError", "Flags", "FullError", "Held", "Hub", "InBlock", "InsfMemError",
           "IvBufLenError", "IvLockIdError", "LockManager", "LockView", "LostError", "Mode", "NoLockIdError",
           "NoSysLckError", "NonExprError", "NotQueuedError", "ParNotGrantError", "Port", "Process", "ProcessView",
           "Queue", "Resource", "ServedEvent", "ServedLock", "ServedProcess", "Shared", "StatusBlock", "StepKind",
           "SubLocksError", "TimedOutError", "TurnEndedError", "UnsupportedError", "VlmError", "Wait", "connect"]
