"""Makes the page of a script: template.html with its style, its scripts and what each line did, all in one file."""

import json
import re
from html import escape
from pathlib import Path
from typing import Any, Dict, List, Optional

from ..values import Condition
from .recorder import Record
from .waits import MOST_REQUESTS, MOST_WAITS

HERE = Path(__file__).resolve().parent
# The last one begins to show the page.
SCRIPTS = ("lines.js", "waits.js", "page.js")


def page(title: str, records: List[Record], fault: Optional[str]) -> str:
    """The page of these lines. The fault ended the script, if there is one."""
    parts = {"TITLE": escape(title), "STYLE": _file("page.css"), "DATA": _json(page_data(records, fault)),
             "SCRIPT": "\n".join(map(_file, SCRIPTS))}
    return re.sub(f"@({'|'.join(parts)})@", lambda mark: parts[mark[1]], _file("template.html"))


def page_data(records: List[Record], fault: Optional[str]) -> Dict[str, Any]:
    """What the page knows of the script. state.py says what a change is."""
    return {"fault": fault, "mostRequests": MOST_REQUESTS, "mostWaits": MOST_WAITS,
            "conditions": {int(it): it.name for it in Condition}, "lines": [_line(it) for it in records]}


def _line(record: Record) -> Dict[str, Any]:
    if not record.is_run:
        return {"text": record.text, "idle": True}
    line: Dict[str, Any] = {"text": record.text, "printed": record.printed, "changes": record.changes}
    if record.cycle:
        cycle = record.cycle
        line["cycle"] = {"victim": cycle.victim, "waits": cycle.waits, "text": cycle.text}
    return line


def _json(data: Dict[str, Any]) -> str:
    """The data as JSON that can't end its <script> element."""
    return json.dumps(data, separators=(",", ":")).replace("<", "\\u003c")


def _file(name: str) -> str:
    return (HERE / name).read_text("utf-8")
