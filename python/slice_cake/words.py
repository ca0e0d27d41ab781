"""The words for what the program says, from words.json."""
from __future__ import annotations

import json
import os
from typing import Any, Dict, Mapping

_FILE = os.path.join(os.path.dirname(os.path.abspath(__file__)), "words.json")
with open(_FILE, encoding="utf-8") as _file:
    WORDS: Dict[str, Any] = json.load(_file)


def said(group: str, key: str, **fields: object) -> str:
    """The words of that group and key, with these fields put in."""
    words: str = WORDS[group][key]
    return words.format(**{"fair": WORDS["outcomes"]["fair"], **fields})


def named(group: str, name: str, fields: Mapping[str, Any]) -> str:
    """What a refusal or a fault of that name means. One without words here (the program may be newer than this package)
    is told by its fields.
    """
    if name in WORDS[group]:
        return said(group, name, **fields)
    return ", ".join(f"{key} {value}" for key, value in sorted(fields.items())) or "refused"


def meaning(name: str, fields: Mapping[str, Any], length: int) -> str:
    """What a refusal means. `length` is that of the protocol's text, in bytes."""
    if name == "Overflow":
        return said("overflow", "query" if "query" in fields else "goal", **fields)
    if name == "Syntax" and fields["at"] == length:
        return said("places", "end")
    return named("refusals", name, fields)
