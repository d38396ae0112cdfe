"""The lines of the C source that debug records of LLVM's text name."""

from __future__ import annotations

import re
from typing import Optional

from .ir import Place

RECORD = re.compile(r"^!(\d+) = (?:distinct )?!(.*)$")
ATTACHED = re.compile(r"!dbg !(\d+)")


class Places:
    """All numbered debug records of a text."""

    def __init__(self, lines: list[str]) -> None:
        found = (RECORD.match(line) for line in lines if line.startswith("!"))
        self.records = {match.group(1): match.group(2) for match in found if match}

    def of_line(self, line: str) -> Optional[Place]:
        """The place that a line of the text has as its `!dbg`."""
        attached = ATTACHED.search(line)
        return self.of_record(attached.group(1)) if attached else None

    def of_record(self, number: str) -> Optional[Place]:
        record = self.records.get(number, "")
        if record.startswith("DIGlobalVariableExpression"):
            variable = self.field(record, "var")
            return self.of_record(variable) if variable else None
        line = re.search(r"\bline: (\d+)", record)
        file = self.file_of(number)
        return Place(file, int(line.group(1))) if line and file else None

    def file_of(self, number: Optional[str]) -> Optional[str]:
        """The name of the file that a record, or what it lies in, belongs to."""
        while number is not None:
            record = self.records.get(number, "")
            if record.startswith("DIFile"):
                name = re.search(r'filename: "([^"]*)"', record)
                return name.group(1) if name else None
            number = self.field(record, "file") or self.field(record, "scope")
        return None

    @staticmethod
    def field(record: str, name: str) -> Optional[str]:
        found = re.search(rf"\b{name}: !(\d+)", record)
        return found.group(1) if found else None
