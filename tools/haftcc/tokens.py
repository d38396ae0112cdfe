"""Tokens of a line of LLVM's text, and a place among them."""

from __future__ import annotations

import re
from dataclasses import dataclass
from typing import Optional

NAME = r"(?:[-a-zA-Z$._][-a-zA-Z$._0-9]*|\d+|\"[^\"]*\")"
TOKEN = re.compile(
    rf"""(?P<bytes>c"[^"]*") | (?P<string>"[^"]*") | (?P<local>%{NAME}) | (?P<at>@{NAME}) | (?P<meta>!(?:{NAME})?)
      | (?P<hash>\#\d+) | (?P<dots>\.\.\.) | (?P<number>0x[KLMHR]?[0-9A-Fa-f]+|-?\d+(?:\.\d*(?:[eE][-+]?\d+)?)?)
      | (?P<word>[a-zA-Z_$.][-a-zA-Z$._0-9]*) | (?P<comment>;.*) | (?P<blank>\s+) | (?P<punct>.)""",
    re.VERBOSE,
)


@dataclass(frozen=True)
class Token:
    kind: str
    text: str


END = Token("end", "the end of the line")


def tokens_of(line: str) -> list[Token]:
    found = (Token(match.lastgroup or "", match.group()) for match in TOKEN.finditer(line))
    return [token for token in found if token.kind not in ("comment", "blank")]


def plain_name(text: str) -> str:
    """The name in `%x`, `@x` or `@"x"`."""
    name = text[1:]
    return name[1:-1] if name.startswith('"') else name


class Cursor:
    """A place among the tokens of a line."""

    def __init__(self, tokens: list[Token]) -> None:
        self.tokens = tokens
        self.at = 0

    def peek(self, ahead: int = 0) -> Token:
        where = self.at + ahead
        return self.tokens[where] if where < len(self.tokens) else END

    def next(self) -> Token:
        token = self.peek()
        self.at += 1
        return token

    def sees(self, text: str) -> bool:
        return self.peek().text == text

    def take(self, *texts: str) -> Optional[str]:
        """Takes the next token where it is one of these."""
        if self.peek().text in texts:
            return self.next().text
        return None

    def want(self, text: str) -> None:
        token = self.next()
        if token.text != text:
            raise ValueError(f"`{text}` was expected before `{token.text}`")

    def skip_brackets(self) -> None:
        """Passes over a bracket and all that it holds."""
        depth = 0
        while True:
            token = self.next()
            depth += (token.text in "([{") - (token.text in ")]}") if token.kind == "punct" else 0
            if depth == 0 or token is END:
                return
