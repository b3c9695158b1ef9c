"""Calls to compare: words, bytes on standard input, and files by name."""

from dataclasses import dataclass, field


@dataclass
class Case:
    kind: str
    words: list
    stdin: bytes = b""
    files: dict = field(default_factory=dict)
    room: dict = field(default_factory=dict)  # of `out`, `err` or both: the bytes that the stream takes until it fails
    unread: bool = False  # whether a stream without room is a pipe that nobody reads, and no full device
    broken: bool = False  # whether standard input fails behind its bytes
