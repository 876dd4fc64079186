"""A subcommand of hipsctl."""

from collections.abc import Callable
from dataclasses import dataclass


@dataclass(frozen=True)
class Command:
    """Its text for --help, whose first line is a summary; what adds its words to a parser, and what runs it."""

    text: str
    add_words: Callable
    run: Callable
