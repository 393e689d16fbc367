"""Texts of others: read as bytes, shown to people, and put into words."""

import os
import unicodedata
from collections.abc import Sequence


def read_text(path: str, most: int = -1) -> str:
    """The bytes of a file, each as one character, so that columns count bytes: at most so many of
    them and one more, which is enough for the program to refuse the file as too long."""
    with open(path, "rb") as file:
        return file.read(most + 1 if most >= 0 else -1).decode("latin-1")


def bytes_of(word: str) -> str:
    """A word of the call or of the terminal with each byte as one character, as texts are read."""
    return os.fsencode(word).decode("latin-1")


def printable(text: str) -> str:
    """A text of others without the characters by which it could write all over a terminal, or which
    do not show: each but the tab is shown by its number, as `\\x1b` or `\\ufeff`."""

    def plain(letter: str) -> str:
        if letter == "\t" or unicodedata.category(letter) not in ("Cc", "Cf", "Cs"):
            return letter
        return f"\\x{ord(letter):02x}" if letter < "\x80" else f"\\u{ord(letter):04x}"

    return text if text.isascii() and text.isprintable() else "".join(map(plain, text))


def shown(text: str) -> str:
    """Bytes as people read them, printable."""
    return printable(text.encode("latin-1").decode("utf-8", errors="replace"))


def article(word: str) -> str:
    """A word with the article before it."""
    return f"an {word}" if word[:1] in "aeiou" else f"a {word}"


def joined(words: Sequence[str]) -> str:
    """Words in a row, with `or` before the last."""
    return " or ".join([", ".join(words[:-1]), *words[-1:]] if len(words) > 1 else words)


def unreadable(error: OSError) -> str:
    """Why a file cannot be read, in the words of `./ceptre`."""
    if error.filename is None:
        return error.strerror or str(error)
    path = printable(os.fsdecode(error.filename))
    if isinstance(error, FileNotFoundError):
        return f"there is no file {path}"
    if isinstance(error, IsADirectoryError):
        return f"{path} is a folder"
    if isinstance(error, PermissionError):
        return f"nothing allows you to read {path}"
    return f"{path}: {error.strerror}"
