"""How the programs of this folder end where something is missing or broken."""

from __future__ import annotations


class Unusable(Exception):
    """Why a run can't be done, in one line that says what to install or fix. The status is 2."""


def read_text(path: str) -> str:
    try:
        with open(path, encoding="utf-8") as file:
            return file.read()
    except OSError as why:
        raise Unusable(f"{path}: {why.strerror}") from None
    except UnicodeDecodeError:
        raise Unusable(f"{path}: isn't text") from None


def read_bytes(path: str) -> bytes:
    try:
        with open(path, "rb") as file:
            return file.read()
    except OSError as why:
        raise Unusable(f"{path}: {why.strerror}") from None
