"""Declarations as programs give them: texts, and what is wrong with them."""

from __future__ import annotations

import ctypes
from typing import Union

from . import _native as native
from ._errors import DeclarationError


def bytes_of(declaration: Union[str, bytes]) -> bytes:
    """The text of a declaration in bytes. Raises TypeError for what is no text."""
    if isinstance(declaration, str):
        return declaration.encode()
    if isinstance(declaration, (bytes, bytearray, memoryview)):
        return bytes(declaration)
    raise TypeError("a declaration is a text, not {!r}; that of a file is pathlib.Path(FILE).read_text()".format(declaration))


def declaration_error(answer: native.Answer, source: bytes) -> DeclarationError:
    """Why a text isn't a declaration, as an answer of the library says."""
    told = native.words(answer.code).decode()
    if source.strip() and not source.split(None, 1)[1:] and (b"." in source or b"/" in source):
        told += " (is this the name of a file? Its text is pathlib.Path(FILE).read_text())"
    if answer.code == native.TOO_LONG:
        return DeclarationError(told, source, None)
    return DeclarationError(told, source, answer.number, _explained(source))


def _explained(source: bytes) -> str:
    """What the library says of a text that isn't a declaration, behind the place in the first line; empty if there is no memory for it."""
    if native.explain is None:
        return ""
    answer = native.explain(source, len(source), None, 0)
    if answer.code != native.TOO_SMALL:
        return ""
    buffer = ctypes.create_string_buffer(answer.number + 1)
    if native.explain(source, len(source), buffer, len(buffer)).code != native.WRITTEN:
        return ""
    return buffer.value.decode("utf-8", "replace").split(":", 3)[3]
