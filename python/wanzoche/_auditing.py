"""Journals replayed under a declaration, whoever wrote them."""

from __future__ import annotations

import ctypes
from typing import Union

from . import _native as native
from ._declaring import bytes_of, declaration_error
from ._errors import JournalError
from ._texts import Verdict, without_marks


def audit(declaration: Union[str, bytes], journal: str, room: int = native.MOST_LINES) -> Verdict:
    """Replays a journal, whoever wrote it, under a declaration. It may be of any version, also the text of a store's file. See
    `Paths.audit`."""
    source = bytes_of(declaration)
    text = without_marks(journal).encode()
    if not 0 < room <= native.MOST_LINES:
        raise ValueError("the room is 1 to 1,048,576 lines, not {}".format(room))
    message = ctypes.create_string_buffer(native.MESSAGE)
    answer = native.audit(source, len(source), room, text, len(text), message, len(message))
    if answer.code == native.SOUND:
        return Verdict(None)
    if answer.code == native.WRONG_LINE:
        return Verdict(answer.number)
    if answer.code == native.OUT_OF_MEMORY:
        raise MemoryError("no memory for an audit")
    if native.TOO_LONG <= answer.code <= native.TOO_MANY:
        raise declaration_error(answer, source)
    told = native.words(answer.code).decode()
    raise JournalError(told, text, None if answer.code == native.JOURNAL_TOO_LONG else answer.number)
