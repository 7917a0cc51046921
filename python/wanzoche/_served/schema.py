"""The schema at the server: which number it has, and how it is made and brought up."""

from __future__ import annotations

import os
import time
from typing import Optional

from .._errors import StoreError
from .beginning import begin
from .connecting import Cut
from .session import Call, Complaint, Session

SCHEMA = 6
"""The number of the schema that this package knows. It brings one of an earlier number there."""
SCRIPT = os.path.join(os.path.dirname(os.path.dirname(os.path.abspath(__file__))), "schema.sql")
"""What makes it."""
BESIDE = ("23505", "42P06", "42P07", "42710", "XX000")
"""What the server may say of a schema that another makes at once."""
HAS_SCHEMA = (
    "select exists (select from pg_class c join pg_namespace n on n.oid = relnamespace where nspname = 'wanzoche' and relname = 'schema')"
)
"""Asked in this way since `to_regclass` may not see yet what another session has made."""


def make_schema(session: Session, until: float) -> None:
    """Makes the schema where there is none, and brings one of an earlier number to this. Raises `StoreError` for one of a later number."""
    found = 0
    try:
        found = _number_of_schema(session, until)
        while found < SCHEMA:
            try:
                _bring_up(session, found, until)
            except Complaint as error:
                if error.code not in BESIDE or _number_of_schema(session, until) == found:
                    raise
            found = _number_of_schema(session, until)
    except Complaint as error:
        told = "the schema wanzoche can't be made or read: {}"
        if found:
            told = "the schema wanzoche is number {}, and can't be brought to {}, so its owner has to run schema.sql: {{}}"
            told = told.format(found, SCHEMA)
        raise StoreError(told.format(error.told)) from error
    _has_to_be_own(found)


def check_schema(session: Session, until: float) -> None:
    """Raises `StoreError` for a schema of another number, and where there is none or it can't be read."""
    try:
        _has_to_be_own(_number_of_schema(session, until))
    except Complaint as error:
        raise StoreError("the schema wanzoche can't be read: {}".format(error.told)) from error


def _has_to_be_own(number: int) -> None:
    """Raises `StoreError` for another number than the package's."""
    if number != SCHEMA:
        raise StoreError("the schema wanzoche is number {}, and this package has {}".format(number, SCHEMA))


def _bring_up(session: Session, found: int, until: float) -> None:
    """Makes the schema, or brings it from this number to the package's, if nobody else does so at once. Raises `Complaint`."""
    with open(SCRIPT) as file:
        script = file.read()
    try:
        session.run("begin; set local client_min_messages = error", until)
        if found:
            session.run("lock table wanzoche.schema in access exclusive mode", until)
        if _number_of_schema(session, until) == found:
            session.run(script, until)
        session.run("commit", until)
    except Complaint:
        session.run("rollback", until)
        raise


def _number_of_schema(session: Session, until: float) -> int:
    """0 if there is none."""
    if session.run(HAS_SCHEMA, until)[-1][0][0] != b"t":
        return 0
    rows = session.run("select number from wanzoche.schema", until)[-1]
    return int(rows[0][0] or 0)


def declaration_of(url: str, name: str, seconds: float) -> Optional[str]:
    """The declaration of a log; None if there is no such log."""
    session, until = Session(url), time.monotonic() + seconds
    try:
        begin(session, until)
        if session.run("select to_regclass('wanzoche.log') is not null", until)[-1][0][0] != b"t":
            return None
        session.prepare({b"find": "select declaration from wanzoche.log where name = $1"}, until)
        rows = session.call([Call(b"find", (name.encode(),))], until)[0]
        return (rows[0][0] or b"").decode() if rows else None
    except (Cut, Complaint) as error:
        raise StoreError("the server: {}".format(error)) from error
    finally:
        session.close()
