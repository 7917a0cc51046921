"""How libpq is told to connect, and what it is that a connection couldn't be made."""

from __future__ import annotations

import importlib
import re
from typing import Any, Dict, List

from .._errors import StoreError

FOR_LIBPQ = {
    "gssencmode": "disable",  # its library keeps a lock that a fork beside a connecting thread would leave locked
    "keepalives_idle": "5",
    "keepalives_interval": "2",
    "keepalives_count": "3",
    "tcp_user_timeout": "10000",
    "application_name": "wanzoche",
}
DENIED = ("22", "28", "3D", "42")
"""What the server says of a session that it won't begin, whoever asks again: a wrong option, password, or database, and a missing right."""

_CODE, _PLACE = re.compile(r"(?<=:)  ([0-9A-Z]{5}):  ?"), re.compile(r"\n\S+ +\w+, \w+\.c:\d+")
"""In what libpq says of a connection: the code of what a server has said, and where in the server's source that stands."""
_DENIAL = re.compile('password authentication failed|(database|role) ".*" does not exist|permission denied for database|pg_hba.conf')
"""The same as `DENIED` where there are no codes, of a server that speaks English."""


class Cut(Exception):
    """The session is over. What was called may have been done or not."""


class Denied(Cut):
    """There is none, since the server won't have it."""


def psycopg(name: str) -> Any:
    """A module of psycopg 3, or StoreError."""
    try:
        return importlib.import_module("psycopg" + name)
    except ImportError as error:
        raise StoreError("a store in PostgreSQL needs psycopg 3, as Debian's python3-psycopg: docs/machines.md ({})".format(error)) from error


def info_of(url: str) -> bytes:
    """What libpq is told of a URL, with what it is told besides. Raises `StoreError` for what is none."""
    conninfo = psycopg(".conninfo")
    try:
        given = conninfo.conninfo_to_dict(url)
        besides: Dict[str, str] = {key: value for key, value in FOR_LIBPQ.items() if key not in given}
        return bytes(conninfo.make_conninfo(url, **besides).encode())
    except Exception as error:
        raise StoreError("this isn't a URL of PostgreSQL: {}".format(str(error).strip())) from error


def message_of(connection: Any) -> str:
    """What libpq says of a connection."""
    return bytes(connection.error_message).decode("utf-8", "replace")


def refusal_of(connection: Any) -> Cut:
    """What is raised of a connection that couldn't be made: `Denied` if the server has said that it won't have it."""
    told, is_denied = message_of(connection).rstrip(), bool(connection.needs_password)
    codes: List[str] = _CODE.findall(told)
    places = list(_PLACE.finditer(told))
    if codes and places and places[-1].end() == len(told):  # the last server that was tried has said it
        is_denied = codes[-1].startswith(DENIED)
    told = _CODE.sub(" ", _PLACE.sub("", told)) or "the connection was closed"
    return (Denied if is_denied or not codes and _DENIAL.search(told) else Cut)(told)
