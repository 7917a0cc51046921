"""How a session begins: what the server is told first, and whether somebody stands between who doesn't keep sessions."""

from __future__ import annotations

import time

from .._errors import StoreError
from .connecting import Cut
from .session import Complaint, Session

PATH = "set search_path = pg_catalog, pg_temp"
"""What the server is told first: nothing is looked for in a schema in which others may make functions and operators."""
LIMITS = (
    "set statement_timeout = 0; set lock_timeout = 0; set idle_session_timeout = 0; set idle_in_transaction_session_timeout = 0; "
    "select set_config(name, '0', false) from pg_settings where name = 'transaction_timeout'"
)
"""What it is told next: whatever limits the role or the database has for others, this session has its own."""
HEARTBEAT = (
    "set tcp_keepalives_idle = 5; set tcp_keepalives_interval = 2; set tcp_keepalives_count = 3; set tcp_user_timeout = 10000; "
    "set statement_timeout = 60000; set idle_in_transaction_session_timeout = 3000; set client_min_messages = error; "
    "set plan_cache_mode = force_generic_plan; set jit = off; set default_transaction_isolation = 'read committed'"
)
"""What the server is told of a session that has the schema: it ends one whose machine is silent for some ten seconds, and one that keeps
others waiting, and it cancels what nobody waits for any more."""
BESIDE = 2.0
"""Behind a pooler, so many seconds another session is waited for. If there is none, this one has the only one that there is."""
POOLED = (
    "a pooler stands before the server and gives a session to others between two transactions, as pgbouncer does with "
    "`pool_mode = transaction`. Paths need sessions that are kept: name the server itself in the URL, or take `pool_mode = session`"
)


def begin(session: Session, until: float) -> None:
    """Connects by then. Raises `Cut`, and `StoreError` if a pooler doesn't keep sessions."""
    session.connect(until)
    try:
        own = _process(session, until)
        if own != session.process():
            _refuse_pooler(session, own, until)
        session.run(PATH, until)
        session.run(LIMITS, until)
    except Complaint as error:
        raise session.cut(str(error)) from error


def _process(session: Session, until: float, before: str = "") -> int:
    """The number of the server's process that answers."""
    return int(session.run(before + "select pg_catalog.pg_backend_pid()", until)[-1][0][0] or 0)


def _refuse_pooler(session: Session, own: int, until: float) -> None:
    """Another process of the server answers than the one that was named when this session was connected, so somebody stands between.
    Raises `StoreError` if another session has this process too, or if another process answers while that one has a transaction."""
    beside, limit = Session(session.url), min(until, time.monotonic() + BESIDE)
    try:
        try:
            beside.connect(limit)
            is_shared = own in (_process(beside, limit), _process(beside, limit, "begin; "))
        except Cut:
            is_shared = False
        if is_shared or any(_process(session, until) != own for _ in range(3)):
            raise StoreError(POOLED)
    finally:
        beside.close()
