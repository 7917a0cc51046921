"""What the command `wanzoche` takes. It needs nothing else of the package: the man page and the completions are made from it, too."""

from __future__ import annotations

import argparse
import re

_UNITS = {"s": 1, "m": 60, "h": 3600, "d": 86400}


def parser(version: str) -> argparse.ArgumentParser:
    """The commands, with what each takes."""
    whole = argparse.ArgumentParser(prog="wanzoche", description="Operations under path expressions that processes share, from the shell.")
    whole.add_argument("--version", action="version", version="wanzoche " + version, help="print the version")
    commands = whole.add_subparsers(dest="command", metavar="COMMAND")
    commands.required = True

    def command(name: str, does: str, has_store: bool = True) -> argparse.ArgumentParser:
        made = commands.add_parser(name, help=does, description=does[0].upper() + does[1:] + ".")
        told = "the file of the journal that the processes share, or the URL of a PostgreSQL database"
        made.add_argument("--store", required=has_store, metavar="FILE", help=told)
        made.add_argument("--name", metavar="NAME", help="the name of the log, of a store in PostgreSQL")
        told = "the file of the declaration, for a store that isn't there yet; else it has to be the store's"
        made.add_argument("--declaration", metavar="FILE", help=told if has_store else "the file of the declaration, in place of a store's")
        return made

    _add_exec(command("exec", "run a command as an operation"))
    told = "say what can be started, which path blocks what, what is in progress, and what of it is a dead worker's"
    _add_status(command("status", told))
    command("log", "write the lines of the journal")
    command("audit", "say whether each reply in the journal was owed")
    command("watch", "write the lines of the journal as they come")
    _add_view(command("view", "serve a page to browsers of this machine that shows how the store is, and write its address"))
    recover = command("recover", "finish what a dead worker has in progress")
    recover.add_argument("worker", metavar="WORKER", help="its number, as `status` says it")
    recover.add_argument("--even-alive", action="store_true", help="also if it is alive: then it loses what it has")
    by_hand = command("pass", "begin an operation and end it at once, so that the paths go on to what stands behind it")
    told = "wait so long for the operation's turn; else it is passed now or not at all"
    by_hand.add_argument("--timeout", type=float, default=0.0, metavar="SECONDS", help=told)
    by_hand.add_argument("operation", metavar="OPERATION", help="the operation; options stand before it")
    command("operations", "write the operations that are declared, one in a line", False)
    return whole


def _add_status(status: argparse.ArgumentParser) -> None:
    """What `status` takes besides."""
    status.add_argument("--json", action="store_true", help="as one line of JSON")
    told = "go on, and say it again when it has changed; look for what has died at least each so many seconds (1)"
    status.add_argument("--watch", type=_more_than_none, nargs="?", const=1.0, metavar="SECONDS", help=told)


def _add_view(view: argparse.ArgumentParser) -> None:
    """What `view` takes besides."""
    view.add_argument("--port", type=_port_of, default=0, metavar="N", help="the port of 127.0.0.1 on which it is served; else a free one")
    view.add_argument("--open", action="store_true", help="open the page in a browser")


def _port_of(text: str) -> int:
    """The number of a port. Raises ArgumentTypeError for anything else."""
    if not text.isdecimal() or not 1 <= int(text) <= 65535:
        raise argparse.ArgumentTypeError("the number of a port is wanted, from 1 to 65535, and not {}".format(text))
    return int(text)


def _more_than_none(text: str) -> float:
    """A number of seconds. Raises ValueError for what isn't more than 0."""
    seconds = float(text)
    if not 0 < seconds < float("inf"):
        raise argparse.ArgumentTypeError("more than no seconds are wanted, not {}".format(text))
    return seconds


def _seconds_of(text: str) -> int:
    """The seconds in a duration as `90s`, `15m`, `23h` or `7d`. Raises ArgumentTypeError for anything else."""
    found = re.fullmatch(r"([1-9][0-9]{0,8})([smhd])", text)
    if found is None:
        raise argparse.ArgumentTypeError("a duration is wanted, as 90s, 15m, 23h or 7d, and not {}".format(text))
    return int(found.group(1)) * _UNITS[found.group(2)]


def _add_exec(run: argparse.ArgumentParser) -> None:
    """What `exec` takes besides."""
    run.add_argument("--timeout", type=float, metavar="SECONDS", help="don't wait for longer than that for the operation's turn")
    run.add_argument("--nonblock", action="store_true", help="don't wait for the operation's turn")
    told = "the status where the operation isn't admitted in time (%(default)s)"
    run.add_argument("--conflict-status", type=int, default=1, metavar="N", help=told)
    run.add_argument("--token-env", metavar="NAME", help="the variable in which the command gets the operation's token")
    told = "run it at most once in that time, as 15m, 23h or 7d, whoever asks; else it is a conflict. The resource's cell keeps the time"
    run.add_argument("--every", type=_seconds_of, metavar="DURATION", help=told)
    told = "the operation that begins and ends behind a command that succeeded"
    run.add_argument("--passed", metavar="OPERATION", help=told)
    told = "the same behind one that failed: that ended with another status than 0, by a signal, or that couldn't be run"
    run.add_argument("--failed", metavar="OPERATION", help=told)
    told = "say nothing of what it waits for, nor where the operation isn't admitted in time"
    run.add_argument("--quiet", action="store_true", help=told)
    told = "what happens to an operation in the way whose process is dead: it is finished, or kept until `recover` (what a log has; finish)"
    run.add_argument("--lost", choices=["finish", "keep"], metavar="finish|keep", help=told)
    run.add_argument("--no-sync", action="store_true", help="don't wait for the disk")
    run.add_argument("operation", metavar="OPERATION", help="the operation; options stand before it")
    run.add_argument("run", nargs=argparse.REMAINDER, metavar="-- COMMAND ..", help="the command with its words")
