"""PostgreSQL servers for tests: each in a temporary folder, at a Unix socket and a port of loopback, run by a user without rights."""

import atexit
import glob
import importlib.util
import itertools
import os
import pwd
import shutil
import signal
import socket
import subprocess
import sys
import tempfile
import time
import unittest

import wanzoche._served.paths  # and with it all that tests look at in there
from wanzoche import Paths, StoreError, _served

from .limits import LONGEST
from .stores import OverAStore

NEEDED = os.environ.get("WANZOCHE_POSTGRESQL") == "needed"
"""Whether a server that can't be had is a failure."""
_served.times.OPENING = _served.times.SPARE = _served.times.CLOSING = _served.times.OUTAGE = LONGEST
COMMAND = [
    sys.executable,
    "-c",
    "import sys; from wanzoche._served import times; times.OPENING = times.SPARE = times.CLOSING = times.OUTAGE = {}; "
    "from wanzoche._command import main; sys.exit(main())".format(LONGEST),
]
"""The command `wanzoche`, which waits as long as it takes, too."""
SETTINGS = {
    "fsync": "off",  # what a killed server has written is there when it is started again: only the machine may not fall
    "full_page_writes": "off",
    "autovacuum": "off",
    "max_connections": "100",
    "shared_buffers": "16MB",
    "listen_addresses": "127.0.0.1",
    "log_min_messages": "fatal",
}


def folder_of_programs():
    """Where postgres and initdb are; None if they aren't here."""
    found = [os.path.dirname(os.path.realpath(path)) for path in [shutil.which("postgres")] if path]
    versions = glob.glob("/usr/lib/postgresql/*/bin")
    found += sorted(versions, key=lambda path: int(path.split("/")[-2]), reverse=True)
    return next((folder for folder in found if os.path.exists(folder + "/initdb") and os.path.exists(folder + "/pg_isready")), None)


def why_not():
    """Why there is no server; None if there can be one."""
    if os.environ.get("WANZOCHE_POSTGRESQL") == "no":
        return "they aren't wanted here"
    if importlib.util.find_spec("psycopg") is None:
        return "this Python has no psycopg"
    if folder_of_programs() is None:
        return "there is no PostgreSQL here"
    return None


def needs_server(test):
    """A test that is left out where there is no server; but on the gate's machine it fails."""
    why = why_not()
    if why and NEEDED:
        raise AssertionError(why)
    return unittest.skipIf(why, why)(test)


def _user():
    """Who runs the server: root may not."""
    if os.getuid():
        return None
    for name in ("postgres", "nobody"):
        try:
            return pwd.getpwnam(name)
        except KeyError:
            pass
    raise AssertionError("there is neither a user postgres nor nobody")


class Server:
    """One server."""

    def __init__(self, **settings):
        self._bin = folder_of_programs()
        self._user = _user()
        self.folder = tempfile.mkdtemp(prefix="wanzoche-")
        if self._user:
            os.chown(self.folder, self._user.pw_uid, self._user.pw_gid)
        self._process = None
        self.settings = {**SETTINGS, **settings}
        with socket.socket() as free:
            free.bind(("127.0.0.1", 0))
            self.port = free.getsockname()[1]
        self._run("initdb", "-D", self.folder + "/data", "-A", "trust", "-U", "postgres", "--no-sync", "-E", "UTF8", "--locale=C")
        with open(self.folder + "/data/pg_hba.conf", "a") as file:
            file.write("host all all 10.213.0.0/16 trust\n")  # of the networks that the tests make
        atexit.register(self._end, os.getpid())
        self.start()

    @property
    def url(self):
        return "postgresql://postgres@/postgres?host={}&port={}".format(self.folder, self.port)

    def tcp_url(self, host="127.0.0.1", port=None):
        return "postgresql://postgres@{}:{}/postgres".format(host, port or self.port)

    def _become(self):
        if self._user:
            os.setgroups([])
            os.setgid(self._user.pw_gid)
            os.setuid(self._user.pw_uid)

    def _run(self, program, *words):
        command = [os.path.join(self._bin, program)] + list(words)
        done = subprocess.run(command, cwd="/", preexec_fn=self._become, stdout=subprocess.PIPE, stderr=subprocess.STDOUT)
        if done.returncode:
            raise AssertionError("{}: {}".format(program, done.stdout.decode()))

    def start(self):
        """Starts it, and returns when it answers."""
        words = [os.path.join(self._bin, "postgres"), "-D", self.folder + "/data", "-k", self.folder, "-p", str(self.port)]
        for name, value in self.settings.items():
            words += ["-c", "{}={}".format(name, value)]
        with open(self.folder + "/log", "ab") as log:
            self._process = subprocess.Popen(words, cwd="/", preexec_fn=self._become, stdin=subprocess.DEVNULL, stdout=log, stderr=log)
        until = time.monotonic() + LONGEST
        ready = [os.path.join(self._bin, "pg_isready"), "-q", "-h", self.folder, "-p", str(self.port)]
        while subprocess.run(ready).returncode:
            if self._process.poll() is not None:
                time.sleep(0.2)  # processes of the one that was killed are still there
                return self.start()
            assert time.monotonic() < until, "the server doesn't start"
            time.sleep(0.02)

    def _children(self):
        with open("/proc/{0}/task/{0}/children".format(self._process.pid)) as file:
            return [int(pid) for pid in file.read().split()]

    def kill(self):
        """Kills it and all its processes."""
        os.kill(self._process.pid, signal.SIGSTOP)
        children = self._children()
        for pid in [self._process.pid] + children:
            try:
                os.kill(pid, signal.SIGKILL)
            except ProcessLookupError:
                pass
        self._process.wait()

    def stop_writing(self):
        """From now on until it is killed nothing gets to the disk for which nobody waits."""
        ((pid,),) = self.run("select pid from pg_stat_activity where backend_type = 'walwriter'")
        os.kill(pid, signal.SIGSTOP)

    def run(self, text, *values):
        """The rows of a statement."""
        import psycopg

        with psycopg.connect(self.url, autocommit=True, gssencmode="disable") as connection:
            cursor = connection.execute(text, values or None)
            return cursor.fetchall() if cursor.description else []

    def _end(self, pid):
        if pid == os.getpid():
            if self._process is not None and self._process.poll() is None:
                self._process.send_signal(signal.SIGQUIT)
                self._process.wait()
            shutil.rmtree(self.folder, ignore_errors=True)

    def end(self):
        """Ends it, and removes its folder."""
        self._end(os.getpid())


_servers = []
_names = itertools.count(1)


def the_server():
    """The server that most tests share."""
    if not _servers:
        _servers.append(Server())
    return _servers[0]


def new_name():
    """The name of a log that isn't there yet."""
    return "log {} of {}".format(next(_names), os.getpid())


SHORT_GRACE = 0.5
"""For tests of the dead. In all others nobody is taken for dead, however long it is before a session comes back."""


class OnServer(OverAStore):
    """For a TestCase: a log, and openings of it."""

    grace = float(LONGEST)

    def setUp(self):
        super().setUp()
        self.server = the_server()
        self.name = new_name()

    def made(self, text, **options):
        """Paths that nobody closes."""
        return Paths(text, store=options.pop("store", self.server.url), name=self.name, **{"grace": self.grace, **options})

    def waiting_rows(self, paths):
        """How many the server knows that wait in these paths."""
        told = "select count(*) from wanzoche.waiter join wanzoche.log using (log) where name = %s and worker = %s and since is not null"
        ((count,),) = self.server.run(told, self.name, paths.served.worker)
        return count

    def waits_now(self, paths):
        """Whether one waits in these paths: the server knows it, and the answer that says so is read."""
        return self.waiting_rows(paths) and paths.served.log.session.asked_at is None

    def until_it_waits(self, paths):
        """Waits until one does."""
        self.until(lambda: self.waits_now(paths))

    def answered(self, call):
        """What a call returns. It is made again where the server of a busy machine doesn't answer within an outage that is short for a test."""
        end = time.monotonic() + LONGEST
        while True:
            try:
                return call()
            except StoreError as error:
                if "the server doesn't answer" not in str(error) or time.monotonic() > end:
                    raise

    def lines(self):
        """The lines of the log, as they stand in the table."""
        told = "select x.line from wanzoche.line x join wanzoche.log y using (log) where y.name = %s order by x.place"
        return [line for (line,) in self.server.run(told, self.name)]
