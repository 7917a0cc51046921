"""What the tests of the command `wanzoche` share."""

import contextlib
import os
import resource
import shlex
import subprocess
import sys
import threading

from .declarations import BOOK
from .limits import LONGEST
from .stores import InFolder

IS_ANOTHER = bool(os.environ.get("WANZOCHE_COMMAND"))
"""Whether the variable names another program than the package's."""
COMMAND = shlex.split(os.environ["WANZOCHE_COMMAND"]) if IS_ANOTHER else [sys.executable, "-m", "wanzoche"]
"""The words that run the command."""
DELIVERY = """resource delivery cell
operation build, built, broken, deploy
path build ; ((built ; deploy) , broken) end
end
"""
CROWDED = """resource delivery cell
operation build, built, broken, inspect
path build ; (built , broken) end
path { built } , inspect end
end
"""


@contextlib.contextmanager
def running(words, **options):
    """A process that runs meanwhile. Where the block fails, or hangs, it is killed, so that nobody waits for it."""
    with subprocess.Popen(words, **options) as process:
        alarm = threading.Timer(LONGEST, process.kill)
        alarm.start()
        try:
            yield process
        except BaseException:
            process.kill()
            raise
        finally:
            alarm.cancel()


def in_file(size):
    """For a child: no file gets longer."""
    return lambda: resource.setrlimit(resource.RLIMIT_FSIZE, (size, resource.getrlimit(resource.RLIMIT_FSIZE)[1]))


class OnCommand(InFolder):
    """For a TestCase: the command, over a store in a folder, and a file with a declaration."""

    DECLARATION = BOOK

    def setUp(self):
        super().setUp()
        self.declaration = os.path.join(self.folder, "declaration.path")
        with open(self.declaration, "w") as file:
            file.write(self.DECLARATION)

    def words(self, command, *words):
        return [*COMMAND, command, "--store", self.file, *words]

    def runs(self, command, *words):
        """What it writes, what it writes on standard error, and its status."""
        ended = subprocess.run(
            self.words(command, *words), stdin=subprocess.DEVNULL, stdout=subprocess.PIPE, stderr=subprocess.PIPE, timeout=LONGEST
        )
        return ended.stdout.decode(), ended.stderr.decode(), ended.returncode

    def runs_without(self, streams, command, *words):
        """The same where these of the streams 0 to 2 are closed."""
        ended = subprocess.run(
            self.words(command, *words), stdin=subprocess.DEVNULL, stdout=subprocess.PIPE, stderr=subprocess.PIPE, timeout=LONGEST,
            preexec_fn=lambda: [os.close(stream) for stream in streams],
        )  # fmt: skip
        return ended.stdout.decode(), ended.stderr.decode(), ended.returncode
