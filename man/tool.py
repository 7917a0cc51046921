"""pathsys(1): what the help says, for the man macros."""

from __future__ import annotations

import re
import subprocess
from typing import List, Optional, Tuple

from command_line import Argument, Command, HelpFault, Option, Program, stands_for
from roff import bold, example, italic, prose, tagged, wrapped

_STATUS = re.compile(r"^  (\d)  (.*)$")
_COLUMNS = 68
_TYPED = re.compile(r"^pathsys <<'END'$")


class Tool:
    """The program as its help tells of it."""

    def __init__(self, table: Program, path: str) -> None:
        self.table = table
        self.path = path

    def about(self) -> List[str]:
        """The line NAME."""
        about = self.table.itself.about
        return [r"pathsys \- " + about[:1].lower() + about[1:]]

    def synopsis(self) -> List[str]:
        """How the program and each command are called."""
        calls = [self.table.itself, *self.table.commands]
        lines = [line for command in calls for line in [*_call(command), ".br"]]
        name = bold("pathsys")
        return lines + [r"{} [{}] {}".format(name, italic("COMMAND"), bold("--help")), ".br", name + " " + bold("--version")]

    def words(self) -> List[str]:
        """The paragraphs of the program's help that aren't about an example, a page or a status."""
        return [line for it in _paragraphs(self.table.itself) if not _is_special(it) for line in [".PP", *prose(" ".join(it))]]

    def commands(self) -> List[str]:
        """Each command: what it does, what it takes, its own statuses and its examples."""
        usual = dict(statuses_of(self.table.itself))
        return [line for command in self.table.commands for line in _command(command, usual)]

    def options(self) -> List[str]:
        """The options of the program itself."""
        return [line for option in self.table.itself.options for line in _option(option)]

    def statuses(self) -> List[str]:
        """The exit statuses of all commands."""
        return [line for status, said in statuses_of(self.table.itself) for line in tagged(bold(status), prose(said))]

    def example(self) -> List[str]:
        """The example of the program's help, and what the program writes for it."""
        paragraph = next(it for it in _paragraphs(self.table.itself) if _TYPED.match(it[0]))
        text = "\n".join(paragraph[1:-1]) + "\n"
        run = subprocess.run([self.path], input=text.encode(), stdout=subprocess.PIPE, check=True)
        written = run.stdout.decode("utf-8").splitlines()
        return [*example(paragraph), ".PP", "writes", *example(written)]

    def pages(self) -> List[str]:
        """Which page to read for what, in the words of the help."""
        return [line for it in _paragraphs(self.table.itself) if it[0].startswith("See ") for line in [".PP", *prose(" ".join(it))]]


def _paragraphs(command: Command) -> List[List[str]]:
    """The paragraphs of the help below the options."""
    paragraphs: List[List[str]] = [[]]
    for line in command.more:
        if line:
            paragraphs[-1].append(line)
        else:
            paragraphs.append([])
    return [it for it in paragraphs if it]


def _is_special(paragraph: List[str]) -> bool:
    """Whether a paragraph has a place of its own in the page."""
    return paragraph[0].startswith(("Example", "Exit statuses:", "See ")) or _TYPED.match(paragraph[0]) is not None


def statuses_of(command: Command) -> List[Tuple[str, str]]:
    """The exit statuses that the help lists."""
    rows = [_STATUS.match(line) for line in command.more]
    statuses = [(row.group(1), row.group(2)) for row in rows if row]
    if not statuses:
        raise HelpFault("the help of {} has no exit statuses".format(command.name))
    return statuses


def _value(option: Option) -> str:
    """The value of an option behind a space, if it takes one."""
    return " " + italic(option.value) + ("..." if option.several else "") if option.value else ""


def _spelled(option: Option) -> str:
    """An option with its value."""
    return bold(option.names[-1]) + _value(option)


def _in_brackets(argument: Argument, instead: Optional[Option]) -> str:
    """An argument of a synopsis, with the option that may stand in its place."""
    text = italic(argument.name) + ("..." if argument.several else "")
    if instead:
        text += r"\~|\~" + _spelled(instead).replace(" ", r"\~")
    if argument.required:
        return "{" + text + "}" if instead else text
    return "[" + text + "]"


def _call(command: Command) -> List[str]:
    """The synopsis of a command, or of the program without one."""
    instead = {stands_for(it, command): it for it in command.options if stands_for(it, command)}
    words = [_in_brackets(argument, instead.get(argument)) for argument in command.arguments]
    options = ["[" + _spelled(it).replace(" ", r"\~") + "]" for it in command.options if _is_own(it) and it not in instead.values()]
    name = [bold("pathsys")] if command.name == "pathsys" else [bold("pathsys " + command.name)]
    return [" ".join(name + words + options)]


def _is_own(option: Option) -> bool:
    """Whether an option is more than a question about the program."""
    return option.names[-1] not in ("--help", "--version")


def _option(option: Option) -> List[str]:
    """What an option is."""
    names = ", ".join(bold(name) for name in option.names) + _value(option)
    said = option.help + ("; {} if it isn't given".format(option.default) if option.default else "")
    return tagged(names, prose(said))


def _argument(argument: Argument) -> List[str]:
    """What an argument is."""
    return tagged(italic(argument.name), prose(argument.help))


def _in_columns(line: str) -> List[str]:
    """A command line in lines of a page's width."""
    lines = wrapped(line, _COLUMNS, "    ")
    return [it + " \\" for it in lines[:-1]] + lines[-1:]


def _command(command: Command, usual: "dict[str, str]") -> List[str]:
    """The section of a command. Statuses are told where they mean something else than they do in general."""
    lines = [".SS " + command.name, *_call(command), ".PP", *prose(command.about + ".")]
    for argument in command.arguments:
        lines += _argument(argument)
    for option in filter(_is_own, command.options):
        lines += _option(option)
    own = [(status, said) for status, said in statuses_of(command) if usual.get(status) != said]
    for status, said in own:
        lines += tagged("Status " + bold(status), prose(said))
    for paragraph in _paragraphs(command):
        if paragraph[0].startswith("Example"):
            lines += example(part for line in paragraph[1:] for part in _in_columns(line.strip()))
        elif not _is_special(paragraph):
            lines += [".PP", *prose(" ".join(paragraph))]
    return lines
