"""The commands and options of a program as a table: of pathsys read from its help, of wanzoche from its parser.

The help and the parser are the one source: the man pages and the completions are made of these tables. So a command or an option that a
program gets is in both of them as soon as they are made again.
"""

from __future__ import annotations

import argparse
import os
import re
import runpy
import subprocess
from typing import Dict, Iterator, List, NamedTuple, Optional, Tuple

_HEADING = re.compile(r"^(Commands|Arguments|Options):$")
# An item of a list: what it is called, and behind two spaces or in the lines below what is said of it.
_ITEM = re.compile(r"^ {2,6}([^ ].*?)(?:  +(.*))?$")
_LATER_LINE = re.compile(r"^ {8,}(.*)$")
_DEFAULT = re.compile(r" *\[default: ([^\]]*)\]$")
_IN_PLACE_OF = re.compile(r"\bin place of (\w+)")


class HelpFault(Exception):
    """The help has something that nothing here can read: the text says what."""


class Argument(NamedTuple):
    """A word that a command takes by its place."""

    name: str
    help: str
    required: bool
    several: bool


class Option(NamedTuple):
    """An option: `names` are its spellings, the long one last; `value` is None if it takes none, `several` says whether it takes more, and
    `choices` are all its values, where they are known. One that `may_take` a value does without, too."""

    names: List[str]
    value: Optional[str]
    help: str
    default: Optional[str]
    several: bool
    choices: Tuple[str, ...] = ()
    may_take: Optional[str] = None


class Command(NamedTuple):
    """A command, or the program itself. `more` are the lines of its help below the options."""

    name: str
    about: str
    arguments: List[Argument]
    options: List[Option]
    more: List[str]


class Program(NamedTuple):
    """The program and its commands. `help` is what its help says of the command `help`, which isn't among them."""

    itself: Command
    commands: List[Command]
    help: str


def _lists(lines: List[str]) -> Iterator[Tuple[str, List[str]]]:
    """The lists of a help text: each heading with the lines up to the next empty one."""
    for at, line in enumerate(lines):
        heading = _HEADING.match(line)
        if heading:
            below = lines[at + 1 :]
            yield heading.group(1), below[: below.index("")] if "" in below else below


def _items(lines: List[str]) -> List[Tuple[str, str]]:
    """The items of a list: what each is called, and what is said of it, in one line."""
    items: List[Tuple[str, str]] = []
    for line in lines:
        item, later = _ITEM.match(line), _LATER_LINE.match(line)
        if later and items:
            called, said = items[-1]
            items[-1] = called, (said + " " + later.group(1)).strip()
        elif item:
            items.append((item.group(1), item.group(2) or ""))
        else:
            raise HelpFault("no item of a list: {!r}".format(line))
    return items


def _argument(called: str, said: str) -> Argument:
    """An argument, as `<DECL>`, `[ATTEMPTS]` or `<JOURNAL>...`."""
    parts = re.match(r"^(?:<(\w+)>|\[(\w+)\])(\.\.\.)?$", called)
    if not parts:
        raise HelpFault("no argument: {!r}".format(called))
    return Argument(parts.group(1) or parts.group(2), said, parts.group(1) is not None, parts.group(3) is not None)


def _option(called: str, said: str) -> Option:
    """An option, as `-h, --help`, `--room <N>` or `--after <JOURNAL>...`."""
    parts = re.match(r"^((?:-\w, )?-(?:\w|-[\w-]+))(?: <(\w+)>(\.\.\.)?)?$", called)
    if not parts:
        raise HelpFault("no option: {!r}".format(called))
    default = _DEFAULT.search(said)
    said = _DEFAULT.sub("", said)
    return Option(parts.group(1).split(", "), parts.group(2), said, default.group(1) if default else None, parts.group(3) is not None)


def command_of(name: str, text: str) -> Command:
    """The command of this name whose help is this text. Raises HelpFault if a line of a list can't be read."""
    lines = text.splitlines()
    usage = next((at for at, line in enumerate(lines) if line.startswith("Usage:")), None)
    if usage is None:
        raise HelpFault("the help of {} has no line Usage".format(name))
    about = " ".join(lines[:usage]).strip()
    lists = dict(_lists(lines))
    arguments = [_argument(*item) for item in _items(lists.get("Arguments", []))]
    options = [_option(*item) for item in _items(lists.get("Options", []))]
    if not options:
        raise HelpFault("the help of {} has no options".format(name))
    below = lines[lines.index("Options:") :]
    more = below[below.index("") + 1 :] if "" in below else []
    return Command(name, about, arguments, options, more)


def commands_in(text: str) -> Dict[str, str]:
    """The names of the commands that the program's help lists, with what it says of each."""
    return dict(_items(dict(_lists(text.splitlines())).get("Commands", [])))


def help_of(program: str, words: List[str]) -> str:
    """What the program writes for these words and `--help`. It is called pathsys there, whatever its file is called."""
    run = subprocess.run(["pathsys", *words, "--help"], executable=program, stdout=subprocess.PIPE, check=True)
    return run.stdout.decode("utf-8")


def read_program(program: str) -> Program:
    """The table of the program in this file, which is run once for itself and once for each command."""
    own = help_of(program, [])
    listed = commands_in(own)
    if "help" not in listed:
        raise HelpFault("the help lists no command help")
    commands = [command_of(name, help_of(program, [name])) for name in listed if name != "help"]
    return Program(command_of("pathsys", own), commands, listed["help"])


def _table_of(name: str, about: str, parser: argparse.ArgumentParser) -> Command:
    """The command that a parser of Python's reads."""
    arguments, options = [], []
    for each in parser._actions:
        shown = each.metavar if isinstance(each.metavar, str) else ""
        said = (each.help or "").replace("%(default)s", str(each.default))
        if each.option_strings:
            value, may_take = (None, shown) if each.nargs == "?" else (shown or None, None)
            options.append(Option(list(each.option_strings), value, said, None, False, tuple(each.choices or ()), may_take))
        elif not isinstance(each, argparse._SubParsersAction):
            arguments.append(Argument(shown, said, True, each.nargs is not None))
    return Command(name, about, arguments, options, [])


def read_parser(path: str, version: str) -> Program:
    """The table of the program whose parser is made by the function `parser` in this file of Python."""
    parser: argparse.ArgumentParser = runpy.run_path(path)["parser"](version)
    commands = next(each for each in parser._actions if isinstance(each, argparse._SubParsersAction))
    about = {each.dest: each.help or "" for each in commands._choices_actions}
    listed = [_table_of(name, about[name], commands.choices[name]) for name in about]
    return Program(_table_of(parser.prog, parser.description or "", parser), listed, "")


def read_wanzoche(top: str) -> Program:
    """The table of the command wanzoche, in the repository that begins there."""
    with open(os.path.join(top, "VERSION"), encoding="utf-8") as file:
        version = file.read().strip()
    return read_parser(os.path.join(top, "python", "wanzoche", "_options.py"), version)


def stands_for(option: Option, command: Command) -> Optional[Argument]:
    """The argument in whose place an option is given, as its help says: `in place of attempts`."""
    said = _IN_PLACE_OF.search(option.help)
    named = [argument for argument in command.arguments if said and argument.name.lower() == said.group(1)]
    return named[0] if named else None


def is_file(help: str) -> bool:
    """Whether what an argument or a value is, in the words of the help, is a file."""
    return help.startswith(("the file of ", "the file that "))
