"""wanzoche(1): what the parser of the command says, for the man macros."""

from __future__ import annotations

from typing import List

from command_line import Argument, Command, Option, Program
from roff import bold, italic, prose, tagged

# What each command takes is told once, with the options.
_OF_STORE = ("--store", "--declaration")


class Shell:
    """The command wanzoche as its parser tells of it."""

    def __init__(self, table: Program) -> None:
        self.table = table

    def synopsis(self) -> List[str]:
        """How each command is called."""
        calls = [line for command in self.table.commands for line in [_call(command), ".br"]]
        return [*calls, "{} [{}] {}".format(bold("wanzoche"), italic("COMMAND"), bold("--help")), ".br", bold("wanzoche --version")]

    def commands(self) -> List[str]:
        """Each command: what it does, and what it takes but for the store."""
        return [line for command in self.table.commands for line in _command(command)]

    def options(self) -> List[str]:
        """The options that all commands have."""
        return [line for option in self.table.commands[0].options if option.names[-1] in _OF_STORE for line in _option(option)]


def _spelled(option: Option) -> str:
    """An option with its value."""
    may_take = " [{}]".format(italic(option.may_take)) if option.may_take else ""
    return bold(option.names[-1]) + (" " + italic(option.value) if option.value else may_take)


def _argument_name(argument: Argument) -> str:
    """An argument: what stands for a word is italic, and what is typed is bold."""
    return " ".join(bold(word) if word.startswith("-") else italic(word) for word in argument.name.split())


def _is_own(option: Option) -> bool:
    """Whether an option is more than a question about the program, and not told with the options of all commands."""
    return option.names[-1] not in ("--help", *_OF_STORE)


def _call(command: Command) -> str:
    """The synopsis of a command. The options stand before what it takes by its place."""
    store = "{}\\~|\\~{}" if command.name == "operations" else "{} [{}]"
    options = store.format(*(_spelled(it).replace(" ", r"\~") for it in command.options if it.names[-1] in _OF_STORE))
    others = ["[" + _spelled(it).replace(" ", r"\~") + "]" for it in command.options if _is_own(it)]
    return " ".join([bold("wanzoche " + command.name), options, *others, *map(_argument_name, command.arguments)])


def _option(option: Option) -> List[str]:
    """What an option is."""
    return tagged(_spelled(option), prose(option.help))


def _command(command: Command) -> List[str]:
    """The section of a command."""
    lines = [".SS " + command.name, ".PP", *prose(command.about[:1].upper() + command.about[1:] + ".")]
    for argument in command.arguments:
        lines += tagged(_argument_name(argument), prose(argument.help))
    for option in filter(_is_own, command.options):
        lines += _option(option)
    return lines
