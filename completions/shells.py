"""What the completions of both programs are made with: names and texts as a shell wants them."""

from __future__ import annotations

import os
import sys
from typing import List, Optional

HERE = os.path.dirname(os.path.realpath(__file__))
TOP = os.path.dirname(HERE)
sys.path.insert(0, os.path.join(TOP, "man"))

from command_line import Option, is_file


def long_names(options: List[Option], value: Optional[bool] = None) -> List[str]:
    """The long names of options: of all, or of those that take a value or take none."""
    return [it.names[-1] for it in options if value is None or (it.value is not None) == value]


def said_of(option: Option) -> str:
    """What is said of an option."""
    return option.help + ("; {} if it isn't given".format(option.default) if option.default else "")


def or_none(patterns: List[str]) -> str:
    """Patterns of a case; one that nothing matches if there are none."""
    return " | ".join(patterns) if patterns else "/"


def zsh_quoted(text: str) -> str:
    """A word of zsh."""
    return "'" + text.replace("'", r"'\''") + "'"


def zsh_message(text: str) -> str:
    """A text in a specification of _arguments or _describe, in which a colon begins the next part."""
    return text.replace("\\", r"\\").replace(":", r"\:")


def zsh_option(option: Option, excluded: str) -> str:
    """An option of _arguments. `excluded` is what isn't asked for any more behind it."""
    shown = said_of(option).replace("\\", r"\\").replace("[", r"\[").replace("]", r"\]")
    names = "{" + ",".join(option.names) + "}" if len(option.names) > 1 else option.names[0]
    offered = "({})".format(" ".join(option.choices)) if option.choices else "_files" if is_file(option.help) else " "
    value = ":{}:{}".format(option.value, offered) if option.value else ""
    if option.several:
        value = ":*-*" + value
    said = zsh_quoted("{}[{}]{}".format("=" if option.value else "", shown, value))
    if len(option.names) > 1:
        return (zsh_quoted("({})".format(excluded)) if excluded else "") + names + said
    return zsh_quoted("({})".format(excluded) if excluded else "")[:-1] + names + said[1:]


def fish_quoted(text: str) -> str:
    """A word of fish."""
    return "'" + text.replace("\\", r"\\").replace("'", r"\'") + "'"


def fish_option(program: str, condition: str, option: Option) -> str:
    """The line of an option of a program, which stands once at most, under a condition."""
    long = option.names[-1][2:]
    short = " -s " + option.names[0][1:] if len(option.names) > 1 else ""
    value = (" -r -F" if is_file(option.help) else " -x") if option.value else ""
    if option.choices:
        value += " -a " + fish_quoted(" ".join(option.choices))
    where = "{}; and __{}_lacks {}".format(condition, program, option.names[-1])
    said = fish_quoted(said_of(option))
    return "complete -c {} -n {}{} -l {}{} -d {}".format(program, fish_quoted(where), short, long, value, said)
