"""The completions of wanzoche. Operations, as behind `exec` and `pass`, are those of the store or the declaration that the line names: the
command itself is asked for them. Behind `--` the shell completes as for the command that stands there."""

from __future__ import annotations

from typing import Dict, List

from shells import fish_option, fish_quoted, long_names, or_none, zsh_message, zsh_option, zsh_quoted
from command_line import Command, Option, Program, is_file

HEAD = "Completion of wanzoche for {}, made by completions/make_completions from the command's parser: don't change it here."

BASH = r"""# {head}
#
# It lies as `wanzoche` in share/bash-completion/completions, or is sourced by ~/.bashrc.

# The operations of the declaration or the store that the words name.
_wanzoche_operations() {{
    local named=()
    if [ -n "$declaration" ]; then named+=(--declaration "$declaration"); fi
    if [ -n "$store" ]; then named+=(--store "$store"); fi
    "${{COMP_WORDS[0]}}" operations "${{named[@]}}" 2> /dev/null
}}

_wanzoche() {{
    local word=${{COMP_WORDS[COMP_CWORD]}} commands='{commands}' options='' wants='' store='' declaration='' behind=0 n it
    COMPREPLY=()
    case ${{COMP_WORDS[1]}} in
{cases}
    esac
    if [[ $COMP_CWORD -eq 1 ]]; then
        if [[ $word == -* ]]; then commands='{options}'; fi
        COMPREPLY=($(compgen -W "$commands" -- "$word"))
        return
    fi

    # What the words before the cursor leave. Where --store=file is typed, bash sees three words.
    for ((n = 2; n < COMP_CWORD && behind == 0; n++)); do
        it=${{COMP_WORDS[n]}}
        if [ "$it" = = ]; then continue; fi
        if [ -n "$wants" ]; then
            it=${{it//[\\\"\']/}}
            it=${{it/#\~\//$HOME/}}
            case $wants in
            --declaration) declaration=$it ;;
            --store) store=$it ;;
            esac
            wants='' && continue
        fi
        options=${{options/ $it / }}
        case $it in
        {valued}) wants=$it ;;
        -*) ;;
        *) behind=$((n + 1)) ;;
        esac
    done

    # `default` lets bash complete a file.
    case $wants in
    {of_files}) compopt -o default && return ;;
    {of_operations}) COMPREPLY=($(compgen -W "$(_wanzoche_operations)" -- "$word")) && return ;;
{choices}
    ?*) return ;;
    esac
    if [[ $behind -gt 0 ]]; then
        if [[ ${{COMP_WORDS[1]}} != exec ]]; then return; fi
        if [[ $COMP_CWORD -eq $behind ]]; then
            COMPREPLY=($(compgen -W -- -- "$word"))
        elif [[ $COMP_CWORD -eq $((behind + 1)) && ${{COMP_WORDS[behind]}} == -- ]]; then
            COMPREPLY=($(compgen -c -- "$word"))
        else
            compopt -o default
        fi
    elif [[ $word == -* ]]; then
        COMPREPLY=($(compgen -W "$options" -- "$word"))
    elif [[ ${{COMP_WORDS[1]}} == exec || ${{COMP_WORDS[1]}} == pass ]]; then
        COMPREPLY=($(compgen -W "$(_wanzoche_operations)" -- "$word"))
    fi
}}
complete -F _wanzoche wanzoche
"""

ZSH = r"""#compdef wanzoche
# {head}
#
# It lies in a folder of $fpath, as share/zsh/site-functions.

_wanzoche_commands() {{
    local -a commands=(
{commands}
    )
    _describe -t commands command commands
}}

# The operations of the declaration or the store that the words name.
_wanzoche_operations() {{
    local -a named operations
    local option value
    for option in --declaration --store; do
        value=${{(Q)${{opt_args[$option]//\\(#b)([:\\])/$match[1]}}}}
        if [[ -n $value ]]; then named+=($option ${{(q)value/#\~\//$HOME/}}); fi
    done
    operations=(${{(f)"$(_call_program operations wanzoche operations $named)"}})
    _wanted operations expl operation compadd -a operations
}}

# What stands behind the operation: `--` and the command with its words.
_wanzoche_command() {{
    if [[ $CURRENT -eq 1 ]]; then
        compadd -- --
        return
    fi
    if [[ $words[1] == -- ]]; then
        shift words
        CURRENT=$((CURRENT - 1))
    fi
    _normal
}}

_wanzoche() {{
    local curcontext=$curcontext state state_descr line
    local -A opt_args
    _arguments -C \
{options} \
        '(-): :_wanzoche_commands' \
        '(-)*:: :->words' && return
    case $words[1] in
{cases}
    esac
}}

_wanzoche "$@"
"""

FISH = r"""# {head}
#
# It lies in share/fish/vendor_completions.d, or in ~/.config/fish/completions.

function __wanzoche_is --argument-names command --description 'whether the first word is this command, or none if none is named'
    set -l words (commandline -opc)
    if test -z "$command"
        test (count $words) -eq 1
    else
        test (count $words) -gt 1; and test $words[2] = $command
    end
end

function __wanzoche_lacks --argument-names option --description 'whether this option is still to come'
    set -l words (commandline -opc)
    if contains -- $words[-1] {valued}
        set -e words[-1]
    end
    not contains -- $option $words; and not string match -q -- "$option=*" $words
end

function __wanzoche_value --argument-names option --description 'the value of this option in the words before the cursor'
    set -l before ''
    for word in (commandline -opc)
        if test "$before" = $option
            echo $word
        else
            string replace -f -- "$option=" '' $word
        end
        set before $word
    end
end

function __wanzoche_behind --description 'the words behind the operation of exec or pass; fails if there is none yet'
    set -l words (commandline -opc)
    set -e words[1..2]
    set -l is_value 0
    while set -q words[1]
        set -l word $words[1]
        set -e words[1]
        if test $is_value -eq 1
            set is_value 0
        else if contains -- $word {valued}
            set is_value 1
        else if not string match -q -- '-*' $word
            string join \n -- $words
            return 0
        end
    end
    return 1
end

function __wanzoche_wants --argument-names part --description 'whether the operation, or the mark -- or the command of exec comes next'
    if not __wanzoche_is exec
        test $part = operation; and __wanzoche_is pass; or return 1
    end
    set -l behind (__wanzoche_behind)
    set -l has_operation $status
    switch $part
        case operation
            test $has_operation -ne 0
        case mark
            test $has_operation -eq 0; and test (count $behind) -eq 0
        case command
            test $has_operation -eq 0; and test (count $behind) -gt 0
    end
end

function __wanzoche_operations --description 'the operations of the declaration or the store that the words name'
    set -l named
    for option in --declaration --store
        set -l value (__wanzoche_value $option | string replace -r '^~/' "$HOME/")
        test -n "$value"; and set -a named $option $value[1]
    end
    wanzoche operations $named 2>/dev/null
end

function __wanzoche_command --description 'what is offered for the command behind --'
    set -l words (__wanzoche_behind)
    if test "$words[1]" = --
        set -e words[1]
    end
    complete -C (string join ' ' -- (string escape -- $words) (commandline -ct))
end

complete -c wanzoche -f
{lines}
"""


def cases_for_bash(program: Program) -> str:
    """The lines that say which options a command takes."""
    return "\n".join("    {}) options=' {} ' ;;".format(it.name, " ".join(long_names(it.options))) for it in program.commands)


def with_value(program: Program) -> List[Option]:
    """The options of all commands that take a value."""
    found = {option.names[-1]: option for command in program.commands for option in command.options if option.value}
    return [found[name] for name in sorted(found)]


def is_operation(option: Option) -> bool:
    """Whether an option takes an operation."""
    return option.value == "OPERATION"


def choices_for_bash(options: List[Option]) -> str:
    """The lines that offer the values of options of which all values are known."""
    line = "    {}) COMPREPLY=($(compgen -W '{}' -- \"$word\")) && return ;;"
    return "\n".join(line.format(it.names[-1], " ".join(it.choices)) for it in options if it.choices)


def for_bash(program: Program) -> str:
    """The completion for bash."""
    valued = with_value(program)
    return BASH.format(
        head=HEAD.format("bash"),
        commands=" ".join(it.name for it in program.commands),
        cases=cases_for_bash(program),
        options=" ".join(long_names(program.itself.options)),
        valued=or_none(long_names(valued)),
        of_files=or_none(long_names([it for it in valued if is_file(it.help)])),
        of_operations=or_none(long_names([it for it in valued if is_operation(it)])),
        choices=choices_for_bash(valued),
    )


def zsh_options(command: Command) -> List[str]:
    """The options of a command. Behind one that only asks, nothing is asked for any more."""
    lines = [zsh_option(it, "- : *" if it.names[-1] in ("--help", "--version") else "") for it in command.options]
    return [line.replace(":OPERATION: '", ":operation:_wanzoche_operations'") for line in lines]


def zsh_case(command: Command) -> str:
    """The lines that say what a command takes. Behind the operation of `exec` no option is read, and the others take one word at most."""
    lines = zsh_options(command)
    if command.name == "exec":
        lines = ["-A '-*'"] + lines + ["'1:operation:_wanzoche_operations'", "'*::: :_wanzoche_command'"]
    elif command.name == "pass":
        lines.append("'1:operation:_wanzoche_operations'")
    else:
        lines += [zsh_quoted("{}:{}: ".format(n + 1, zsh_message(it.help))) for n, it in enumerate(command.arguments)]
    return "    {})\n        _arguments \\\n            {}\n        ;;".format(command.name, " \\\n            ".join(lines))


def for_zsh(program: Program) -> str:
    """The completion for zsh."""
    commands = ["        " + zsh_quoted("{}:{}".format(it.name, zsh_message(it.about))) for it in program.commands]
    return ZSH.format(
        head=HEAD.format("zsh"),
        commands="\n".join(commands),
        options=" \\\n".join("        " + it for it in zsh_options(program.itself)),
        cases="\n".join(map(zsh_case, program.commands)),
    )


def fish_lines(command: Command) -> List[str]:
    """The lines of a command's options."""
    condition = "__wanzoche_is " + command.name + ("; and __wanzoche_wants operation" if command.name == "exec" else "")
    operations = " -a '(__wanzoche_operations)'"
    return [fish_option("wanzoche", condition, it) + (operations if is_operation(it) else "") for it in command.options]


def for_fish(program: Program) -> str:
    """The completion for fish."""
    line = "complete -c wanzoche -n __wanzoche_is -a {} -d {}"
    lines = [line.format(it.name, fish_quoted(it.about)) for it in program.commands]
    lines += [fish_option("wanzoche", "__wanzoche_is", it) for it in program.itself.options]
    lines.append("complete -c wanzoche -n '__wanzoche_wants operation' -a '(__wanzoche_operations)'")
    lines.append("complete -c wanzoche -n '__wanzoche_wants mark' -a --")
    lines.append("complete -c wanzoche -n '__wanzoche_wants command' -a '(__wanzoche_command)'")
    lines += [it for command in program.commands for it in fish_lines(command)]
    return FISH.format(head=HEAD.format("fish"), valued=" ".join(long_names(with_value(program))), lines="\n".join(lines))


def completions(program: Program) -> Dict[str, str]:
    """The completions, by the names of their files."""
    return {"wanzoche.bash": for_bash(program), "_wanzoche": for_zsh(program), "wanzoche.fish": for_fish(program)}
