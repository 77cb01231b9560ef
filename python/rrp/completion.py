"""Completions for bash and zsh, made of the descriptions of the commands.

What a word is to be is told by the name that `--help` gives it. Names of lists and routers are
asked of the plan that stands in the line.
"""

from __future__ import annotations

from collections.abc import Iterable

from .descriptions import Argument, Command, first_clause, option_names

#: What is asked of a plan for a word that `--help` gives this name.
NAMES = {"LIST": "lists", **dict.fromkeys(("ROUTER", "OTHER", "A,B,.."), "routers")}

#: Words that are neither files nor names.
_FREE = ("STATEMENT", "SEED", "N")

_BASH = '''# Completion of rrp for bash. Written by: rrp completion bash
_rrp_names() {
    [[ -z $2 ]] || rrp completion "$1" "$2" 2>/dev/null
}

_rrp_kind() {
    case $1 in
    files) COMPREPLY=($(compgen -f -- "$2")) ;;
    lists | routers) COMPREPLY=($(compgen -W "$(_rrp_names "$1" "$3")" -- "$2")) ;;
    free | '') ;;
    *) COMPREPLY=($(compgen -W "${1//,/ }" -- "$2")) ;;
    esac
}

_rrp() {
    local word=${COMP_WORDS[COMP_CWORD]} before=${COMP_WORDS[COMP_CWORD - 1]}
    local command= plan= kind= place=0 index given skip=
    local options= values= words=
    COMPREPLY=()
    for ((index = 1; index < COMP_CWORD; index++)); do
        given=${COMP_WORDS[index]}
        if [[ -n $skip ]]; then
            skip=
        elif [[ $given == -?* ]]; then
            [[ " $values" != *" $given="* ]] || skip=yes
        elif [[ -z $command ]]; then
            command=$given
            case $command in
@CASES@
            esac
        else
            [[ -n $plan ]] || plan=$given
            place=$((place + 1))
        fi
    done
    for given in $values; do
        [[ $before != "${given%%=*}" ]] || kind=${given#*=}
    done
    if [[ -z $command ]]; then
        COMPREPLY=($(compgen -W "@COMMANDS@ --help --version" -- "$word"))
    elif [[ -n $kind ]]; then
        _rrp_kind "$kind" "$word" "$plan"
    elif [[ $word == -* ]]; then
        COMPREPLY=($(compgen -W "$options" -- "$word"))
    else
        words=($words)
        kind=${words[place]:-${words[${#words[@]} - 1]}}
        [[ $place -lt ${#words[@]} || $kind == *+ ]] || kind=free
        _rrp_kind "${kind%+}" "$word" "$plan"
    fi
}
complete -o filenames -F _rrp rrp
'''

_ZSH = '''#compdef rrp
# Completion of rrp for zsh. Written by: rrp completion zsh
_rrp_names() {
    local -a found
    local plan=${${(@)words[2,-1]:#-*}[1]}
    found=(${(f)"$(rrp completion $1 $plan 2>/dev/null)"})
    compadd -a found
}

_rrp_lists() { _rrp_names lists }

_rrp_routers() { _rrp_names routers }

_rrp() {
    local context state line
    typeset -A opt_args
    local -a commands
    commands=(
@COMMANDS@
    )
    _arguments -C '--version[write the version]' '--help[write help]' \\
        '1:command:->command' '*::word:->words'
    case $state in
    command) _describe command commands ;;
    words)
        case $line[1] in
@CASES@
        esac
        ;;
    esac
}

if [[ $zsh_eval_context[-1] == loadautofunc ]]; then
    _rrp "$@"
else
    compdef _rrp rrp
fi
'''


def bash(commands: Iterable[Command]) -> str:
    """The completions for bash."""
    commands = list(commands)
    cases = [line for command in commands for line in _bash_case(command)]
    names = " ".join(command.name for command in commands)
    return _BASH.replace("@CASES@", "\n".join(cases)).replace("@COMMANDS@", names)


def _kind(argument: Argument) -> str:
    """What completes a word: names, files, one of some words, or nothing."""
    if argument.choices:
        return ",".join(argument.choices)
    if argument.value in NAMES:
        return NAMES[argument.value]
    return "free" if argument.value in _FREE else "files"


def _bash_case(command: Command) -> list[str]:
    """The options of a command, what their values are, and what its words are."""
    values = [
        f"{name}={_kind(each)}"
        for each in command.options
        if each.value is not None
        for name in each.names
    ]
    words = [f"{_kind(each)}{'+' * each.repeated}" for each in command.words]
    indent = " " * 12
    return [
        f"{indent}{command.name})",
        f"{indent}    options=\"{' '.join(option_names(command.options))}\"",
        f"{indent}    values=\"{' '.join(values)}\"",
        f"{indent}    words=\"{' '.join(words)}\"",
        f"{indent}    ;;",
    ]


def zsh(commands: Iterable[Command]) -> str:
    """The completions for zsh."""
    commands = list(commands)
    lines = [f"        {_quoted(f'{each.name}:{each.line}')}" for each in commands]
    cases = [line for command in commands for line in _zsh_case(command)]
    return _ZSH.replace("@COMMANDS@", "\n".join(lines)).replace("@CASES@", "\n".join(cases))


def _zsh_case(command: Command) -> list[str]:
    specs = [spec for each in command.options for spec in _zsh_option(each)]
    for place, each in enumerate(command.words, 1):
        where = "*" if each.repeated else f"{place}{':' * each.optional}"
        specs.append(f"{where}:{_plain(each.value)}:{_zsh_action(each)}")
    indent = " " * 8
    quoted = [f"{indent}        {_quoted(spec)}" for spec in specs]
    head = [f"{indent}{command.name})", f"{indent}    _arguments \\"]
    return [*head, " \\\n".join(quoted), f"{indent}    ;;"]


def _zsh_option(option: Argument) -> list[str]:
    value = "" if option.value is None else f":{_plain(option.value)}:{_zsh_action(option)}"
    star = "*" * option.repeated
    return [f"{star}{name}[{_plain(first_clause(option.help))}]{value}" for name in option.names]


def _zsh_action(argument: Argument) -> str:
    kind = _kind(argument)
    if argument.choices:
        return f"({' '.join(argument.choices)})"
    return {"files": "_files", "lists": "_rrp_lists", "routers": "_rrp_routers"}.get(kind, " ")


def _plain(text: str) -> str:
    """A text within a specification, in which brackets and colons have a meaning."""
    for letter in "\\[]:":
        text = text.replace(letter, f"\\{letter}")
    return text


def _quoted(text: str) -> str:
    """A text as a word of the shell."""
    return "'" + text.replace("'", "'\\''") + "'"
