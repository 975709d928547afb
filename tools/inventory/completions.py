"""Completions of the four commands for bash, zsh and fish, made from their options."""

from __future__ import annotations

import textwrap
from pathlib import Path
from typing import Dict, List

from .command_lines import (
    HELP,
    TOOLS,
    VERSION,
    Option,
    command_helps,
    commands_of_program,
    options_of_tool,
)
from .sources import TOP

FOLDER = TOP / 'tools' / 'completions'
# The first comment of each file.
MADE = 'Made by tools/inventories. Install it where the shell looks for completions.'
COLUMNS = 96


def option_names(options: List[Option]) -> str:
    """All names of some options, with a space between them."""
    return ' '.join(name for option in options for name in option.names)


def wrapped_lines(words: str, indent: str) -> str:
    """A text of words as lines that begin with the indent. A line has at most COLUMNS characters,
    unless a single word needs more. Empty without words."""
    return textwrap.fill(
        words,
        COLUMNS,
        initial_indent=indent,
        subsequent_indent=indent,
        break_long_words=False,
        break_on_hyphens=False,
    )


def bash_value_branches(options: List[Option]) -> str:
    """The branches of a `case` of bash for options that take a value; the `case` is on the word
    before the word to complete. The branch of an option with choices offers these; the branch of
    the others returns, and bash offers files. Empty if no option takes a value."""
    branches = [
        f'        {" | ".join(option.names)}) words=\'{" ".join(option.choices)}\' ;;'
        for option in options
        if option.choices
    ]
    without_choices = [option for option in options if option.value and not option.choices]
    if without_choices:
        names = ' | '.join(name for option in without_choices for name in option.names)
        branch = wrapped_lines(names + ')', '        ').replace('\n', ' \\\n')
        branches.append(branch + ' return ;;')
    return '\n'.join(branches)


def bash_of_tool(command: str) -> str:
    """The text of the completion file of a command of TOOLS for bash: it offers the command's
    options, after an option its choices, and after `--` only files. KeyError for any other
    command."""
    options, name = options_of_tool(command), command.replace('-', '_')
    return f'''\
# Completion for bash of {command}. {MADE}
_{name}() {{
    local current=${{COMP_WORDS[COMP_CWORD]}} previous=${{COMP_WORDS[COMP_CWORD - 1]}} words= word
    COMPREPLY=()
    for word in "${{COMP_WORDS[@]:1:COMP_CWORD-1}}"; do
        # COMMAND, and its arguments.
        [[ $word == -- ]] && return
    done
    case $previous in
{bash_value_branches(options)}
        *)
            [[ $current == -* ]] && words='
{wrapped_lines(option_names(options), '                ')}'
            ;;
    esac
    mapfile -t COMPREPLY < <(compgen -W "$words" -- "$current")
}}
complete -o default -F _{name} {command}
'''


def bash_of_program() -> str:
    """The text of the completion file of crashfs for bash: first it offers the commands, then the
    options of the command that is given, and after an option its choices. If commands have options
    of one name, the choices are those of the last command. Errors as commands_of_program()."""
    commands = commands_of_program()
    all_options = [option for options in commands.values() for option in options]
    option_by_name = {name: option for option in all_options for name in option.names}
    command_branches = '\n'.join(
        f'                    {command})\n                        words=\'\n'
        f'{wrapped_lines(option_names([HELP, *options]), " " * 28)}\' ;;'
        for command, options in commands.items()
    )
    first_words = f'{" ".join(commands)} help {option_names([HELP, VERSION])}'
    return f'''\
# Completion for bash of crashfs. {MADE}
_crashfs() {{
    local current=${{COMP_WORDS[COMP_CWORD]}} previous=${{COMP_WORDS[COMP_CWORD - 1]}} words=
    COMPREPLY=()
    case $previous in
{bash_value_branches(list(dict.fromkeys(option_by_name.values())))}
        *)
            if ((COMP_CWORD == 1)); then
                words='{first_words}'
            elif [[ ${{COMP_WORDS[1]}} == help ]]; then
                words='{" ".join(commands)}'
            elif [[ $current == -* ]]; then
                case ${{COMP_WORDS[1]}} in
{command_branches}
                esac
            fi
            ;;
    esac
    mapfile -t COMPREPLY < <(compgen -W "$words" -- "$current")
}}
complete -o default -F _crashfs crashfs
'''


def quoted_text(text: str) -> str:
    """A text as zsh and fish take it between single quotes; without the quotes. A backslash is
    doubled. An apostrophe would end the quotes, so it becomes a typographic one."""
    return text.replace('\\', '\\\\').replace("'", "’")


def zsh_option(option: Option) -> str:
    """An option as `_arguments` of zsh takes it: after one of its names the other names aren't
    offered. Square brackets of the help become round ones. A value without choices is completed as
    a file."""
    help_text = quoted_text(option.help).replace('[', '(').replace(']', ')').replace(':', '\\:')
    value_text = ''
    if option.value:
        offered_values = f'({" ".join(option.choices)})' if option.choices else '_files'
        value_text = f':{option.value}:{offered_values}'
    if len(option.names) == 1:
        return f"'{option.names[0]}[{help_text}]{value_text}'"
    names = ' '.join(option.names)
    return f"'({names})'{{{','.join(option.names)}}}'[{help_text}]{value_text}'"


def zsh_of_tool(command: str) -> str:
    """The text of the completion file of a command of TOOLS for zsh: it offers the command's
    options and files, after `--` only files, by the option -S of `_arguments`. KeyError for any
    other command."""
    lines = ' \\\n    '.join(map(zsh_option, options_of_tool(command)))
    return f"#compdef {command}\n# {MADE}\n_arguments -S \\\n    {lines} \\\n    '*:file:_files'\n"


def zsh_command_branch(command: str, options: List[Option]) -> str:
    """The branch of a `case` of zsh for a command of crashfs: it offers these options and --help,
    and files as TRACE."""
    lines = ' \\\n                '.join(map(zsh_option, [HELP, *options]))
    return (
        f"        {command})\n            _arguments \\\n                {lines} \\\n"
        f"                '1:TRACE:_files' ;;"
    )


def zsh_of_program() -> str:
    """The text of the completion file of crashfs for zsh. It offers the commands as the first word;
    after a command, but not after `help`, its options, and files as TRACE. Errors as
    commands_of_program()."""
    commands = commands_of_program()
    command_lines = '\n'.join(
        f"        '{command}:{quoted_text(help_text)}'"
        for command, help_text in command_helps().items()
    )
    branch_lines = '\n'.join(
        zsh_command_branch(command, options) for command, options in commands.items()
    )
    return f'''\
#compdef crashfs
# {MADE}
local -a commands
if ((CURRENT == 2)); then
    commands=(
{command_lines}
        'help:Prints the help of a command'
    )
    _describe command commands
else
    shift words
    ((CURRENT--))
    case $words[1] in
{branch_lines}
    esac
fi
'''


def fish_option(command: str, option: Option, condition: str = '') -> str:
    """A line for fish that offers an option of a command. The condition, a text ` -n ..`, says when
    the option is offered; if it is empty, always. A value without choices is completed as a
    file."""
    names = ' '.join(
        f'-l {name[2:]}' if name.startswith('--') else f'-s {name[1:]}' for name in option.names
    )
    value_text = ''
    if option.value:
        value_text = f" -x -a '{' '.join(option.choices)}'" if option.choices else ' -r'
    return f"complete -c {command}{condition} {names}{value_text} -d '{quoted_text(option.help)}'"


def fish_of_tool(command: str) -> str:
    """The text of the completion file of a command of TOOLS for fish: a comment, and a line for
    each option. KeyError for any other command."""
    lines = [fish_option(command, option) for option in options_of_tool(command)]
    return '\n'.join([f'# {MADE}', *lines]) + '\n'


def fish_of_program() -> str:
    """The text of the completion file of crashfs for fish. It offers the commands until the line
    has one, then the options of that command; --help always. Errors as commands_of_program()."""
    lines = [
        f'# {MADE}',
        fish_option('crashfs', HELP),
        fish_option('crashfs', VERSION, ' -n __fish_use_subcommand'),
    ]
    help_texts = command_helps()
    for command, options in commands_of_program().items():
        lines.append(
            f'complete -c crashfs -n __fish_use_subcommand -a {command} '
            f"-d '{quoted_text(help_texts[command])}'"
        )
        condition = f" -n '__fish_seen_subcommand_from {command}'"
        lines += [fish_option('crashfs', option, condition) for option in options]
    return '\n'.join(lines) + '\n'


def completion_files() -> Dict[Path, str]:
    """The texts of the completion files of all four commands for each shell, by their paths. No
    file is written. Errors as commands_of_program()."""
    texts = {
        FOLDER / 'crashfs.bash': bash_of_program(),
        FOLDER / 'crashfs.zsh': zsh_of_program(),
        FOLDER / 'crashfs.fish': fish_of_program(),
    }
    for command in TOOLS:
        texts[FOLDER / f'{command}.bash'] = bash_of_tool(command)
        texts[FOLDER / f'{command}.zsh'] = zsh_of_tool(command)
        texts[FOLDER / f'{command}.fish'] = fish_of_tool(command)
    return texts
