"""The options of the four commands, as the tools' parsers and the program's source have them. So
completions and manual pages are made and compared without a toolchain."""

from __future__ import annotations

import argparse
import re
from dataclasses import dataclass
from typing import Dict, Iterator, List, Optional, Tuple

from crashfs_tools.campaign import options as campaign_options
from crashfs_tools.checker import command_line as check_options
from crashfs_tools.recorder import options as record_options

from .sources import TOP

# The function `NAME_command` in it adds the options of the command NAME; functions whose names
# begin with `with_` add those that several commands share.
SOURCE = TOP / 'crates' / 'cs_command_line' / 'src' / 'commands.rt'
# The values of options that have a list of them in the source.
CHOICES = {'client': ('plan9', 'linux'), 'profile': ('blocks', 'ordered', 'journal')}
ARGUMENT = r'(?P<about>"[^"]*"|\w+)'
# The calls of SOURCE that add an option, as patterns of its name, of the name of its value and of
# the argument for its help. What a call doesn't have as an argument is after its pattern.
OPTION_CALLS: Tuple[Tuple[str, Dict[str, str]], ...] = (
    (rf'flag\(alloc, "(?P<name>[\w-]+)", {ARGUMENT}', {}),
    (rf'value_argument\(alloc, "(?P<name>[\w-]+)", "(?P<value>[\w-]+)", {ARGUMENT}', {}),
    (rf'count_argument\(alloc, "(?P<name>[\w-]+)", {ARGUMENT}', {'value': 'N'}),
    (rf'users_argument\(alloc, {ARGUMENT}', {'name': 'users', 'value': 'FILE'}),
)
TOOLS = {
    'crashfs-campaign': campaign_options.make_parser,
    'crashfs-check': check_options.make_parser,
    'crashfs-record': record_options.make_parser,
}


@dataclass(frozen=True)
class Option:
    """An option: its names and its help. `value` is the name of its value in the help, or None if
    it takes none. `choices` has the only values that it accepts; if it is empty, any is accepted.
    """

    names: Tuple[str, ...]
    help: str
    value: Optional[str] = None
    choices: Tuple[str, ...] = ()


HELP = Option(('-h', '--help'), 'Prints the help')
VERSION = Option(('-V', '--version'), 'Prints the version')


def options_of_tool(command: str) -> List[Option]:
    """The options that a command of TOOLS has in its --help, in their order there. KeyError for any
    other command."""
    # argparse has no public list of a parser's options. A test looks for each in --help.
    actions = TOOLS[command]()._actions
    return [
        option_from_action(action)
        for action in actions
        if action.option_strings and action.help != argparse.SUPPRESS
    ]


def option_from_action(action: argparse.Action) -> Option:
    """The option of an action of a parser. The name of its value is the metavar or, without one,
    the attribute for the value, in capitals; a flag has no value."""
    value = str(action.metavar or action.dest).upper() if action.nargs != 0 else None
    choices = tuple(str(choice) for choice in action.choices or ())
    return Option(tuple(action.option_strings), first_help_sentence(action), value, choices)


def first_help_sentence(action: argparse.Action) -> str:
    """The first sentence of an option's help, without its full stop; it also ends before a
    semicolon or colon. Empty if there is no help. What is in round brackets after a blank is left
    out: a default may differ on another machine, as the number of processors does."""
    help_text = ' '.join((action.help or '').split()) % {**vars(action), 'prog': ''}
    return re.split(r'; |\. |: ', re.sub(r' \([^)]*\)', '', help_text))[0].rstrip('.')


def functions_of_program() -> Dict[str, str]:
    """The functions of SOURCE by name, each with the text from its name to the head of the next
    function, the next one's comment included. OSError if there is no such file."""
    parts = re.split(r'^(?:pub )?fn (\w+)', SOURCE.read_text('utf-8'), flags=re.M)
    return dict(zip(parts[1::2], parts[2::2]))


def text_of_argument(body: str, argument: str) -> str:
    """The text that an argument means in a function's body. The argument is a literal, with its
    quotes, or a variable that the body sets to a literal: the first such line counts. Empty if the
    body doesn't set the variable so."""
    if argument.startswith('"'):
        return argument.strip('"')
    literal = re.search(rf'let {argument} =\s*"([^"]*)"', body)
    return literal[1] if literal else ''


def own_options(body: str) -> Iterator[Option]:
    """The options that a function of SOURCE adds in its own body, not by the functions that it
    calls; in the order of OPTION_CALLS, then of the body."""
    all_parts = (
        {**fixed, **match.groupdict()}
        for pattern, fixed in OPTION_CALLS
        for match in re.finditer(pattern, body)
    )
    for parts in all_parts:
        name, help_text = parts['name'], text_of_argument(body, parts['about'])
        yield Option((f'--{name}',), help_text, parts.get('value'), CHOICES.get(name, ()))


def options_in(function: str, functions: Dict[str, str]) -> List[Option]:
    """The options that a function of SOURCE adds: own_options(), then those of the functions
    `with_..` that it calls. `functions` are those of functions_of_program(). KeyError if they lack
    the function, or one that it calls; RecursionError if two call each other."""
    body = functions[function]
    called_names = [name for name in re.findall(r'\b(with_\w+)\(', body) if name != function]
    shared_options = [option for name in called_names for option in options_in(name, functions)]
    return [*own_options(body), *shared_options]


def command_helps() -> Dict[str, str]:
    """What the program's help says of each command, by the command's name; an empty text if it says
    nothing. OSError if SOURCE can't be read."""
    abouts = {
        name.replace('_command', ''): re.search(r'\.about\("([^"]*)"\)', body)
        for name, body in functions_of_program().items()
        if name.endswith('_command')
    }
    return {command: about[1] if about else '' for command, about in abouts.items()}


def commands_of_program() -> Dict[str, List[Option]]:
    """The options of each command of the program, by the command's name, as SOURCE has them;
    without --help, which each has. Errors as options_in(), and OSError if SOURCE can't be read."""
    functions = functions_of_program()
    return {
        name.replace('_command', ''): options_in(name, functions)
        for name in functions
        if name.endswith('_command')
    }
