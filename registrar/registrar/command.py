"""The command line: one subcommand for each command module."""

from __future__ import annotations

import argparse
import importlib
import os
import signal
import sys
import types
from typing import Any, List, NoReturn, Optional, Sequence

import registrar
from registrar import at_work, ending, tell, whole, work_log

# The command modules in the order of a term. Each has NAME, HELP, add_arguments(parser) and run(arguments) -> exit status. One
# that writes also has writes(arguments) -> the folders in which it writes, that of the log first.
MODULES = (
    "import_exports",
    "look",
    "estimate",
    "run_market",
    "try_settings",
    "check",
    "explain",
    "audit",
    "again",
    "lists",
    "rosters",
    "summary",
    "compare",
    "trial",
    "hall",
    "next_term",
    "work_log",
)

STATUSES = (
    "Exit statuses: 0, all is well; 1 to 9, the program's own status (docs/FORMATS.md); 64, the words are wrong; "
    "65, faults or warnings stand in the files, and are told; 66, a file is missing or can not be read; 69, there is no program yet; "
    "75, somebody else works in that folder; above 128, a signal ended it or the program."
)


class Parser(argparse.ArgumentParser):
    """A parser whose refusals have a status of their own, since 2 is a status of the program.

    A word that begins with a dash and is no option of the command is a file where one has that name, and a name where
    the command takes names of students or sections (`set_defaults(takes_names=True)`): `import` makes such names.
    """

    def _parse_optional(self, arg_string: str) -> Any:
        """What `argparse` asks of each word: nothing, where it is no option."""
        return None if self.is_word(arg_string) else super()._parse_optional(arg_string)

    def is_word(self, text: str) -> bool:
        """Whether a word that may look like an option is a name or a file."""
        begin = text.split("=", 1)[0]
        is_long = begin.startswith("--")
        is_option = any(one == begin or is_long and one.startswith(begin) for one in self._option_string_actions)
        if is_option or not text.startswith("-") or text in ("-", "--"):
            return False
        return bool(self.get_default("takes_names")) or os.path.lexists(text)

    def error(self, message: str) -> NoReturn:
        """Tells the usage and the fault, and ends."""
        self.print_usage(tell.errors())
        self.exit(tell.USAGE, f"{self.prog}: {message}\n")


def command_modules() -> List[types.ModuleType]:
    """The command modules."""
    return [importlib.import_module("registrar." + name) for name in MODULES]


def parser() -> argparse.ArgumentParser:
    """The parser of all commands."""
    top = Parser(prog="registrar", description=registrar.__doc__.strip().splitlines()[0], epilog=STATUSES)
    commands = top.add_subparsers(dest="command", metavar="COMMAND", parser_class=Parser)
    for module in command_modules():
        one = commands.add_parser(module.NAME, help=module.HELP, description=module.HELP, epilog=STATUSES)
        module.add_arguments(one)
        one.set_defaults(run=module.run, writes=getattr(module, "writes", nowhere))
    return top


def nowhere(_: argparse.Namespace) -> List[str]:
    """The folders of a command that writes nothing."""
    return []


def worked(arguments: argparse.Namespace, words: Sequence[str]) -> int:
    """Runs a command, alone in the folders in which it writes, and keeps in their log what it wrote."""
    folders = arguments.writes(arguments)
    if not folders:
        return int(arguments.run(arguments))
    with at_work.in_folders(folders, arguments.command, make=True):
        for path in [path for folder in dict.fromkeys(folders) for path in whole.left_parts(folder)]:
            left = "left by a command that was ended; nothing reads it, and it may be removed"
            tell.warn(f"{path} is a part of a file, {left}")
        with work_log.kept(folders[0], arguments.command, words) as ended:
            status = int(arguments.run(arguments))
            ended["status"] = status
            return status


def main(words: Optional[Sequence[str]] = None) -> int:
    """Runs the command of these words, and answers its exit status."""
    reader = parser()
    arguments = reader.parse_args(words)
    if arguments.command is None:
        reader.print_help()
        return tell.USAGE
    try:
        with ending.heeded():
            return worked(arguments, sys.argv[1:] if words is None else words)
    except tell.Trouble as trouble:
        tell.warn(str(trouble))
        return trouble.status
    except BrokenPipeError:
        os.dup2(os.open(os.devnull, os.O_WRONLY), sys.stdout.fileno())
        return 141
    except OSError as error:
        tell.warn(f"{error.filename or 'standard output'} can not be read or written: {error.strerror}")
        return tell.FAULTS
    except ending.Ended as end:
        by = "the keyboard" if end.number == signal.SIGINT else f"signal {end.number}"
        tell.warn(f"stopped by {by}; what stood before still stands")
        return 128 + end.number
