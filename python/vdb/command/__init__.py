# SPDX-License-Identifier: Apache-2.0
"""The command `vdb-scene`: a module for each subcommand."""
from __future__ import annotations

import argparse
import contextlib
import errno
import os
import re
import sys
import warnings
from typing import Any, Dict, Iterator, Optional, Protocol, Sequence, Type, Union

from .. import __version__
from ..errors import VdbError, VdbWarning
from . import convert, info, labels, merge, mesh, picture, slice, view
from .common import Parser, Problem


class Command(Protocol):
    """A subcommand, which is a module of this folder. Its docstring describes it; the first sentence is its line in --help.

    `EXAMPLE` is a command line without the program's name. `run` raises Problem, or an error of the package, of the system or of memory.
    """

    __doc__: Optional[str]
    EXAMPLE: str

    def add_arguments(self, parser: argparse.ArgumentParser) -> None: ...

    def run(self, arguments: argparse.Namespace) -> None: ...


#: The subcommands, in the order of --help.
COMMANDS: Dict[str, Command] = {
    "info": info, "labels": labels, "convert": convert, "slice": slice, "view": view, "mesh": mesh, "picture": picture,
    "merge": merge,
}  # fmt: skip

#: The exit statuses.
STATUSES = {
    0: "success",
    1: "an error: one line on standard error with the file and the reason; an existing file stays as it was",
    2: "a wrong command line",
    130: "interrupted by Ctrl-C",
}


def parser() -> argparse.ArgumentParser:
    """Returns the parser of the command line."""
    made = Parser(
        prog="vdb-scene",
        description="Looks into scene files of vdb, and turns their grids into files of other formats and back.",
        epilog="Example: vdb-scene info scene.vdbs\n"
        "'vdb-scene COMMAND --help' has an example of each command.\n\n"
        "Exit status:\n" + "\n".join(f"  {status:<5}{what}" for status, what in STATUSES.items()),
        formatter_class=argparse.RawDescriptionHelpFormatter,
    )
    made.add_argument("--version", action="version", version=f"vdb-scene {__version__}")
    commands = made.add_subparsers(title="commands", dest="command", metavar="COMMAND", required=True)
    for name, command in COMMANDS.items():
        what = (command.__doc__ or "").strip()
        added = commands.add_parser(
            name, help=re.split(r"\.\s", what[0].lower() + what[1:].rstrip("."))[0], description=what, epilog=f"Example: vdb-scene {command.EXAMPLE}",
            formatter_class=argparse.RawDescriptionHelpFormatter,
        )  # fmt: skip
        command.add_arguments(added)
    return made


def open_streams() -> None:
    """Opens the standard streams that are closed, so that no file becomes one of them. To read standard input or write standard output
    then fails."""
    for number in (0, 1, 2):
        try:
            os.fstat(number)
        except OSError:
            os.open(os.devnull, os.O_RDONLY if number == 1 else os.O_WRONLY)
    sys.stdin = sys.stdin or open(0, closefd=False)
    sys.stdout = sys.stdout or open(1, "w", closefd=False)
    sys.stderr = sys.stderr or open(2, "w", closefd=False)


def main(arguments: "Optional[Sequence[str]]" = None) -> int:
    """Runs a command line. Returns the exit status."""
    open_streams()
    words = parser().parse_args(arguments)
    try:
        with warning():
            COMMANDS[words.command].run(words)
        sys.stdout.flush()
    except (VdbError, Problem, ImportError) as error:
        return failed(str(error))
    except MemoryError:
        return failed("there is too little memory")
    except OSError as error:
        sys.stdout = open(os.devnull, "w")  # the exit would flush once more
        if error.errno in (errno.EPIPE, errno.EBADF) and not error.filename:
            return failed("standard input or output is closed")
        where = f"{error.filename}: " if error.filename else ""
        return failed(f"{where}{error.strerror or error}")
    except KeyboardInterrupt:
        return failed("interrupted", 130)
    return 0


@contextlib.contextmanager
def warning() -> Iterator[None]:
    """Prints each warning of the package in its block on one line of standard error."""
    with warnings.catch_warnings():
        usual = warnings.showwarning

        def show(message: "Union[Warning, str]", category: Type[Warning], *more: Any) -> None:
            if issubclass(category, VdbWarning):
                print("vdb-scene: warning:", " ".join(str(message).split()), file=sys.stderr)
            else:
                usual(message, category, *more)

        warnings.simplefilter("always", VdbWarning)
        warnings.showwarning = show  # type: ignore[assignment]
        yield


def failed(why: str, status: int = 1) -> int:
    """Prints an error on one line of standard error. Returns the exit status."""
    print("vdb-scene:", " ".join(why.split()), file=sys.stderr)
    return status
