"""The program `vault`."""

import contextlib
import io
import os
import sys
from typing import List, Optional

from vault.cli.command_line import read_words
from vault.cli.commands import COMMANDS
from vault.cli.output import Output
from vault.cli.session import last_designer, said
from vault.cli.vaults import meant
from vault.cli.words import Given, NoWords
from vault.client import Client
from vault.errors import NotKnownError, VaultError
from vault.protocol.address import read_address


# Who asks what needs no server.
NOBODY = "nobody@127.0.0.1:1"


class NotSaidError(VaultError):
    """The answer can't be written to standard output."""


class DoneNotSaidError(NotSaidError, NotKnownError):
    """The same, of a command that changed something."""


def run(given: Given, output: Output) -> None:
    """Does one command and says what came of it."""
    who, words = meant(given, last_designer(), output)
    designer, servers = read_address(NOBODY if isinstance(words, NoWords) else said(who))
    client = Client(designer, *servers[0], patience=given.patience, notice=output.notice, progress=output.progress, others=servers[1:])
    try:
        sentence, fields = COMMANDS[given.command].told(client, words, output)
    except OSError as error:
        if not client.may_have_changed:
            raise
        raise NotKnownError(f"A file of this client can't be used: {error}. At least a part of `{given.command}` was done, so look before you say it"
                            " again: make room or mend its rights, and then run `vault mine`.") from error
    except KeyboardInterrupt:
        client.link.drop()  # the reply that is under way may be long in coming, and no line is read before it
        raise
    finally:
        client.close()
    try:
        output.answer(sentence, fields)
        sys.stdout.flush()
    except OSError as error:
        if client.may_have_changed:
            raise DoneNotSaidError(f"`{given.command}` was done, but its answer can't be written: {error.strerror}. `vault mine` shows how you"
                                   " stand.") from error
        if isinstance(error, BrokenPipeError):
            raise
        raise NotSaidError(f"The answer can't be written: {error.strerror}.") from error


def main(arguments: Optional[List[str]] = None) -> int:
    """The program: 0 done, 1 refused, 2 the command line is wrong, 3 not known yet or no server."""
    if "_ARGCOMPLETE" in os.environ:
        from vault.cli.completing import complete
        return complete()
    prepare_streams()
    line = sys.argv[1:] if arguments is None else arguments
    output = Output("", "--json" in line)
    try:
        given = read_words(line)
        output = Output(given.command, given.json)
        run(given, output)
        return 0
    except VaultError as error:
        return told(output, error)
    except BrokenPipeError:
        drop_output()
        return 1
    except OSError as error:
        return told(output, VaultError(f"A file of this client can't be used: {error}. Make room or mend its rights, and try again."))
    except KeyboardInterrupt:
        return told(output, NotKnownError("Interrupted. If a command was under way, the next `vault mine` finds out what became of it."))


def prepare_streams() -> None:
    """Has standard output take any text, also what its encoding can't say. A standard stream that is closed keeps nothing."""
    if sys.stdout is None:
        sys.stdout = open(os.devnull, "w", encoding="utf-8")
    if sys.stderr is None:
        sys.stderr = open(os.devnull, "w", encoding="utf-8")
    if isinstance(sys.stdout, io.TextIOWrapper) and sys.stdout.errors == "strict":
        sys.stdout.reconfigure(errors="backslashreplace")


def told(output: Output, error: VaultError) -> int:
    """Says what went wrong, on standard error if standard output takes nothing, and answers the status for it."""
    with contextlib.suppress(OSError):
        if output.as_json and not isinstance(error, NotSaidError):
            output.error(error)
            return error.status
    try:
        sys.stdout.flush()
    except OSError:
        drop_output()
    with contextlib.suppress(OSError):
        Output(output.command, False).error(error)
    return error.status


def drop_output() -> None:
    """Has standard output keep nothing from now on, so that its end is no error."""
    os.dup2(os.open(os.devnull, os.O_WRONLY), sys.stdout.fileno())
