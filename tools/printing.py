"""What the tools of fonts have in common: how they name files, print what they make, and say what is wrong."""

import argparse
import errno
import os
import pathlib
import sys


def named_file(text: str) -> pathlib.Path:
    """The path of a file that a word names. An empty name would be that of the folder."""
    if not text:
        raise argparse.ArgumentTypeError("the name of the file is empty")
    return pathlib.Path(text)


def text_of(fault: Exception) -> str:
    """What a fault says, without the name of the file."""
    if isinstance(fault, MemoryError):
        return "there is not enough memory"
    if isinstance(fault, OSError) and fault.strerror:
        return fault.strerror
    return str(fault)


def tell(text: str) -> None:
    """Writes a text to standard error. Where that is closed, `print` would write to standard output."""
    if sys.stderr is not None:
        print(text, file=sys.stderr)


def tell_fault(tool: str, file: pathlib.Path | str, fault: Exception) -> None:
    """Says what is wrong with a file, on a line for each fault."""
    tell("\n".join(f"{tool}: {file}: {line}" for line in text_of(fault).splitlines()))


def print_made(tool: str, made: str, name: str = "the script", status: int = 1) -> None:
    """Prints what a tool has made. If that fails, the tool says so and exits with this status, without trying again to write what is
    left."""
    try:
        if sys.stdout is None:
            # This is what Python has for a closed standard output, and `print` would do nothing.
            raise OSError(errno.EBADF, os.strerror(errno.EBADF))
        print(made, end="", flush=True)
    except (OSError, MemoryError) as fault:
        tell(f"{tool}: {name} was not written: {text_of(fault)}")
        os._exit(status)
