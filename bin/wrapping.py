"""What the wrappers of the tool share: its programs, maps, how files are written, and how a wrapper ends.

A wrapper ends with the tool's status where it called the tool. Of its own it has 1 where something that it needs is missing, 2 for words
that are not its own, 3 for a file that cannot be read, and 4 for one that cannot be written, as the tool has, with one line.
"""
import os
import pathlib
import subprocess
import sys
import tempfile

TOP = pathlib.Path(__file__).resolve().parent.parent
NAME = pathlib.Path(sys.argv[0]).name


class Stop(Exception):
    """Ends the wrapper with a status, and a line on standard error unless it is told already."""

    def __init__(self, status, line=None):
        super().__init__(line)
        self.status, self.line = status, line


def ends(main):
    """Runs the wrapper on its words, and ends with its status."""
    try:
        if sys.version_info < (3, 11):
            raise Stop(1, "this needs python3 of version 3.11 or later")
        status = main(sys.argv[1:])
        sys.stdout.flush()
    except Stop as stop:
        if stop.line is not None:
            print(f"{NAME}: {stop.line}", file=sys.stderr)
        status = stop.status
    except BrokenPipeError:
        # Who reads wants no more, as `head` does.
        os.dup2(os.open(os.devnull, os.O_WRONLY), sys.stdout.fileno())
        status = 4
    except KeyboardInterrupt:
        status = 130
    sys.exit(status)


def program(crate="ec_driver"):
    """The path of a program of the repository, built where its text has changed."""
    done = subprocess.run([TOP / "bin" / "build-program", crate, NAME], stdout=subprocess.PIPE, text=True)
    if done.returncode:
        # What is missing was told.
        raise Stop(1)
    return done.stdout.strip()


def read(path, encoding="utf-8"):
    """The text of a file."""
    try:
        return pathlib.Path(path).read_bytes().decode(encoding)
    except OSError:
        raise Stop(3, f"cannot read {path}") from None
    except UnicodeDecodeError:
        raise Stop(3, f"{path} is not UTF-8") from None


def write(path, text, encoding="utf-8"):
    """Writes a file whole or not at all: the text comes to its name once all of it is there."""
    path = pathlib.Path(path)
    part = None
    try:
        with tempfile.NamedTemporaryFile("wb", dir=path.parent, prefix=f".{path.name}.", delete=False) as file:
            part = file.name
            file.write(text.encode(encoding))
        umask = os.umask(0)
        os.umask(umask)
        os.chmod(part, 0o666 & ~umask)
        os.replace(part, path)
    except OSError:
        if part is not None:
            pathlib.Path(part).unlink(missing_ok=True)
        raise Stop(4, f"cannot write {path}") from None


def read_map(path):
    """The map, which the tool has taken."""
    import tomllib

    try:
        return tomllib.loads(read(path))
    except tomllib.TOMLDecodeError as error:
        raise Stop(1, f"{path} is read as TOML 1.0 here, which it is not: {error}") from None


def map_text(given):
    """A map as TOML: of what a map has, numbers, texts, lists and tables."""

    def value(it):
        if isinstance(it, dict):
            return "{ " + ", ".join(f"{key} = {value(part)}" for key, part in it.items()) + " }"
        if isinstance(it, list):
            return "[" + ", ".join(map(value, it)) + "]"
        return f'"{it}"' if isinstance(it, str) else str(it)

    return "".join(f"{key} = {value(part)}\n" for key, part in given.items())
