"""Exit statuses, lines and progress on standard error, and signals, as all tools handle them."""
import contextlib
import enum
import json
import os
import signal
import sys
from types import FrameType
from typing import Callable, Iterable, Iterator, NoReturn, Optional

STOPPING = (signal.SIGHUP, signal.SIGINT, signal.SIGTERM)
CLEAR = "\r\x1b[K"  # erases a line on a terminal
MOST_CHARACTERS = 80  # the most characters of a text in a line, as in `xbrlmerge explain`


class Status(enum.IntEnum):
    """The exit status of a tool, unless a signal ends it."""

    DONE = 0
    LOOK = 1  # done, with something to look at, such as a loss, an omission or a contradiction
    USAGE = 2
    NOT_DONE = 3


class NotDone(Exception):
    """The reasons why a tool failed. Each argument is a line for standard error."""


class Stopped(BaseException):
    """A signal that ends the tool once the tool has cleaned up. `except Exception` does not catch this exception."""

    def __init__(self, number: int) -> None:
        super().__init__(number)
        self.number = number


def run(main: Callable[[], Status]) -> NoReturn:
    """Ends the process with the status that `main` returns. An exception of `main` becomes lines on standard error and
    NOT_DONE, so it never leads to status 1. SystemExit, which argparse raises, becomes USAGE or DONE. A failed write to
    standard output or standard error leads to NOT_DONE. After a signal in STOPPING that is not ignored at the start, the
    process cleans up, and then ends by that signal."""
    fill_standard_files()
    handled = [number for number in STOPPING if signal.getsignal(number) is not signal.SIG_IGN]  # SIGHUP stays ignored under `nohup`
    try:
        for number in handled:
            signal.signal(number, stop)
        status = finished(main)
        for number in handled:
            signal.signal(number, signal.SIG_DFL)
    except Stopped as stopped:
        signal.signal(stopped.number, signal.SIG_DFL)
        signal.raise_signal(stopped.number)
        status = Status.NOT_DONE  # reached only in the first process of a container, which ignores the signal
    sys.exit(status)


def finished(main: Callable[[], Status]) -> Status:
    """Runs a tool, prints the reasons if it failed, and returns its status."""
    try:
        status, lines = outcome(main)
        print_lines(lines)
    except (OSError, MemoryError):
        status = Status.NOT_DONE
    return status if are_flushed() else Status.NOT_DONE


def outcome(main: Callable[[], Status]) -> tuple[Status, tuple[str, ...]]:
    """Runs a tool. Returns its status, and the reasons if it failed, but not the exception, which keeps memory."""
    try:
        status = status_of(main)
        sys.stdout.flush()
        return status, ()
    except NotDone as fault:
        return Status.NOT_DONE, tuple(map(str, fault.args))
    except Exception as fault:  # input from untrusted sources can cause any exception
        return Status.NOT_DONE, (sentence(fault),)


def status_of(main: Callable[[], Status]) -> Status:
    try:
        return main()
    except SystemExit as end:  # argparse raises this
        return Status.USAGE if end.code else Status.DONE


def sentence(fault: Exception) -> str:
    if isinstance(fault, MemoryError):
        return "out of memory"
    if isinstance(fault, RecursionError):
        return "nested too deeply"
    if isinstance(fault, OSError) and fault.strerror:
        return f"{fault.filename}: {fault.strerror}" if fault.filename else fault.strerror
    if isinstance(fault, UnicodeEncodeError):
        return "a text has half a surrogate pair"
    if isinstance(fault, (OSError, ValueError)) and str(fault):
        return str(fault)
    return f"a defect of this tool, which you can report: {type(fault).__name__} {fault}"


def stop(number: int, _frame: Optional[FrameType]) -> NoReturn:
    for each in STOPPING:
        signal.signal(each, signal.SIG_IGN)  # so that no second signal interrupts the cleanup
    raise Stopped(number)


@contextlib.contextmanager
def signals_held() -> Iterator[None]:
    """Delays the signals in STOPPING until the `with` block ends."""
    before = signal.pthread_sigmask(signal.SIG_BLOCK, STOPPING)
    try:
        yield
    finally:
        signal.pthread_sigmask(signal.SIG_SETMASK, before)


def fill_standard_files() -> None:
    """Opens the null device in place of each closed standard stream: standard input for writing, the others for reading. Each
    use of a closed stream then fails. Otherwise the next opened file would get the file descriptor of a closed stream, and
    lines for that stream would be written to the file. Standard output and standard error are buffered, even if
    PYTHONUNBUFFERED is set: an unbuffered stream may take a part of the bytes and raise no exception."""
    for number, mode in enumerate((os.O_WRONLY, os.O_RDONLY, os.O_RDONLY)):
        try:
            os.fstat(number)
        except OSError:
            os.open(os.devnull, mode)  # gets the lowest free file descriptor, which is `number`
    sys.stdout = open(1, "w", closefd=False)
    sys.stderr = open(2, "w", closefd=False, errors="backslashreplace")


def are_flushed() -> bool:
    """Flushes both output streams, and returns whether they took all bytes. If one fails, the null device replaces it."""
    taken = True
    for file in (sys.stdout, sys.stderr):
        try:
            file.flush()
        except OSError:
            os.dup2(os.open(os.devnull, os.O_WRONLY), file.fileno())  # else Python flushes it again and exits with 120
            taken = False
    return taken


def print_lines(lines: Iterable[str]) -> None:
    """Prints lines on standard error, each after the name of the tool. Characters that are not printable are escaped; a tool
    prints nothing else there, except the usage and, on a terminal, the progress. Call this function before the output is
    written: if standard error fails, the tool then stops before it changes any file. Errors: OSError."""
    name = os.path.basename(sys.argv[0]).removesuffix(".py")
    for line in lines:
        print(printable(f"{name}: {line}"), file=sys.stderr)
    sys.stderr.flush()


def printable(text: str) -> str:
    """Returns a text in which characters that are not printable are JSON escapes. If there are any, backslashes are escaped as well."""
    return text if text.isprintable() else printable_json(text.replace("\\", "\\\\"))


def printable_json(text: str) -> str:
    """Returns a JSON text in which characters that are not printable are escapes."""
    return text if text.isprintable() else "".join(each if each.isprintable() else json.dumps(each)[1:-1] for each in text)


def shortened(text: str) -> str:
    """Returns a text, or its first MOST_CHARACTERS characters and two dots if it is longer."""
    return text if len(text) <= MOST_CHARACTERS else text[:MOST_CHARACTERS] + ".."


class Progress:
    """A line on standard error, shown only on a terminal. The line is erased when the `with` block ends."""

    def __init__(self) -> None:
        self.is_shown = sys.stderr.isatty()

    def show(self, text: str) -> None:
        self.write(f"{CLEAR}{printable(text)} ..")

    def clear(self) -> None:
        self.write(CLEAR)

    def write(self, text: str) -> None:
        if self.is_shown:
            print(text, end="", file=sys.stderr, flush=True)

    def __enter__(self) -> "Progress":
        return self

    def __exit__(self, *_: object) -> None:
        self.clear()
