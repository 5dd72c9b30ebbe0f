"""The installed tools of xbrlmerge. Beside this file are the files of the repository's tools/."""
import signal

if signal.getsignal(signal.SIGINT) is signal.default_int_handler:
    signal.signal(signal.SIGINT, signal.SIG_DFL)  # else a SIGINT while modules are imported shows a traceback
import os  # noqa: E402
import runpy  # noqa: E402
import sys  # noqa: E402

HERE = os.path.dirname(os.path.abspath(__file__))


def _run(tool: str) -> None:
    """Runs a tool as a script that finds its modules in this folder. The name of its command stays in `sys.argv`."""
    sys.path.insert(0, HERE)
    runpy.run_module(tool, run_name="__main__")


def contradictions() -> None:
    _run("contradictions")


def make_sheet() -> None:
    _run("make_sheet")


def normalise() -> None:
    _run("normalise")


def recheck() -> None:
    _run("recheck")


def respell() -> None:
    _run("respell")
