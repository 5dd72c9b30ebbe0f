"""Lets SIGINT end a tool that is still importing its modules. Python itself would show a traceback, with status 1. Import this
module first. The launchers ignore SIGINT until then, and set HELD unless it was already ignored."""
import os
import signal

HELD = "XBRLMERGE_INTERRUPTS"

if os.environ.pop(HELD, "") or signal.getsignal(signal.SIGINT) is signal.default_int_handler:
    signal.signal(signal.SIGINT, signal.SIG_DFL)
