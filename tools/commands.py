"""The version of the tools, and the names of their commands: tools/NAME in the repository, and xbrlmerge-NAME once installed."""
import os
import re

VERSION = "0.3.0-dev"  # of xbrlmerge
HERE = os.path.dirname(os.path.abspath(__file__))
INSTALLED = "xbrlmerge_tools"  # the name of the folder with the installed tools
PREFIX = "xbrlmerge-"


def command(tool: str) -> str:
    """Returns the command that runs a tool, such as make_sheet."""
    return PREFIX + tool.replace("_", "-") if os.path.basename(HERE) == INSTALLED else f"tools/{tool}"


def with_commands(text: str) -> str:
    """Returns a text in which the names of the tools, spelled as in tools/make_sheet, are their commands."""
    return re.sub(r"\btools/(\w+)", lambda found: command(found[1]), text)
