"""Makes the man pages of the program, its commands and the tools, and the completions for bash, zsh and fish, from what they print
for --help: commands, options, arguments."""
import os
import re
import shlex
import sys
from typing import NamedTuple

from packing.files import File, run_tool

OPTION = re.compile(r"^  (?:(-\w), |    )(--[\w-]+)(?: <(\w+)>)?  +(.*)", re.MULTILINE)
VALUES = re.compile(r" \[possible values: ([^]]*)\]")
DEFAULT = re.compile(r" \[default: [^]]*\]")
PROGRAM = "xbrlmerge"
TOOLS = ("contradictions", "make_sheet", "normalise", "recheck", "respell")
HEAD = """\
.TH {title} 1 "" "xbrlmerge {version}" "User commands"
.SH NAME
{command} \\- {about}
.SH SYNOPSIS
.nf
{synopsis}
.fi
.SH DESCRIPTION
"""
TAIL = """\
.SH SEE ALSO
{others}
"""
# a block of entries in a help text, by its title
ENTRIES = re.compile(r"(?:Commands|Arguments|Options):\n")
# the sections for other blocks, by their first word
SECTIONS = {"Status": "EXIT STATUS", "Example": "EXAMPLES"}
# wide enough that argparse breaks no line
WIDE = "4000"
# a line of options of a tool: the names and arguments, and after two spaces the meaning
TOOL_OPTION = re.compile(r"  (\S(?:.*?\S)?)(?:  +(\S.*))?")
HELP = "-h, --help"
# the arguments that are not names of files, and have no list of values
NOT_FILES = ("BYTES", "N")
BASH = """\
# Completions of `xbrlmerge` for bash, made from its help.
# For all shells, copy this file to ~/.local/share/bash-completion/completions/

# _xbrlmerge_of WORD CHOICE ..: completes the word to the choices that begin with it
_xbrlmerge_of() {{
    local word=$1
    shift
    mapfile -t COMPREPLY < <(compgen -W "$*" -- "$word")
}}

# _xbrlmerge_file WORD: completes the word to the name of a file or a folder
_xbrlmerge_file() {{
    mapfile -t COMPREPLY < <(compgen -f -- "$1")
    # marks folders and quotes spaces; fails outside a completion, for example in a test
    compopt -o filenames 2>/dev/null
}}

_xbrlmerge() {{
    local word=${{COMP_WORDS[COMP_CWORD]}} before='' place command=${{COMP_WORDS[1]}} options
    COMPREPLY=()
    if [ "$COMP_CWORD" -le 1 ]; then
        _xbrlmerge_of "$word" {first}
        return
    fi
    case $command in
{options}
        help)
            _xbrlmerge_of "$word" {commands}
            return
            ;;
        *) return ;;
    esac
    # after `--` only names of files follow
    for ((place = 2; place < COMP_CWORD; place++)); do
        if [ "${{COMP_WORDS[place]}}" = -- ]; then
            _xbrlmerge_file "$word"
            return
        fi
    done
    before=${{COMP_WORDS[COMP_CWORD - 1]}}
    # bash splits --sheet=NAME into three words
    if [ "$word" = = ]; then
        word=''
    elif [ "$before" = = ]; then
        before=${{COMP_WORDS[COMP_CWORD - 2]}}
    fi
    case $command,$before in
{values}
        *)
            case $word in
                -*) _xbrlmerge_of "$word" "$options" ;;
                *) _xbrlmerge_file "$word" ;;
            esac
            ;;
    esac
}}

complete -F _xbrlmerge xbrlmerge
"""
ZSH = """\
#compdef xbrlmerge
# Completions of `xbrlmerge` for zsh, made from its help. They must be in a folder of $fpath before compinit runs.

_xbrlmerge() {{
    if ((CURRENT == 2)); then
        _alternative 'commands:command:({commands})' 'options:option:({first})'
        return
    fi
    local command=${{words[2]}}
    shift words
    ((CURRENT--))
    case $command in
{cases}
        help) _arguments '1:COMMAND:({commands})' ;;
    esac
}}

_xbrlmerge "$@"
"""
FISH = """\
# Completions of `xbrlmerge` for fish, made from its help. Copy this file to ~/.config/fish/completions/

complete -c xbrlmerge -n __fish_use_subcommand -f -a '{commands}'
complete -c xbrlmerge -n '__fish_seen_subcommand_from help' -f -a '{commands}'
"""


class Option(NamedTuple):
    """An option: its short name or an empty text, its long name, its argument or an empty text, its meaning, and its values."""

    short: str
    long: str
    argument: str
    meaning: str
    values: list[str]

    @property
    def names(self) -> list[str]:
        return [it for it in (self.short, self.long) if it]


class Command(NamedTuple):
    """A command of the program, or the program itself with an empty name: its help, and what the help lists."""

    name: str
    text: str
    options: list[Option]
    # the name of its last arguments in the help, or an empty text
    argument: str


def part(text: str, title: str) -> str:
    """Returns the indented lines below a title of a help text, or an empty text if the title is missing."""
    found = re.search(rf"^{title}:\n((?:  .*\n)+)", text, re.MULTILINE)
    return found.group(1) if found else ""


def command(name: str, text: str) -> Command:
    options = []
    for short, long, argument, meaning in OPTION.findall(part(text, "Options")):
        values = VALUES.search(meaning)
        meaning = DEFAULT.sub("", VALUES.sub("", meaning))
        options.append(Option(short, long, argument, meaning, values.group(1).split(", ") if values else []))
    argument = re.search(r"[<\[](\w+)[>\]]", part(text, "Arguments"))
    return Command(name, text, options, argument.group(1) if argument else "")


def commands_of(program: str) -> list[Command]:
    """Returns the program itself, and then its commands."""
    text = run_tool(program, "--help")
    names = re.findall(r"^  (\w+)", part(text, "Commands"), re.MULTILINE)
    # `help` takes no --help
    return [command("", text), *(command(it, run_tool(program, *(["help", it] if it == "help" else [it, "--help"]))) for it in names)]


def command_of(tool: str) -> str:
    """Returns the name of a tool's command after installation."""
    return f"{PROGRAM}-{tool.replace('_', '-')}"


def help_of(top: str, tool: str) -> str:
    """Returns what a tool prints for --help."""
    variables = {"COLUMNS": WIDE, "NO_COLOR": "1"}
    return run_tool(sys.executable, os.path.join(top, "tools", f"{tool}.py"), "--help", variables=variables)


def page(tool: str, text: str, version: str) -> str:
    """Returns the man page of a tool with a help text."""
    text = re.sub(r"\btools/(\w+)", lambda found: command_of(found[1]) if found[1] in TOOLS else found[0], text)
    _, about, synopsis, *paragraphs = text.rstrip("\n").split("\n\n")
    first = next(index for index, it in enumerate(paragraphs) if re.match(r"\w[^\n]*:\n  \S", it))
    description = paragraphs[:first]
    statuses = [it for it in description if it.startswith("Status 0")]
    command, own = command_of(tool), about[:1].lower() + about[1:].rstrip(".")
    pieces = [begin(command, own, synopsis, version)]
    pieces.append(".PP\n".join(paragraph(it) for it in description if it not in statuses))
    pieces += [section(it) for it in paragraphs[first:]]
    pieces += [f".SH EXIT STATUS\n{paragraph(it)}" for it in statuses]
    return "".join([*pieces, TAIL.format(others=".BR xbrlmerge (1)")])


def command_page(command: Command, version: str, others: list[str]) -> str:
    """Returns the man page of a command of the program, or of the program. `others` are the names of the pages to see also."""
    about, synopsis, *blocks = command.text.rstrip("\n").split("\n\n")
    listed = [re.sub(r"^ {6}(?=-)", "  ", it, flags=re.MULTILINE) for it in blocks if ENTRIES.match(it)]
    own = [it for it in blocks if it.startswith(tuple(SECTIONS))]
    name = f"xbrlmerge-{command.name}" if command.name else "xbrlmerge"
    pieces = [begin(name, about[:1].lower() + about[1:], synopsis.replace("Usage: ", ""), version)]
    pieces.append(".PP\n".join(paragraph(it) for it in blocks if not ENTRIES.match(it) and it not in own))
    pieces += [section(it) for it in listed]
    for start, title in SECTIONS.items():
        pieces += [f".SH {title}\n" + paragraph(it.replace(f"{start}:\n", "", 1)) for it in own if it.startswith(start)]
    return "".join([*pieces, TAIL.format(others=",\n".join(f".BR {escaped(it)} (1)" for it in others if it != name))])


def pages(top: str, commands: list[Command], version: str) -> list[File]:
    """Returns the man pages of the program, its commands and the tools."""
    of_tools = {command_of(tool): page(tool, help_of(top, tool), version) for tool in TOOLS}
    own = [it for it in commands if it.options]
    names = [f"xbrlmerge-{it.name}" if it.name else "xbrlmerge" for it in own]
    made = {name: command_page(it, version, [*names, *of_tools] if not it.name else ["xbrlmerge"]) for name, it in zip(names, own)}
    return [File(f"share/man/man1/{name}.1", text.encode()) for name, text in (made | of_tools).items()]


def begin(command: str, about: str, synopsis: str, version: str) -> str:
    lines = "\n".join(line.strip() for line in synopsis.splitlines())
    return HEAD.format(title=command.upper(), version=version, command=escaped(command), about=escaped(about), synopsis=escaped(lines))


def escaped(text: str) -> str:
    """Returns a text as troff reads it. A line must not begin with a dot or an apostrophe."""
    text = text.replace("\\", "\\e").replace("-", "\\-")
    return re.sub(r"^(?=[.'])", r"\\&", text, flags=re.MULTILINE)


def paragraph(text: str) -> str:
    """Returns a paragraph. Indented lines keep their breaks."""
    lines, is_kept = [], False
    indent = min((len(it) for it in re.findall(r"^  +", text, re.MULTILINE)), default=0)
    for line in text.splitlines():
        if line.startswith("  ") != is_kept:
            is_kept = not is_kept
            lines.append(".RS\n.nf" if is_kept else ".fi\n.RE")
        lines.append(escaped(line[indent:] if is_kept else line))
    return "\n".join([*lines, *[".fi\n.RE"] * is_kept, ""])


def section(text: str) -> str:
    """Returns the section for a group of options or arguments. Python 3.9 has another title for the options."""
    title, *lines = text.splitlines()
    title = title.rstrip(":").replace("optional arguments", "options").replace("positional arguments", "arguments")
    entries: list[tuple[str, str]] = []
    for line in lines:
        found = TOOL_OPTION.fullmatch(line)
        if line.startswith("    ") or not found:
            entries[-1] = entries[-1][0], f"{entries[-1][1]} {line.strip()}".strip()
        else:
            entries.append((found[1], found[2] or ""))
    listed = [f".TP\n.B {escaped(head(names))}\n{escaped(meaning) or '.br'}\n" for names, meaning in entries if names != HELP]
    return f".SH {title.upper()}\n{''.join(listed)}"


def head(names: str) -> str:
    """Returns the names of an option as newer versions of Python spell them: `-o, --output DIR`, not `-o DIR, --output DIR`."""
    return re.sub(r"^(-\w) ([^,]+), (--[\w-]+) \2$", r"\1, \3 \2", names)


def completions(commands: list[Command]) -> list[File]:
    """Returns the files with the completions. The first command is the program itself."""
    top, *others = commands
    names = " ".join(it.name for it in others)
    listed = [it for it in others if it.options]
    files = {"share/bash-completion/completions/xbrlmerge": bash(top, listed, names),
             "share/zsh/site-functions/_xbrlmerge": zsh(top, listed, names),
             "share/fish/vendor_completions.d/xbrlmerge.fish": fish(top, listed, names)}
    return [File(path, text.encode()) for path, text in files.items()]


def names_of(options: list[Option]) -> str:
    return " ".join(name for it in options for name in it.names)


def bash(top: Command, listed: list[Command], names: str) -> str:
    options = [f"        {it.name}) options='{names_of(it.options)}' ;;" for it in listed]
    values = [f"        {' | '.join(f'{it.name},{name}' for name in option.names)}) {bash_value(option)};;"
              for it in listed for option in it.options if option.argument]
    return BASH.format(first=f"{names} {names_of(top.options)}", commands=names, options="\n".join(options), values="\n".join(values))


def bash_value(option: Option) -> str:
    if option.values:
        return f"_xbrlmerge_of \"$word\" {' '.join(option.values)} "
    return "" if option.argument in NOT_FILES else '_xbrlmerge_file "$word" '


def zsh(top: Command, listed: list[Command], names: str) -> str:
    cases = []
    for it in listed:
        words = [zsh_option(option) for option in it.options] + [shlex.quote(f"*:{it.argument}:_files")]
        cases.append(f"        {it.name})\n            _arguments " + " \\\n                ".join(words) + "\n            ;;")
    return ZSH.format(commands=names, first=names_of(top.options), cases="\n".join(cases))


def zsh_option(option: Option) -> str:
    meaning = option.meaning.replace("[", "(").replace("]", ")")
    values = f"({' '.join(option.values)})" if option.values else " " if option.argument in NOT_FILES else "_files"
    rest = shlex.quote(f"[{meaning}]" + (f":{option.argument}:{values}" if option.argument else ""))
    return f"'({' '.join(option.names)})'{{{','.join(option.names)}}}{rest}" if option.short else option.long + rest


def fish(top: Command, listed: list[Command], names: str) -> str:
    lines = [fish_option("__fish_use_subcommand", option) for option in top.options]
    lines += [fish_option(f"'__fish_seen_subcommand_from {it.name}'", option) for it in listed for option in it.options]
    return FISH.format(commands=names) + "\n".join(lines) + "\n"


def fish_option(condition: str, option: Option) -> str:
    short = f" -s {option.short[1:]}" if option.short else ""
    values = f" -x -a '{' '.join(option.values)}'" if option.values else " -x" if option.argument in NOT_FILES else " -r -F"
    return f"complete -c xbrlmerge -n {condition}{short} -l {option.long[2:]}{values if option.argument else ''} -d {shlex.quote(option.meaning)}"
