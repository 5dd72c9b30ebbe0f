"""Tests of tools/process (statuses, lines on standard error, full or closed devices, signals), and of the arguments of three tools:
files with odd names, and messages about them."""
import io
import json
import os
import resource
import shutil
import signal
import subprocess
import sys
import textwrap
import time
import zipfile

import in_process
import contradictions
import make_sheet
import normalise
from in_process import TOOLS, TOP, RoomTest, heeding
from support import content
from test_contradictions import example
from test_contradictions_run import REPORTS, SHEET, Stubbed
from test_make_sheet import ITEM, SCHEMA

PIPES = {"stdout": subprocess.PIPE, "stderr": subprocess.PIPE}
HEAD = f"""
import argparse, lzma, sys, time
sys.dont_write_bytecode = True
sys.path.insert(0, {TOOLS!r})
from process import NotDone, Status, print_lines, run
def main():
"""


class ProcessTest(RoomTest):
    def shell(self, body, redirected="", **options):
        """Runs a tool whose `main` has this body, from a shell with the redirections `redirected`."""
        path = self.write("tool", HEAD + textwrap.indent(body, "    ") + "\nrun(main)\n")
        command = f"exec {sys.executable} {path} {redirected}"
        return subprocess.run(["bash", "-c", command], capture_output=True, **options)

    def check(self, status, errors, body, redirected=""):
        done = self.shell(body, redirected)
        self.assertEqual((done.returncode, done.stderr.decode()), (status, errors), body)
        return done.stdout


class Statuses(ProcessTest):
    def test_a_status_is_the_one_that_is_returned_and_no_exception_ends_in_1(self):
        for status in range(4):
            self.check(status, "", f"return Status({status})")
        raised = {
            "NotDone('a', 'b')": "tool: a\ntool: b\n",
            "KeyError('k')": "tool: a defect of this tool, which you can report: KeyError 'k'\n",
            "RecursionError()": "tool: nested too deeply\n",
            "MemoryError()": "tool: out of memory\n",
            "lzma.LZMAError('bad')": "tool: a defect of this tool, which you can report: LZMAError bad\n",
            "OSError('bad')": "tool: bad\n",
            "OSError()": "tool: a defect of this tool, which you can report: OSError \n",
            "OSError(5, 'bad')": "tool: bad\n",
            "OSError(5, 'bad', 'a file')": "tool: a file: bad\n",
        }
        for exception, errors in raised.items():
            self.check(3, errors, f"raise {exception}")

    def test_usage_and_help(self):
        parse = "argparse.ArgumentParser(prog='tool').parse_args({})"
        self.assertEqual(self.shell(parse.format("['x']")).returncode, 2)
        self.assertIn(b"usage: tool", self.check(0, "", parse.format("['--help']")))
        self.check(3, "tool: No space left on device\n", parse.format("['--help']"), ">/dev/full")
        self.assertEqual(self.shell(parse.format("['x']"), "2>/dev/full").returncode, 3)

    def test_a_line_cannot_control_a_terminal(self):
        self.check(3, r"tool: \n\u001b\u009b\u007f\udcff\udb40\udc01" + "\n",
                   r"raise NotDone('\n\x1b\x9b\x7f\udcff\U000e0001')")
        self.check(3, r"tool: l\\n\n" + "\n" + r"tool: l\n" + "\n", r"raise NotDone('l\\n\n', 'l\\n')")


class Devices(ProcessTest):
    def test_standard_error_full_or_closed(self):
        for redirected in ("2>/dev/full", "2>&-"):
            self.check(3, "", "print_lines(['left out']); sys.stdout.buffer.write(b'x'); return Status.LOOK", redirected)
            self.check(3, "", "raise KeyError", redirected)
            self.check(0, "", "return Status.DONE", redirected)

    def test_a_line_does_not_land_in_a_file_that_is_opened(self):
        path = self.path_of("opened")
        body = f"file = open({path!r}, 'w'); print_lines(['left out']); return Status.DONE"
        self.assertEqual(self.check(3, "", body, "2>&-"), b"")
        self.assertEqual(content(path), "")

    def test_standard_output_full_or_closed(self):
        body = "sys.stdout.buffer.write(b'x'); return Status.DONE"
        self.check(3, "tool: No space left on device\n", body, ">/dev/full")
        self.check(3, "tool: Bad file descriptor\n", body, ">&-")
        self.check(3, "tool: Bad file descriptor\n", "print('x'); return Status.DONE", ">&-")

    def test_a_device_that_takes_a_part_is_full(self):
        limit = lambda: resource.setrlimit(resource.RLIMIT_FSIZE, (65_536, 65_536))  # noqa: E731
        for unbuffered in ("", "1"):
            path = self.path_of("part")
            done = self.shell("sys.stdout.buffer.write(b'x' * 100_000); return Status.DONE", f">{path}",
                              env={**os.environ, "PYTHONUNBUFFERED": unbuffered}, preexec_fn=limit)
            self.assertEqual((done.returncode, done.stderr), (3, b"tool: File too large\n"))
            self.assertEqual(os.path.getsize(path), 65_536)


class Signals(ProcessTest):
    def test_a_signal_cleans_up_and_ends_the_tool(self):
        path = self.write("tool", HEAD + "    try:\n        print('ready', flush=True)\n        while True:\n            time.sleep(0.01)\n"
                          "    finally:\n        print('clean', flush=True)\nrun(main)\n")
        for number in (signal.SIGHUP, signal.SIGINT, signal.SIGTERM):
            with subprocess.Popen([sys.executable, path], **PIPES, preexec_fn=heeding(number)) as tool:
                self.assertEqual(tool.stdout.readline(), b"ready\n")
                tool.send_signal(number)
                self.assertEqual(tool.communicate(), (b"clean\n", b""))
            self.assertEqual(tool.returncode, -number)

    def test_an_early_interrupt_shows_no_traceback(self):
        for number, tool in enumerate(["contradictions", "make_sheet", "normalise", "recheck", "respell"] * 8):
            words = [os.path.join(TOP, "tools", tool), *["nowhere"] * (tool != "recheck")]
            with subprocess.Popen(words, **PIPES, cwd=self.scratch, preexec_fn=heeding(signal.SIGINT)) as run:
                time.sleep(number / 100)
                run.send_signal(signal.SIGINT)
                out, errors = run.communicate()
            self.assertIn((run.returncode, b"Traceback" in errors), ((-2, False), (2, False), (3, False)), (out, errors))

    def test_a_signal_that_is_ignored_at_the_start_stays_ignored(self):
        launched = self.write("tool", content("tools/make_sheet"))
        self.write("tool.py", f"#!{sys.executable}\nimport sys\nsys.dont_write_bytecode = True\nsys.path.append({TOOLS!r})\nimport interrupts\n"
                              "import os, signal\nprint(signal.getsignal(signal.SIGINT) is signal.SIG_IGN, interrupts.HELD in os.environ)\n")
        for path in (launched, launched + ".py"):
            os.chmod(path, 0o755)
        for handler, wanted in ((signal.SIG_IGN, b"True False\n"), (signal.SIG_DFL, b"False False\n")):
            for path in (launched, launched + ".py"):
                done = subprocess.run([path], stdout=subprocess.PIPE, preexec_fn=lambda handler=handler: signal.signal(signal.SIGINT, handler))
                self.assertEqual(done.stdout, wanted)
        body = "import os, signal; os.kill(os.getpid(), signal.SIGHUP); return Status.DONE"
        done = self.shell(body, preexec_fn=lambda: signal.signal(signal.SIGHUP, signal.SIG_IGN))
        self.assertEqual(done.returncode, 0)


ESCAPE = "\x1b]0;x\n\u202e"


class OddNames(Stubbed):
    """Runs the tools in a folder whose files have the names of options."""

    def setUp(self):
        super().setUp()
        before = os.getcwd()
        os.chdir(self.scratch)
        self.addCleanup(os.chdir, before)

    def put(self, *names):
        """Writes reports with different bytes, by which the log of the stub program names them."""
        for number, name in enumerate(names, 1):
            self.write(name, content(REPORTS[0]) + " " * number)

    def test_each_argument_after_two_dashes_is_a_report(self):
        names = ["--sheet=z.json", "--output=x.json", "--near=n.json", "-o", "-", "--", "A=B.json"]
        self.put(*names, "B.json")
        before = {*os.listdir(".")}
        words = ["--program", self.program, "--sheet", os.path.abspath(SHEET), "-o", "out", "--", *names]
        status, errors = in_process.run(contradictions, *words)
        self.assertEqual((status, self.other_lines(errors)), (1, []))
        self.assertEqual(self.log()[0][1], [os.path.realpath(name) for name in names])
        self.assertEqual({*os.listdir(".")} - before, {"out"})
        self.assertEqual(content(self.path_of("bin/sheet")), content(SHEET))

    def test_the_other_tools_read_such_files_too(self):
        self.put("--drop-notes")
        status, errors = in_process.run(normalise, "--", "--drop-notes", "--sheet=out", "-")
        self.assertEqual((status, errors, os.path.exists("--sheet=out"), os.path.exists("-")), (0, "", True, True))
        self.write("--union", SCHEMA % ITEM % ("A", "string"))
        status, errors, out = in_process.run_whole(make_sheet, "--", "--union")
        self.assertEqual((status, errors, [*json.loads(out)["concepts"]]), (0, "", ["this:A"]))

    def test_a_merged_report_of_a_provider_after_two_dashes(self):
        merged = shutil.copy(example("merged.json"), "--names=a")
        inputs = map(os.path.abspath, (merged, SHEET, example("verdicts.txt")))
        self.assertEqual(in_process.run(contradictions, "-o", "out", "--from", *inputs, "--", "--names=a"), (1, ""))
        self.assertEqual({cell["providers"] for cell in self.cells("contradictions.csv")}, {"'--names=a"})


class StandardStreams(Stubbed):
    """Runs with - for standard input or standard output."""

    REPORT = b'{"documentInfo":{"documentType":"https://xbrl.org/2021/xbrl-json"},"facts":{"a":{"value":1,"dimensions":{}}}}'
    NORMAL = REPORT.replace(b"1,", b'"1",') + b"\n"
    CHANGE = b'{"fact":"a","pointer":"/facts/a/value","was":1,"now":"1","rule":"value-text","loss":false}\n'

    def run_piped(self, name, *words, given=b"", **options):
        tool, pipes = os.path.join(in_process.TOOLS, f"{name}.py"), {"stdout": subprocess.PIPE, "stderr": subprocess.PIPE, **options}
        done = subprocess.run([sys.executable, tool, *words], input=given, cwd=self.scratch, **pipes)
        return done.returncode, done.stderr, done.stdout

    def test_normalise_reads_and_writes_standard_streams(self):
        self.write("report.json", self.REPORT)
        self.assertEqual(self.run_piped("normalise", "-", "-", "changes", given=self.REPORT), (0, b"", self.NORMAL))
        self.assertEqual(content(self.path_of("changes")).encode(), self.CHANGE)
        self.assertEqual(self.run_piped("normalise", "report.json", "out", "-"), (0, b"", self.CHANGE))
        self.assertEqual(content(self.path_of("out")).encode(), self.NORMAL)
        line = b"normalise: standard input: the file cannot be read as JSON: it is not UTF-8; the file looks like a gzip file: unpack it first\n"
        self.assertEqual(self.run_piped("normalise", "-", "-", "changes", given=b"\x1f\x8b"), (3, line, b""))
        self.assertFalse(os.path.exists(self.path_of("-")))

    def test_a_full_device_changes_no_file(self):
        self.write("report.json", self.REPORT)
        for out, changes in (("-", "made"), ("made", "-")):
            with open("/dev/full", "wb") as full:
                done = self.run_piped("normalise", "report.json", out, changes, stdout=full)
            self.assertEqual(done, (3, b"normalise: No space left on device\n", None))
            self.assertFalse(os.path.exists(self.path_of("made")))

    def test_make_sheet_reads_standard_input(self):
        schema = (SCHEMA % ITEM % ("A", "string")).encode()
        sheet = json.dumps({"namespaces": {"p": "u"}, "concepts": {"p:B": "text"}}).encode()
        packed = io.BytesIO()
        with zipfile.ZipFile(packed, "w") as package:
            package.writestr("a.xsd", schema)
        for words, given, concept in ((["-"], schema, "this:A"), (["-"], packed.getvalue(), "this:A"), (["--union", "-"], sheet, "p:B")):
            status, errors, out = self.run_piped("make_sheet", *words, given=given)
            self.assertEqual((status, errors, [*json.loads(out)["concepts"]]), (0, b"", [concept]))
        line = b"make_sheet: standard input: it is not a schema: name the package, the folder or a schema of the taxonomy\n"
        self.assertEqual(self.run_piped("make_sheet", "-", given=b"<a/>"), (3, line, b""))

    def test_streams_that_are_none(self):
        sheet = ["--sheet", SHEET, "-o"]
        for tool, *words in ((normalise, "a", "-", "-"), (normalise, "-", "b", "c", "--sheet", "-"), (contradictions, *sheet, "-", REPORTS[0]),
                             (contradictions, *sheet, self.output, "--near", "-", REPORTS[0]),
                             (normalise, "a", "b", "c", "--sheet", "-", "--drop-unreadable")):
            self.assertEqual(in_process.run(tool, *words)[0], 2, words)


class Messages(Stubbed):
    def test_no_message_has_a_name_with_control_characters(self):
        odd = [self.write(f"{folder}a{ESCAPE}.json", "{}") for folder in ("", "other/")]
        sheet = ["--sheet", SHEET, "-o", self.output]
        for tool, words in (
            (contradictions, [*sheet, *odd]),
            (contradictions, [*sheet, f"={ESCAPE}"]),
            (contradictions, [*sheet, f"--{ESCAPE}"]),
            (contradictions, [*sheet, REPORTS[0], f"--d{ESCAPE}=1"]),
            (contradictions, [*sheet, REPORTS[0], "--dates", ESCAPE]),
            (normalise, ["a", f"--{ESCAPE}"]),
            (make_sheet, ["a", f"--{ESCAPE}"]),
            (make_sheet, ["a", "--megabytes", ESCAPE]),
        ):
            status, errors = in_process.run(tool, *words)
            self.assertEqual(status, 2, errors)
            self.assertTrue(errors.replace("\n", "").isprintable(), errors)
            self.assertEqual([line for line in errors.splitlines() if "error: " in line], errors.splitlines()[-1:])
