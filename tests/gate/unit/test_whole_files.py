"""Tests of tools/whole_files: outputs are written completely or not at all."""
import os
import shutil
import signal
import stat
import subprocess
import sys
import unittest
from unittest import mock

from in_process import TOOLS, RoomTest, heeding
import process
import whole_files
from support import content

WAITS = f"""
import sys, time
sys.dont_write_bytecode = True
sys.path.insert(0, {TOOLS!r})
from process import Status, run
from whole_files import files_written
def pieces():
    yield "first"
    print("ready", flush=True)
    while True:
        time.sleep(0.01)
def write():
    with files_written([(sys.argv[1], ["x"]), (sys.argv[2], pieces())]):
        return Status.DONE
run(write)
"""


def write_files(texts, most=sys.maxsize):
    with whole_files.files_written(texts, whole_files.OutputLimit(most)):
        pass


class WholeFiles(RoomTest):
    def setUp(self):
        super().setUp()
        self.first, self.second = map(self.path_of, ("first", "second"))

    def texts(self):
        """Returns the text of each file in the folder."""
        return {name: content(self.path_of(name)) for name in os.listdir(self.scratch)}

    def put(self, path, mode=0o644):
        os.chmod(self.write(path, "old"), mode)

    def test_files_are_made_and_replaced(self):
        self.put(self.first)
        longest = "ö" * 127 + "x"
        write_files([(self.first, ["n", "ew"]), (self.path_of(longest), ["new"])])
        self.assertEqual(self.texts(), {"first": "new", longest: "new"})

    def test_the_mode_is_kept_without_setuid_and_setgid(self):
        before = os.umask(0o022)
        self.addCleanup(os.umask, before)
        for mode, kept in ((0o640, 0o640), (0o4755, 0o755), (0o2755, 0o755), (0o666, 0o666)):
            self.put(self.first, mode=mode)
            write_files([(self.first, ["new"])])
            self.assertEqual(stat.S_IMODE(os.stat(self.first).st_mode), kept)
        write_files([(self.second, ["new"])])
        self.assertEqual(stat.S_IMODE(os.stat(self.second).st_mode), 0o644)

    def test_no_other_user_can_open_a_new_file_before_it_has_its_mode(self):
        def pieces():
            yield "new"
            (folder,) = (name for name in os.listdir(self.scratch) if name.startswith(".new-"))
            seen.append(stat.S_IMODE(os.stat(self.path_of(folder)).st_mode))

        seen = []
        self.put(self.first, mode=0o600)
        write_files([(self.first, pieces())])
        self.assertEqual((seen, stat.S_IMODE(os.stat(self.first).st_mode)), ([0o700], 0o600))

    @unittest.skipIf(os.geteuid(), "only root may give a file to another user")
    def test_owner_and_group_are_kept(self):
        self.put(self.first, mode=0o4755)
        os.chown(self.first, 65534, 65533)
        write_files([(self.first, ["new"])])
        file = os.stat(self.first)
        self.assertEqual((file.st_uid, file.st_gid, stat.S_IMODE(file.st_mode)), (65534, 65533, 0o755))

    def test_none_is_replaced_where_one_cannot_be(self):
        really, third = os.replace, self.path_of("third")

        def replace(old, new):
            if new == third and old.endswith("new"):
                raise PermissionError(1, "no")
            really(old, new)

        self.put(self.first)
        for has_links in (True, False):
            refused = mock.patch("os.link", side_effect=None if has_links else OSError, wraps=os.link)
            with refused, mock.patch("os.replace", replace), self.assertRaises(PermissionError):
                write_files([(path, ["new"]) for path in (self.first, self.second, third)])
            self.assertEqual(self.texts(), {"first": "old"})

    def test_a_fault_leaves_every_place_as_it_was(self):
        def pieces():
            yield "new"
            raise ValueError

        self.put(self.first)
        for fault, path, texts in ((ValueError, self.second, pieces()), (UnicodeEncodeError, self.second, ["\ud800"]),
                                   (OSError, self.scratch, ["new"]), (OSError, os.path.join(self.scratch, ".", "first"), ["newer"])):
            self.assertRaises(fault, write_files, [(self.first, ["new"]), (path, texts)])
        self.assertEqual(self.texts(), {"first": "old"})
        # files of other runs stay
        others = [self.first + f".{os.getpid()}.new", self.path_of(".new-other")]
        for other in others:
            self.put(other)
        write_files([(self.first, ["new"])])
        self.assertEqual(self.texts(), {"first": "new", **dict.fromkeys(map(os.path.basename, others), "old")})

    def test_no_link_is_followed(self):
        self.put(self.first)
        for target in (self.first, self.path_of("nowhere"), "first", self.scratch):
            os.symlink(target, self.second)
            with self.assertRaisesRegex(OSError, "second exists and is not a file that can be replaced"):
                write_files([(self.path_of("third"), ["new"]), (self.second, ["new"])])
            self.assertEqual((os.readlink(self.second), sorted(os.listdir(self.scratch))), (target, ["first", "second"]))
            os.unlink(self.second)
        self.assertEqual(self.texts(), {"first": "old"})
        os.mkdir(self.path_of("real"))
        os.symlink("real", self.path_of("linked"))  # the user names this folder
        write_files([(self.path_of("linked/file"), ["new"])])
        self.assertEqual(os.listdir(self.path_of("real")), ["file"])

    def test_paths_stay_below_their_folder(self):
        os.symlink("/etc", self.path_of("linked"))
        os.mkdir(self.path_of("a"))
        self.assertEqual(whole_files.below(self.scratch, "a/b"), self.path_of("a/b"))
        for path in ("", "/abs", "../a", "a/../../b", "a/..", "..", ".", "a/", "./a", "a//b", "linked/passwd"):
            with self.assertRaises(OSError, msg=path):
                whole_files.below(self.scratch, path)

    def test_the_output_of_all_files_is_limited(self):
        def texts():
            self.put(self.first)
            return [(self.first, ["é", "ew"]), (self.second, iter("new"))]

        write_files(texts(), 7)
        self.assertRaisesRegex(process.NotDone, "more than 6 bytes; --most-output BYTES sets the bound", write_files, texts(), 6)
        self.assertEqual(self.texts(), {"first": "old", "second": "new"})
        self.assertEqual(whole_files.bytes_in([self.first, self.scratch, self.path_of("nowhere")]), 9)

    def test_leftovers_of_killed_runs_are_removed(self):
        for name in (".new-abcd_123", ".new-other", ".new-ABCD1234", "new-abcd1234"):
            os.mkdir(self.path_of(name))
        self.put(self.path_of(".new-abcd_123/new"))
        self.put(self.path_of(".new-12345678"))
        os.symlink(self.path_of(".new-other"), self.path_of(".new-linked12"))
        whole_files.remove_leftovers(self.scratch)
        self.assertEqual(sorted(os.listdir(self.scratch)), [".new-12345678", ".new-ABCD1234", ".new-linked12", ".new-other", "new-abcd1234"])

    def test_a_signal_leaves_nothing_behind(self):
        self.put(self.first)
        for number in (signal.SIGHUP, signal.SIGTERM):
            words = [sys.executable, "-c", WAITS, self.first, self.second]
            with subprocess.Popen(words, stdout=subprocess.PIPE, stderr=subprocess.PIPE, preexec_fn=heeding(number)) as tool:
                self.assertEqual(tool.stdout.readline(), b"ready\n")
                tool.send_signal(number)
                self.assertEqual(tool.communicate(), (b"", b""))
            self.assertEqual(tool.returncode, -number)
            self.assertEqual(self.texts(), {"first": "old"})
        # and so does one while a folder is removed
        removed = shutil.rmtree

        def stopped_at_first(path, **options):
            if not options:
                raise process.Stopped(signal.SIGTERM)
            removed(path, **options)

        with mock.patch("shutil.rmtree", stopped_at_first), self.assertRaises(process.Stopped):
            write_files([(self.first, ["new"])])
        self.assertEqual(self.texts(), {"first": "new"})
