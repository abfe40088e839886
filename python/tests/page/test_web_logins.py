"""Tests of who is let in to the page, and as whom."""

from __future__ import annotations

import errno
import json
import os
import signal
import stat
import subprocess
import sys
import threading
import time
import unittest
from pathlib import Path
from unittest import mock

from support import FOLDER, PROGRAM, TestCase
from web_support import Serving, WebCase, link_of

from sfstore.web import logins
from sfstore.web.editors import Editors
from sfstore.web.logins import LoginRefused, Logins

# A browser that puts down what stands in its command line, and what it was given to open.
BROWSER = """\
#!{python}
import json, os, sys, time, urllib.parse, urllib.request
path = urllib.request.url2pathname(urllib.parse.urlsplit(sys.argv[1]).path)
words = open("/proc/self/cmdline").read()
try:
    told = [words, path, open(path).read(), *(os.stat(name).st_mode for name in (path, os.path.dirname(path)))]
except OSError:
    told = [words, path, "no file", 0, 0]
with open({told!r} + ".part", "w") as file:
    json.dump(told, file)
os.rename({told!r} + ".part", {told!r})
"""


class Links(WebCase):
    """Links, what they are good for, and how long."""

    def refused(self, serving, address, name):
        status, answer = serving.posted("/login", "none", link=link_of(address), name=name)
        self.assertEqual(status, 403)
        return answer["error"]

    def test_a_link_is_good_once(self):
        serving = self.serve()
        for address in (serving.owners_address, serving.address(), serving.address("Ann")):
            name = f"person {address[-5:]}" if "Ann" not in address else "Ann"
            person = serving.come_in(address, name)
            self.assertNotIn(person.key, address)
            self.assertIn("not good any more", self.refused(serving, address, "Mallory"))
        for link in ("", "x", serving.key):
            status, answer = serving.posted("/login", "none", link=link, name="Mallory")
            self.assertEqual(status, 403)

    def test_of_many_who_come_at_once_one_is_let_in(self):
        serving = self.serve()
        address = serving.address()
        found = []

        def come(name):
            found.append(serving.posted("/login", "none", link=link_of(address), name=name)[0])

        coming = [threading.Thread(target=come, args=[f"person {k}"]) for k in range(8)]
        for thread in coming:
            thread.start()
        for thread in coming:
            thread.join()
        self.assertEqual(sorted(found), [200] + [403] * 7)

    def test_a_link_ends_with_its_time(self):
        kept = Logins(Editors(str(self.path)))
        now = time.monotonic()
        link = kept.new_link("Ann")
        with mock.patch("time.monotonic", lambda: now + logins.LINK_SECONDS + 1):
            with self.assertRaises(LoginRefused):
                kept.log_in(link, "")
            kept.new_link()
        with self.assertRaises(LoginRefused):
            kept.log_in(link, "")

    def test_whose_name_a_link_gives(self):
        serving = self.serve()
        owner = serving.come_in(serving.owners_address, "Ann")
        self.assertEqual(owner.editor, 1)
        guests = serving.address()
        self.assertIn("type `link Ann`", self.refused(serving, guests, " Ann "))
        self.assertEqual(serving.come_in(guests, "Ben").editor, 2)
        # One for a name gives that name, whatever is asked for.
        person = serving.come_in(serving.address("Ann"), "Ben")
        self.assertEqual((person.editor, person.login["name"]), (1, "Ann"))
        self.assertNotEqual(person.key, owner.key)

    def test_the_owner_is_again_who_they_were(self):
        serving = self.serve()
        ann = serving.come_in(serving.owners_address, "Ann")
        ann.line("layer add w point")
        serving.end(signal.SIGKILL)
        serving = self.serve("--link", "Ben", "--link", "Ito")
        self.assertEqual(serving.said.count("#link="), 3)
        self.assertIn("For Ito: http://127.0.0.1:", serving.said)
        self.assertEqual(serving.come_in(serving.owners_address, "Ann").answer("undo"), "ok")

    def test_a_key_is_good_as_long_as_the_server_runs(self):
        serving = self.serve()
        ann = serving.log_in("Ann")
        serving.end()
        serving = self.serve(f"--port={serving.port}")
        self.assertEqual(serving.posted("/me", ann.key)[0], 403)

    def test_who_speaks_is_who_has_logged_in(self):
        serving = self.serve()
        ann, ben = serving.log_in("Ann"), serving.log_in("Ben")
        ann.line("layer add w point")
        ben.line("add w POINT (1 1)")
        status, answer = serving.posted("/line", ann.key, editor=ben.editor, page="page", line="undo")
        self.assertEqual((status, answer["refused"]["name"]), (200, "NotYours"))
        self.assertEqual(serving.call("/me", ann.key, editor=ben.editor), {"editor": 1, "name": "Ann"})

    def test_what_is_typed_at_the_terminal(self):
        serving = self.serve()
        serving.type("what?")
        self.assertIn("`link NAME`", serving.read_line())
        serving.type("")
        serving.type("  link   Ben Ito ")
        line = serving.read_line()
        self.assertTrue(line.startswith("For Ben Ito: http://127.0.0.1:"), line)
        self.assertIn("&name=Ben+Ito", line)
        # The end of what is typed ends nothing else.
        serving.process.stdin.close()
        serving.process.stdin = None
        serving.come_in(line.split()[-1], "Ben Ito")
        self.assertEqual((serving.end(), serving.errors), (0, ""))


class Names(WebCase):
    """The file of the names."""

    def names(self):
        try:
            return json.loads(Path(f"{self.path}.editors").read_text())
        except FileNotFoundError:
            return None

    def test_a_name_is_kept_from_its_first_edit_on(self):
        serving = self.serve()
        serving.log_in("Ann Mistyped")
        ben = serving.log_in("Ben")
        ben.line("layers")
        self.assertIsNone(self.names())
        ben.line("layer add w point")
        self.assertEqual(self.names(), ["", "Ben"])
        serving.end(signal.SIGKILL)
        serving = self.serve()
        ann, ben = serving.log_in("Ann"), serving.log_in("Ben")
        self.assertEqual((ann.editor, ben.editor), (1, 2))
        self.assertEqual(ben.answer("undo"), "ok")
        ann.line("layer add v point")
        self.assertEqual(self.names(), ["Ann", "Ben"])

    def test_a_number_is_nobody_elses_where_the_name_can_not_be_written(self):
        serving = self.serve()
        serving.log_in("Ann").line("layer add w point")
        eve = serving.log_in("Eve")
        # Nothing can be put in the place of a folder that is not empty.
        file = Path(f"{self.path}.editors")
        kept = file.read_text()
        file.unlink()
        (file / "folder").mkdir(parents=True)
        status, answer = eve.posted("add w POINT (1 1)")
        self.assertEqual(status, 503)
        self.assertIn("Your name can't be written beside the store", answer["error"])
        self.assertIn("Nothing was done", answer["error"])
        self.assertEqual(eve.line("show w")["rows"], [])
        (file / "folder").rmdir()
        file.rmdir()
        file.write_text(kept)
        self.assertEqual(eve.answer("add w POINT (1 1)"), "ok 1")
        serving.end(signal.SIGKILL)
        serving = self.serve()
        mallory = serving.log_in("Mallory")
        self.assertEqual(mallory.refused("undo")["whose"]["editor"], "Eve")

    def test_the_file_gives_no_more_than_the_store(self):
        self.make(b"layer add w point\n")
        for mode in (0o600, 0o640, 0o664):
            os.chmod(self.path, mode)
            Path(f"{self.path}.editors").unlink(missing_ok=True)
            editors = Editors(str(self.path))
            editors.keep(editors.number_of("Eve"))
            self.assertEqual(os.stat(f"{self.path}.editors").st_mode & 0o777, mode)
            os.chmod(self.path, 0o600)
            editors.keep(editors.number_of("Ann"))
            self.assertEqual(os.stat(f"{self.path}.editors").st_mode & 0o777, 0o600)

    def test_a_full_disk(self):
        editors = Editors(str(self.path))
        number = editors.number_of("Eve")
        with mock.patch("sfstore.files.replace", side_effect=OSError(errno.ENOSPC, "No space left on device")):
            with self.assertRaises(OSError):
                editors.keep(number)
        self.assertIsNone(self.names())
        editors.keep(number)
        self.assertEqual(self.names(), ["Eve"])

    def test_files_that_hold_no_names(self):
        file = Path(f"{self.path}.editors")
        for text in ("{", "{}", "[5]", "[null]", "[" * 100_000, "\ud800".encode("utf-8", "surrogatepass")):
            file.write_bytes(text if isinstance(text, bytes) else text.encode())
            with self.assertRaisesRegex(Exception, "town.sfs.editors"):
                Editors(str(self.path))


class Opened(WebCase):
    """The browser that is opened."""

    def opened(self):
        """A server with a screen, and what its browser was given."""
        told = self.folder / "told"
        browser = self.script(BROWSER.format(python=sys.executable, told=str(told)))
        words = {"DISPLAY": ":9", "BROWSER": f"{browser} %s", "XDG_RUNTIME_DIR": str(self.folder)}
        serving = Serving(self.path, **words)
        self.addCleanup(serving.end, signal.SIGKILL)
        while not told.exists():
            time.sleep(0.02)
        return serving, *json.loads(told.read_text())

    def test_no_secret_stands_in_a_command_line(self):
        serving, words, path, text, mode, folder_mode = self.opened()
        link = link_of(serving.owners_address)
        self.assertNotIn(link, words)
        self.assertNotIn("link=", words)
        self.assertIn(f"#link={link}", text)
        self.assertEqual((stat.S_IMODE(mode), stat.S_IMODE(folder_mode)), (0o600, 0o700))
        self.assertTrue(os.path.exists(path))
        serving.come_in(serving.owners_address, "Ann")
        self.assertFalse(os.path.exists(os.path.dirname(path)))

    def test_the_file_goes_at_the_end(self):
        serving, _, path, *_ = self.opened()
        self.assertTrue(os.path.exists(path))
        self.assertEqual((serving.end(), serving.errors), (0, ""))
        self.assertFalse(os.path.exists(os.path.dirname(path)))


class Words(TestCase):
    """The words of the command."""

    def test_numbers_that_are_none(self):
        environment = {**os.environ, "PYTHONPATH": str(FOLDER)}
        path = str(self.folder / "town.sfs")
        ports, times = ("70000", "-1", "x"), ("0", "-1", "nan", "inf", "x")
        for word in [*(f"--port={port}" for port in ports), *(f"--seconds={time}" for time in times)]:
            words = [sys.executable, "-m", "sfstore.web.command", path, f"--program={PROGRAM}", "--no-browser", word]
            ended = subprocess.run(words, env=environment, capture_output=True, text=True, timeout=60)
            self.assertEqual((ended.returncode, ended.stdout), (2, ""), word)
            self.assertIn("error: argument " + word.partition("=")[0], ended.stderr)
            self.assertNotIn("Traceback", ended.stderr)


if __name__ == "__main__":
    unittest.main()
