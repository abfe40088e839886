"""Tests of what makes, keeps and starts the programs: tools, ./start, ./test and ./build-programs."""

from __future__ import annotations

import contextlib
import io
import json
import os
import shutil
import stat
import subprocess
import sys
import tempfile
import unittest
from collections.abc import Callable
from importlib.util import find_spec
from pathlib import Path
from unittest import mock

TOP = Path(__file__).resolve().parents[2]
sys.path[:0] = [str(TOP / "tools"), str(TOP / "tests")]

import building  # noqa: E402
import checkouts  # noqa: E402
import compiling  # noqa: E402
import gated  # noqa: E402
import programs  # noqa: E402
import run  # noqa: E402
import starting  # noqa: E402
import tried  # noqa: E402

CURRENT = programs.current()


class Small(unittest.TestCase):
    """A small checkout in the place of this one: a crate, and no programs yet."""

    def setUp(self) -> None:
        folder = tempfile.TemporaryDirectory()
        self.addCleanup(folder.cleanup)
        self.top = Path(folder.name)
        for file, text in {
            "crates/sf_a/src/lib.rt": "code",
            "crates/sf_a/proofs/f/Answers.antt": "proof",
            "crates/sf_a/must-fail/one.edit": "edit",
            "crates/sf_a/out/lib": "made",
            "crates.txt": "sf_a:\n",
            "HANDLES": "none\n",
        }.items():
            self.write(file, text)
        for module, name, value in (
            (programs, "TOP", self.top),
            (programs, "PLACE", self.top / "out" / "programs"),
            (tried, "PLACE", self.top / "out" / "tried"),
        ):
            patch = mock.patch.object(module, name, value)
            patch.start()
            self.addCleanup(patch.stop)

    def write(self, file: str, text: str) -> Path:
        """Writes a file of the checkout."""
        path = self.top / file
        path.parent.mkdir(parents=True, exist_ok=True)
        path.write_text(text, encoding="utf-8")
        return path

    def put(self, proved: bool) -> programs.Made:
        """Puts programs there, of the crates as they stand."""
        made = programs.of(self.top, proved, "9 passed, 0 failed")
        programs.keep(made, {name: self.write(f"built/{name}", f"{name} {proved}") for name in programs.NAMES})
        return made


class Programs(Small):
    def test_what_they_are_is_read_back(self) -> None:
        for proved in (False, True):
            made = self.put(proved)
            self.assertEqual((programs.read(), programs.current()), (made, made))
            self.assertEqual((programs.PLACE / "sfmap").read_text(encoding="utf-8"), f"sfmap {proved}")

    def test_nothing_is_said_where_something_is_missing_or_unreadable(self) -> None:
        def gone(name: str) -> Callable[[], None]:
            return lambda: (programs.PLACE / name).unlink()

        for spoil in (
            gone("sfstore"),
            gone("sfmap"),
            gone(programs.RECORD),
            lambda: None if self.write(f"out/programs/{programs.RECORD}", "proved: yes\n") else None,
            lambda: None if self.write(f"out/programs/{programs.RECORD}", "\n\n") else None,
        ):
            self.put(True)
            self.assertIsNotNone(programs.read())
            spoil()
            self.assertIsNone(programs.read())

    def test_code_that_changes_makes_them_old(self) -> None:
        for proved in (False, True):
            self.write("crates/sf_a/src/lib.rt", "code")
            self.put(proved)
            self.write("crates/sf_a/src/lib.rt", "other code")
            self.assertIsNone(programs.current())

    def test_files_that_come_go_or_change_their_names_are_seen(self) -> None:
        before = programs.crates_sum(proved=False)
        added = self.write("crates/sf_a/src/more.rt", "")
        self.assertNotEqual(programs.crates_sum(proved=False), before)
        added.rename(self.top / "crates/sf_a/src/other.rt")
        other = programs.crates_sum(proved=False)
        self.assertNotEqual(other, before)
        (self.top / "crates/sf_a/src/other.rt").unlink()
        self.assertEqual(programs.crates_sum(proved=False), before)

    def test_proofs_that_change_make_proved_ones_old_alone(self) -> None:
        for proved in (False, True):
            self.write("crates/sf_a/proofs/f/Answers.antt", "proof")
            made = self.put(proved)
            self.write("crates/sf_a/proofs/f/Answers.antt", "other proof")
            self.assertEqual(programs.current(), None if proved else made)

    def test_what_no_program_is_made_of_changes_nothing(self) -> None:
        made = self.put(True)
        self.write("crates/sf_a/must-fail/one.edit", "another")
        self.write("crates/sf_a/out/lib", "anew")
        self.assertEqual(programs.current(), made)

    def test_another_toolchain_makes_them_old(self) -> None:
        self.put(True)
        with mock.patch.object(programs, "kit", return_value="rattle-kit-99z"):
            self.assertIsNone(programs.current())

    def test_one_that_runs_is_exchanged(self) -> None:
        self.put(True)
        running = programs.PLACE / "sfstore"
        shutil.copy(shutil.which("sleep") or "/bin/sleep", running)
        with subprocess.Popen([running, "60"]) as child:
            self.put(False)
            child.kill()
        self.assertEqual(running.read_text(encoding="utf-8"), "sfstore False")

    def test_one_that_cannot_be_copied_leaves_no_word_of_what_is_there(self) -> None:
        made = self.put(True)
        with self.assertRaises(OSError):
            programs.keep(made, {"sfstore": self.top / "built" / "sfstore", "sfmap": self.top / "missing"})
        self.assertIsNone(programs.read())

    def test_the_environment_names_others(self) -> None:
        with mock.patch.dict(os.environ, {"SFSTORE": "here/sfstore"}):
            self.assertEqual(programs.path_of("sfstore"), Path.cwd() / "here" / "sfstore")
        with mock.patch.dict(os.environ, clear=True):
            self.assertEqual(programs.path_of("sfstore"), programs.PLACE / "sfstore")


class Gate(Small):
    """Programs that the gate has built."""

    def kept(self, before: str, said: str) -> programs.Made | None:
        """What is said of programs behind a gate."""
        for name in programs.NAMES:
            self.write(f"crates/{name}/out/{name}", name)
        gated.keep(before, said)
        return programs.current()

    def test_those_of_a_gate_that_passed_are_proved(self) -> None:
        made = self.kept(programs.crates_sum(proved=True), "much\nrt ci: 98 passed, 0 failed\n")
        self.assertTrue(made and made.proved and made.gate == "rt ci: 98 passed, 0 failed")

    def test_those_of_a_gate_that_failed_are_of_no_crates(self) -> None:
        now = programs.crates_sum(proved=True)
        for said in ("97 passed, 1 failed\n", "", "killed\n", "98 passed, 0 failed\nrt: stopped\n"):
            self.assertIsNone(self.kept(now, said))
            read = programs.read()
            self.assertTrue(read and not read.proved)

    def test_those_of_crates_that_changed_meanwhile_are_not_proved(self) -> None:
        before = programs.crates_sum(proved=True)
        self.write("crates/sf_a/proofs/f/Answers.antt", "other proof")
        self.assertIsNone(self.kept(before, "98 passed, 0 failed\n"))


class Checkouts(unittest.TestCase):
    def test_what_the_programs_stand_on(self) -> None:
        listed = {"sfstore": ["sf_a", "hex"], "sfmap": ["sf_b"], "sf_a": [], "sf_b": ["sf_a"], "sf_c": ["sf_a"]}
        self.assertEqual(building.needed(listed), {"sfstore", "sfmap", "sf_a", "sf_b"})

    def test_a_copy_has_those_alone(self) -> None:
        with tempfile.TemporaryDirectory() as name:
            folder = Path(name)
            for crate in ("sfstore", "sfmap", "sf_a", "sf_c"):
                (folder / "crates" / crate).mkdir(parents=True)
            (folder / "crates.txt").write_text("# lowest first\nsf_a:\nsfstore: sf_a hex\nsfmap: sf_a\nsf_c: sf_a\n", encoding="utf-8")
            building.pruned(folder)
            self.assertEqual({path.name for path in (folder / "crates").iterdir()}, {"sfstore", "sfmap", "sf_a"})
            self.assertEqual((folder / "crates.txt").read_text(encoding="utf-8"), "sf_a:\nsfstore: sf_a hex\nsfmap: sf_a\n")

    def test_files_lose_their_ending(self) -> None:
        with tempfile.TemporaryDirectory() as name:
            source, target = Path(name) / "a", Path(name) / "b"
            (source / "src").mkdir(parents=True)
            (source / "src" / "main.rt.in").write_text("code", encoding="utf-8")
            (source / "stdin").write_text("row", encoding="utf-8")
            checkouts.put(source, target)
            self.assertEqual(sorted(str(path.relative_to(target)) for path in target.rglob("*") if path.is_file()), ["src/main.rt", "stdin"])

    def test_a_program_that_cannot_be_made_says_why(self) -> None:
        with tempfile.TemporaryDirectory() as name:
            rt = Path(name) / "bin" / "rt"
            rt.parent.mkdir()
            rt.write_text("#!/bin/sh\necho 'src/main.rt:3:1: error: no such name' >&2\nexit 1\n", encoding="utf-8")
            rt.chmod(0o755)
            with mock.patch.dict(os.environ, {"PATH": f"{rt.parent}:{os.environ['PATH']}"}):
                with self.assertRaisesRegex(RuntimeError, "sf_a.*no such name"):
                    (Path(name) / "sf_a").mkdir()
                    compiling.with_checks(Path(name) / "sf_a", Path(name) / "made")
            self.assertFalse((Path(name) / "made").exists())


class Runs(unittest.TestCase):
    """What ./test takes."""

    def test_files_that_are_left_out_by_quick_are_there(self) -> None:
        left_out = [name for names in run.LONG.values() for name in names]
        self.assertEqual(len(left_out), len(set(left_out)))
        self.assertLessEqual(set(left_out), set(run.files()))
        self.assertGreater(len(run.files()) - len(left_out), 30)

    def test_words_that_no_file_is_named_by(self) -> None:
        found = [test.id() for test in run.each(run.named(["test_turns", "never_tries_more"]))]
        self.assertEqual(found.count("test_turns.Turns.test_a_run_never_tries_more_than_so_many"), 2)
        found = [test.id() for test in run.each(run.named(["never_tries_more"]))]
        self.assertEqual(found, ["test_turns.Turns.test_a_run_never_tries_more_than_so_many"])
        self.assertEqual(list(run.each(run.named(["test_turns.Turns.test_crates_are_those_whose_code_or_proofs_changed"])))[0].countTestCases(), 1)

    def said(self, *words: str) -> tuple[int, str]:
        """What ./test says to words, without programs that would have to be made."""
        environment = {**os.environ, "SFSTORE": "/bin/false", "SFMAP": "/bin/false"}
        ended = subprocess.run([sys.executable, TOP / "tests" / "run.py", *words], env=environment, capture_output=True, text=True)
        return ended.returncode, ended.stdout + ended.stderr

    def test_words_of_the_script_are_handed_on(self) -> None:
        environment = {**os.environ, "SFSTORE": "/bin/false"}
        environment.pop("SFMAP", None)
        ended = subprocess.run([TOP / "test", "never_tries_more"], env=environment, capture_output=True, text=True)
        self.assertEqual((ended.returncode, ended.stdout.splitlines()[-1:]), (0, ["1 passed, 0 failed, over other programs (SFSTORE)"]))

    def test_an_interrupt_reaches_what_was_started_in_the_background(self) -> None:
        """A shell has it ignored there."""
        with tempfile.TemporaryDirectory() as name:
            lines = "import signal, sys, unittest\nclass Case(unittest.TestCase):\n def test_it(self): self.assertRaises(KeyboardInterrupt, signal.raise_signal, signal.SIGINT)\n"
            folder = Path(name) / "tests"
            folder.mkdir()
            (folder / "test_interrupted.py").write_text(lines, encoding="utf-8")
            begun = f"import sys; sys.path.insert(0, {str(TOP / 'tests')!r}); import run, pathlib; run.ROOTS = (pathlib.Path({name!r}),); sys.argv = ['run.py', '--apart', 'test_interrupted']; sys.exit(run.main())"
            words = ["sh", "-c", 'trap "" INT; exec "$@"', "", sys.executable, "-c", begun]
            ended = subprocess.run(words, capture_output=True, text=True)
            self.assertEqual(ended.returncode, 0, ended.stdout + ended.stderr)

    def test_single_tests_are_run_and_counted(self) -> None:
        status, said = self.said("never_tries_more", "test_turns.Turns.test_enough_are_there_to_choose_from")
        self.assertEqual((status, said.splitlines()[-1]), (0, "2 passed, 0 failed, over other programs (SFSTORE, SFMAP)"))

    def test_a_name_of_nothing_is_refused(self) -> None:
        status, said = self.said("no_test_has_this_in_" + "its_name")
        self.assertEqual(status, 2)
        self.assertIn("no such test", said)

    def test_a_test_that_fails_is_counted_and_is_the_status(self) -> None:
        status, said = self.said("test_sessions")
        self.assertEqual(status, 1)
        self.assertRegex(said.splitlines()[-1], r"^\d+ passed, [1-9]\d* failed, over other programs")

    def test_what_was_skipped_is_in_the_last_line_of_a_quick_run(self) -> None:
        whole = "..\nOK (skipped=1)\nskipped: test_a (test_x.Case.test_a): no GDAL\n2 passed, 1 failed, over other programs (SFMAP)\n"
        self.assertEqual(run.tallied(whole), (2, 1, 1))
        self.assertEqual(run.tallied("Traceback\n"), (0, 1, 0))
        files = len(run.files()) - sum(map(len, run.LONG.values()))
        for skipped, said in ((3, f"{3 * files} skipped for what is missing"), (0, "none skipped")):
            printed = io.StringIO()
            with mock.patch.object(run, "run_apart", return_value=(2, 0, skipped)), contextlib.redirect_stdout(printed):
                self.assertEqual(run.quick(), 0)
            self.assertTrue(printed.getvalue().startswith(f"{2 * files} passed, 0 failed, {said}, without the gate"), printed.getvalue())

    def test_what_others_tried_is_counted(self) -> None:
        with tempfile.TemporaryDirectory() as name:
            file = Path(name) / "turns.txt"
            self.assertEqual(run.counted(file), (0, 1))
            file.write_text("rows\n12 passed, 2 failed\n", encoding="utf-8")
            self.assertEqual(run.counted(file), (12, 2))
            file.write_text("Traceback\n", encoding="utf-8")
            self.assertEqual(run.counted(file), (0, 1))


@unittest.skipUnless(CURRENT, "out/programs has no programs of these crates")
class Start(unittest.TestCase):
    """./start, where the programs are there already, and nothing is to be installed."""

    def setUp(self) -> None:
        folder = tempfile.TemporaryDirectory()
        self.addCleanup(folder.cleanup)
        self.folder = Path(folder.name)

    def said(self, *words: str | Path) -> tuple[int, str, str]:
        """What it says without a screen and without a terminal."""
        hidden = {"DISPLAY", "WAYLAND_DISPLAY"}
        environment = {name: value for name, value in os.environ.items() if name not in hidden}
        with mock.patch.dict(os.environ, environment, clear=True):
            ended = subprocess.run([TOP / "start", *words], cwd=self.folder, stdin=subprocess.DEVNULL, capture_output=True, text=True)
        return ended.returncode, ended.stdout, ended.stderr

    def store(self) -> Path:
        """A store with one point."""
        file = self.folder / "wells.sfs"
        lines = b"layer add wells point\nadd wells POINT (3 4)\n"
        subprocess.run([programs.PLACE / "sfstore", "--save", file], input=lines, capture_output=True, check=True)
        return file

    def test_what_the_programs_are_comes_first(self) -> None:
        assert CURRENT is not None
        _, said, _ = self.said(self.store())
        self.assertTrue(said.startswith("These are the proved programs" if CURRENT.proved else "NOT PROVED"), said)

    def test_a_store_is_opened_by_a_name_of_the_folder(self) -> None:
        """Without a screen at the console, which says that it needs a terminal."""
        self.store()
        status, said, fault = self.said("wells.sfs")
        self.assertIn("The console of wells.sfs:", said)
        self.assertEqual(status, 2)
        self.assertIn("needs a terminal", fault)

    def test_a_file_that_is_not_there(self) -> None:
        status, _, fault = self.said("missing.sfs")
        self.assertEqual((status, fault), (2, "start: there is no missing.sfs\n"))

    def test_a_module_beside_a_map_is_not_taken(self) -> None:
        self.store()
        (self.folder / "sfstore.py").write_text("print('taken')\n", encoding="utf-8")
        (self.folder / "argparse.py").write_text("print('taken')\n", encoding="utf-8")
        _, said, fault = self.said("wells.sfs")
        self.assertNotIn("taken", said + fault)

    def test_programs_that_cannot_be_made_are_a_line(self) -> None:
        said = io.StringIO()
        for fault in (OSError(28, "No space left on device"), RuntimeError("rt try has compiled no program of sfmap")):
            with (
                self.subTest(fault),
                mock.patch.object(building, "ensured", side_effect=fault),
                mock.patch.object(sys, "argv", ["start"]),
                contextlib.redirect_stderr(said),
            ):
                self.assertEqual(starting.main(), 2)
            self.assertEqual(said.getvalue().splitlines()[-1], f"start: {fault}")

    def test_the_town_is_made_once_and_stays_as_it_was_left(self) -> None:
        town = self.folder / "out" / "town.sfs"
        town.parent.mkdir()
        with mock.patch.object(starting, "TOWN", town):
            self.assertEqual(starting.town(), town)
            words = [programs.PLACE / "sfstore", "--load", town, "--save", town]
            subprocess.run(words, input=b"delete wells 1\n", capture_output=True, check=True)
            left = town.read_bytes()
            starting.town()
        self.assertEqual(town.read_bytes(), left)

    @unittest.skipUnless(find_spec("osgeo"), "no GDAL for Python (python3-gdal)")
    def test_a_map_of_another_format_is_imported_beside_it_once(self) -> None:
        shutil.copy(TOP / "examples" / "town.gpkg", self.folder)
        _, said, _ = self.said("town.gpkg")
        store = self.folder / "town.gpkg.sfs"
        self.assertIn("town.gpkg was imported into town.gpkg.sfs, on the grid 500000 5600000 1.", said)
        first = store.read_bytes()
        asked = subprocess.run([programs.PLACE / "sfstore", "--load", store], input=b"layers\n", capture_output=True, check=True)
        self.assertEqual(len(asked.stdout.splitlines()), 4)
        _, said, _ = self.said("town.gpkg")
        self.assertIn("town.gpkg.sfs is opened as it was left.", said)
        self.assertEqual(store.read_bytes(), first)

    @unittest.skipUnless(find_spec("osgeo"), "no GDAL for Python (python3-gdal)")
    def test_another_map_of_the_same_name_is_imported_too(self) -> None:
        shutil.copy(TOP / "examples" / "town.gpkg", self.folder)
        self.said("town.gpkg")
        point = {"type": "Feature", "id": 1, "properties": {}, "geometry": {"type": "Point", "coordinates": [7, 51]}}
        (self.folder / "town.geojson").write_text(json.dumps({"type": "FeatureCollection", "features": [point]}), encoding="utf-8")
        shutil.copy(self.folder / "town.gpkg.sfs", self.folder / "town.sfs")
        _, said, _ = self.said("town.geojson")
        self.assertIn("town.sfs is left aside, as it may be of another map: ./start town.sfs opens it.", said)
        self.assertIn("town.geojson was imported into town.geojson.sfs", said)
        store = self.folder / "town.geojson.sfs"
        asked = subprocess.run([programs.PLACE / "sfstore", "--load", store], input=b"layers\n", capture_output=True, check=True)
        self.assertEqual(asked.stdout, b"rows 1\ntown point\n")

    @unittest.skipUnless(find_spec("osgeo"), "no GDAL for Python (python3-gdal)")
    def test_what_is_no_map_leaves_no_store(self) -> None:
        (self.folder / "notes.gpkg").write_text("notes", encoding="utf-8")
        status, _, fault = self.said("notes.gpkg")
        self.assertEqual(status, 2)
        self.assertIn("start: notes.gpkg can't be imported", fault)
        self.assertFalse((self.folder / "notes.gpkg.sfs").exists())


class Words(unittest.TestCase):
    def test_without_a_toolchain_it_says_what_to_do(self) -> None:
        path = tempfile.TemporaryDirectory()
        self.addCleanup(path.cleanup)
        for name in ("bash", "readlink", "dirname", "git", "id"):
            (Path(path.name) / name).symlink_to(shutil.which(name) or name)
        (Path(path.name) / "python3").symlink_to(sys.executable)
        checkout = Path(path.name) / "checkout"
        for name in ("tools", "python/sfstore"):
            shutil.copytree(TOP / name, checkout / name, ignore=shutil.ignore_patterns("__pycache__"))
        for name in ("start", "build-programs"):
            shutil.copy(TOP / name, checkout)
            ended = subprocess.run(
                [checkout / name, *(["--unproved"] if name == "build-programs" else [])],
                env={"PATH": path.name},
                stdin=subprocess.DEVNULL,
                capture_output=True,
                text=True,
            )
            self.assertEqual((ended.returncode, ended.stdout), (2, ""), ended.stderr)
            self.assertIn("toolchain", ended.stderr)

    def test_what_is_run_by_its_name_may_be(self) -> None:
        for name in ("start", "test", "build-programs", "package/build", ".ci/run", "bench/turns.py"):
            self.assertTrue((TOP / name).stat().st_mode & stat.S_IXUSR, name)


if __name__ == "__main__":
    unittest.main()
