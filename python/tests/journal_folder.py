"""The folder of a store in the model of one with a journal: what stands there at first, and what has to hold of it."""

from __future__ import annotations

import contextlib
import os
import stat
import subprocess
from pathlib import Path

from journal_disk import Disk, Meeting
from journal_plain import Violation, after, file_of

from sfstore import JournalError, ProgramEnded, Refused, files, sidecar

# What stands in the folder beside the store, and is the user's.
USERS = ["town.sfs.new", "town.sfs.part", "town.sfs.journal.new", "town.sfs.json.part", "notes.txt"]
OWN = ["town.sfs", "town.sfs.journal", "town.sfs.lock", "town.sfs.json", "copy.sfs", "copy.sfs.lock"]
# What the program makes beside, and of which it takes the place.
BESIDE = [".town.sfs.sfstore-store", ".town.sfs.sfstore-journal"]
LASTING = ["town.sfs", "town.sfs.journal", "town.sfs.json", *BESIDE]
WRONG_SIDECARS = ["[" * 100_000, '{"format": NaN}', "", '{"format": "sfstore side-car 1", "grid": "abc", "crs": "x"}']

# What the model does itself is no call of the package.
UNLINK, REPLACE, RUN = os.unlink, os.replace, subprocess.run
# A group that no process has: only who may do anything can give a file to it.
GROUP = 54321 if os.geteuid() == 0 else os.getegid()


class Folder:
    """A store's file and what stands beside it, its session, and what must be there."""

    def __init__(self, dice, folder, program, library):
        self.dice = dice
        self.folder, self.aside = os.path.join(folder, "town"), os.path.join(folder, "aside")
        for made in (self.folder, self.aside):
            os.mkdir(made)
        self.program = program
        self.library = library
        self.meeting = Meeting(Path(self.aside, "meeting"))
        self.disk = Disk(Path(self.aside, "synced"))
        self.path = os.path.join(self.folder, "town.sfs")
        self.store = None
        # What the file has; the edits behind it that were answered; those that may be there or not.
        self.saved, self.lines, self.maybe = None, [], []
        # Why the next opening may be refused; the file of another program; whether the program meets a fault.
        self.excuse, self.foreign, self.is_faulty = "", None, False
        self.copied, self.group = {None}, None
        self.number = 0
        self.plan, self.has_happened, self.has_met = None, False, False
        self.told = []
        self._put_down_files()

    def _put_down_files(self):
        """The user's own files, a store's file of some mode, and a side-car, a wrong one or none."""
        self.users = {name: f"precious: {name}".encode() for name in USERS}
        for name, data in self.users.items():
            self._write(name, data)
        self.mode, self.sidecar = None, False
        if self.dice.random() < 0.6:
            self.saved = ["POINT (0 0)"]
            self._write("town.sfs", file_of(self.saved))
            self.mode, self.group = self.dice.choice([0o600, 0o640, 0o644, 0o660, 0o664]), self.dice.choice([os.getegid(), GROUP])
            os.chmod(self.path, self.mode)
            os.chown(self.path, -1, self.group)
            if self.dice.random() < 0.5:
                sidecar.write(self.path, sidecar.Sidecar(("0", "0", "1"), None, []), [files.digest(self.path)])
                self.disk.keep(f"{self.path}.json")
                self.sidecar = True
            elif self.dice.random() < 0.3:
                self._write("town.sfs.json", self.dice.choice(WRONG_SIDECARS).encode())

    def _variables(self):
        """What each program is started with."""
        told = {"SYNCED": f"{self.aside}/synced", "FAILED": f"{self.aside}/failed", "MEETING": str(self.meeting.folder)}
        return {"LD_PRELOAD": str(self.library), **told}

    def _failures(self):
        """How many calls of programs have failed, or ended one."""
        path = f"{self.aside}/failed"
        return os.path.getsize(path) if os.path.exists(path) else 0

    def _lose(self):
        for name in LASTING:
            if not os.path.islink(os.path.join(self.folder, name)):
                self.disk.lose(os.path.join(self.folder, name), self.dice)

    def _look(self):
        """What has to hold after each operation."""
        for name, data in self.users.items():
            if self._bytes(name) != data:
                raise Violation(f"the user's {name} is gone or changed")
        if self._bytes("copy.sfs") not in self.copied:
            raise Violation("the copy that was there is gone")
        if self.foreign is not None and self._bytes("town.sfs") != self.foreign:
            raise Violation("what another program wrote is gone")
        if self.store is not None and self.foreign is None and self._content() != after(self.saved, self.lines + self.maybe):
            raise Violation(f"the session has {self._content()}")
        if self.store is not None and self.foreign is None:
            self._look_at_modes()
        self._look_at_rights()
        if self.sidecar and self.foreign is None and os.path.exists(self.path):
            try:
                sidecar.read(self.path)
            except sidecar.SidecarError as error:
                raise Violation(f"the side-car is no more of its file: {error}") from error
        if self.foreign is not None and os.path.exists(self.path + ".json"):
            with contextlib.suppress(sidecar.SidecarError):
                sidecar.read(self.path)
                raise Violation("the side-car was taken for that of another program's file")
        others = set(os.listdir(self.folder)) - set(USERS) - set(OWN)
        if any(not name.startswith(".") for name in others):
            raise Violation(f"{others} were left")

    def _look_at_modes(self):
        """While a session lives, file, journal and lock have the mode and the group that the file had."""
        if not os.path.exists(self.path):
            return
        known = os.stat(self.path)
        mode = stat.S_IMODE(known.st_mode)
        if self.mode is not None and (mode, known.st_gid) != (self.mode, self.group):
            raise Violation(f"the file's mode is {mode:o}, its group {known.st_gid}: were {self.mode:o}, {self.group}")
        self.mode, self.group = mode, known.st_gid
        for name, most in (("journal", mode), ("lock", self._lock_mode())):
            if not os.path.exists(f"{self.path}.{name}"):
                raise Violation(f"a session lives without its {name}")
            beside = os.stat(f"{self.path}.{name}")
            is_groups = beside.st_gid == self.group or not most & 0o070
            if stat.S_IMODE(beside.st_mode) != most or not is_groups:
                raise Violation(f"the {name} has mode {beside.st_mode:o} and group {beside.st_gid} beside {mode:o}, {self.group}")

    def _lock_mode(self):
        """Those may open the lock who may write the file."""
        return 0o600 | self.mode & 0o222 | (self.mode & 0o222) << 1

    def _look_at_rights(self):
        """At no moment gives anything of the store more rights than its file, nor its group's to another group."""
        for name in os.listdir(self.folder):
            if self.mode is None or self.foreign is not None or not name.startswith((".town.sfs.", *OWN[1:3])) or name in USERS:
                continue
            with contextlib.suppress(FileNotFoundError):
                known = os.lstat(os.path.join(self.folder, name))
                most = self._lock_mode() if name == OWN[2] else self.mode
                most &= ~0o070 if known.st_gid != self.group else ~0
                if not stat.S_ISLNK(known.st_mode) and stat.S_IMODE(known.st_mode) & ~most:
                    raise Violation(f"{name} has mode {known.st_mode:o} beside a file of {self.mode:o}")

    def _content(self):
        try:
            rows = self.store.run("show w")
        except Refused:
            return None
        except (JournalError, ProgramEnded):
            if not self.is_faulty:
                raise
            self._drop()
            return after(self.saved, self.lines + self.maybe)
        return [row.partition(" ")[2] for row in rows]

    def _bytes(self, name):
        try:
            with open(os.path.join(self.folder, name), "rb") as file:
                return file.read()
        except FileNotFoundError:
            return None

    def _write(self, name, data):
        with open(os.path.join(self.folder, name), "wb") as file:
            file.write(data)
        self.disk.keep(os.path.join(self.folder, name))

    def _all(self):
        """The names of all files with their bytes, modes and groups; of links, where they lead."""
        found = {}
        for name in os.listdir(self.folder):
            path = os.path.join(self.folder, name)
            known = os.lstat(path)
            data = os.readlink(path).encode() if stat.S_ISLNK(known.st_mode) else self._bytes(name)
            found[name] = data, known.st_mode, known.st_gid
        return found

    def _become(self, found):
        """Has the folder have just these files."""
        for name in os.listdir(self.folder):
            if name not in found:
                UNLINK(os.path.join(self.folder, name))
        for name, (data, mode, group) in found.items():
            path = os.path.join(self.folder, name)
            if self._all().get(name, (None,))[0] == data:
                continue
            with contextlib.suppress(FileNotFoundError):
                UNLINK(path)
            if stat.S_ISLNK(mode):
                os.symlink(data, path)
            else:
                self._write(name, data)
                os.chown(path, -1, group)
                os.chmod(path, stat.S_IMODE(mode))
