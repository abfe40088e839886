"""The way to a browser for an address with a secret.

What stands in the command line of a process is read by every user of the machine. So the browser is
given a file that this user alone can read, and the file leads to the address.
"""

from __future__ import annotations

import html
import os
import shutil
import sys
import tempfile
import threading
import webbrowser
from pathlib import Path

__all__ = ["Opening", "has_screen"]


def has_screen() -> bool:
    """Whether a browser could show something."""
    return any(map(os.environ.get, ("DISPLAY", "WAYLAND_DISPLAY"))) or sys.platform == "darwin"


class Opening:
    """A file that leads to an address, in a folder of its own; both are this user's alone."""

    def __init__(self) -> None:
        self._folder: str | None = None

    def open(self, address: str) -> None:
        """Opens an address in the browser, and does not wait for it. `OSError` where there is no room."""
        self._folder = tempfile.mkdtemp(prefix="sfstore-", dir=_runtime_folder())
        path = Path(self._folder) / "open.html"
        with open(os.open(path, os.O_WRONLY | os.O_CREAT | os.O_EXCL, 0o600), "w", encoding="utf-8") as file:
            leading = f'<meta http-equiv="refresh" content="0; url={html.escape(address)}">'
            file.write(f'<!doctype html>\n<meta charset="utf-8">\n{leading}\n<title>sfstore</title>\n')
        # Some browsers are waited for until they end, and they wait for the server.
        threading.Thread(target=_open, args=[path.as_uri()], daemon=True).start()

    def close(self) -> None:
        """Takes file and folder away."""
        if self._folder is not None:
            shutil.rmtree(self._folder, ignore_errors=True)


def _open(address: str) -> None:
    try:
        webbrowser.open(address)
    except webbrowser.Error as error:
        print(f"sfstore-web: no browser can be opened: {error}", file=sys.stderr)


def _runtime_folder() -> str | None:
    """The folder of this user for what lives as long as a session, where there is one."""
    folder = os.environ.get("XDG_RUNTIME_DIR", "")
    return folder if os.path.isdir(folder) and os.access(folder, os.W_OK) else None
