"""Who is let in: links that are good for one login each, and the keys of those who have logged in.

A link stands on a terminal, in a file or in a message, and in a browser's history. So it is good
once, and for some minutes. What a login gives is another secret, the key: it is known to the
browser and to this process alone, belongs to one editor, and ends with the process.
"""

from __future__ import annotations

import hashlib
import secrets
import threading
import time
from collections.abc import Callable
from typing import NamedTuple

from sfstore.web.editors import Editors, as_name

__all__ = ["LINK_SECONDS", "Login", "LoginRefused", "Logins"]

LINK_SECONDS = 600.0
"""How long a link is good."""


class LoginRefused(Exception):
    """Nobody is let in so. The text says what helps."""


class Login(NamedTuple):
    """What a login gives."""

    key: str
    editor: int
    name: str


class _Link(NamedTuple):
    until: float
    name: str | None
    """The name that it is for, or none for a new name."""
    is_owners: bool
    """Whether it lets any name be chosen."""
    used: Callable[[], object]


class Logins:
    """The links that were made, and the keys that were given for them.

    Both are looked up by their digests, so that the time that it takes reveals nothing of them.
    """

    def __init__(self, editors: Editors) -> None:
        self._editors = editors
        self._lock = threading.Lock()
        self._links: dict[bytes, _Link] = {}
        self._editor_by_key: dict[bytes, int] = {}

    def new_link(
        self,
        name: str | None = None,
        is_owners: bool = False,
        used: Callable[[], object] = lambda: None,
    ) -> str:
        """A new link: for a name, known or not; for any that is chosen; or for one that is new.

        ``used`` is called when it has let somebody in. `EditorsError` where the name is none.
        """
        link = secrets.token_urlsafe(32)
        wanted = None if name is None else as_name(name)
        now = time.monotonic()
        with self._lock:
            self._links = {digest: kept for digest, kept in self._links.items() if kept.until > now}
            self._links[_digest(link)] = _Link(now + LINK_SECONDS, wanted, is_owners, used)
        return link

    def log_in(self, link: str, name: str) -> Login:
        """Lets somebody in by a link, which is good no more then. `LoginRefused` where it is not.

        Where the name is none, or somebody else's, the link stays good for another one.
        """
        with self._lock:
            found = self._links.get(_digest(link))
            if found is None or found.until <= time.monotonic():
                raise LoginRefused(
                    "This link is not good any more: each is good once, and for "
                    f"{LINK_SECONDS / 60:g} minutes. Who runs sfstore-web can type `link` for another."
                )
            chosen = found.name or as_name(name)
            if found.name is None and not found.is_owners and self._editors.is_known(chosen):
                raise LoginRefused(
                    f"{chosen} is somebody here already: take another name, or have who runs "
                    f"sfstore-web type `link {chosen}`."
                )
            editor = self._editors.number_of(chosen)
            del self._links[_digest(link)]
            key = secrets.token_urlsafe(32)
            self._editor_by_key[_digest(key)] = editor
        found.used()
        return Login(key, editor, chosen)

    def number_of(self, name: str) -> int:
        """The number of somebody who needs no link, known or new. `EditorsError` where there is no room."""
        return self._editors.number_of(name)

    def editor_of(self, key: str) -> int | None:
        """The editor to whom a key was given, or none."""
        return self._editor_by_key.get(_digest(key))


def _digest(secret: str) -> bytes:
    return hashlib.sha256(secret.encode("utf-8", "surrogatepass")).digest()
