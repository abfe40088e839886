"""Files that GDAL finds, also those of an archive."""

from __future__ import annotations

from sfstore.exchange import ogr

__all__ = ["VsiFile"]


class VsiFile:
    """A file that is read from its front on. `ogr.ExchangeError` where it can't be."""

    def __init__(self, path: str) -> None:
        self._module, _, _ = ogr.gdal()
        self._file = self._module.VSIFOpenL(path, "rb")
        if self._file is None:
            raise ogr.ExchangeError(f"{ogr.printable(path)} can't be read")

    def read(self, size: int) -> bytes:
        """So many bytes more, or fewer at the end."""
        return bytes(self._module.VSIFReadL(1, size, self._file) or b"")

    def skip(self, size: int) -> None:
        """Goes on behind so many bytes."""
        self._module.VSIFSeekL(self._file, size, 1)

    def __enter__(self) -> VsiFile:
        return self

    def __exit__(self, *what: object) -> None:
        self._module.VSIFCloseL(self._file)
