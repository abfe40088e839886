"""The plugin of QGIS as a zip for its plugin manager, and as files of a Debian package."""

from __future__ import annotations

import shutil
import zipfile
from pathlib import Path

import control

TOP = Path(__file__).resolve().parent.parent
PLUGIN = TOP / "qgis" / "sfstore_qgis"
# By their paths in the plugin.
FILES = sorted(path.relative_to(PLUGIN) for path in (*PLUGIN.glob("*.py"), *PLUGIN.glob("icons/*.svg"), PLUGIN / "metadata.txt"))

PLACE = Path("usr/share/qgis/python/plugins/sfstore_qgis")
DOCUMENTS = Path("usr/share/doc/qgis-plugin-sfstore")
# A zip has no times before this one: with it the zip is the same each time.
TIME = (1980, 1, 1, 0, 0, 0)

CONTROL = """\
Package: qgis-plugin-sfstore
Version: {version}
Architecture: all
Maintainer: the developers of sfstore <sfstore@localhost>
Depends: python3-numpy, python3-qgis (>= 3.22), sfstore (= {version})
Section: science
Priority: optional
Description: plugin of QGIS that works on stores of sfstore
 Layers of a store are layers of QGIS: edits are judged and refused with their
 place, undone by the store's history, and kept in its journal. Others' edits
 are seen as they happen.
"""


def zipped(version: str) -> Path:
    """Makes the zip that QGIS' plugin manager installs, and gives its path."""
    path = TOP / "out" / f"sfstore_qgis_{version}.zip"
    path.parent.mkdir(exist_ok=True)
    with zipfile.ZipFile(path, "w", zipfile.ZIP_DEFLATED) as made:
        for file in FILES:
            entry = zipfile.ZipInfo(f"sfstore_qgis/{file.as_posix()}", TIME)
            entry.external_attr = 0o100644 << 16
            entry.compress_type = zipfile.ZIP_DEFLATED
            made.writestr(entry, (PLUGIN / file).read_bytes())
    return path


def lay_out(root: Path, version: str) -> None:
    """Puts the files of the Debian package below a folder."""
    copies = {PLACE / file: PLUGIN / file for file in FILES}
    copies[DOCUMENTS / "copyright"] = TOP / "package" / "copyright"
    for place, file in copies.items():
        (root / place).parent.mkdir(parents=True, exist_ok=True)
        shutil.copyfile(file, root / place)
        (root / place).chmod(0o644)
    control.write(root, CONTROL.format(version=version))
