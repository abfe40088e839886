"""What Debian's tools read of a package: its fields, and what they carry out before they remove it."""

from __future__ import annotations

from pathlib import Path

# Where root uses a module, Python leaves what it has compiled beside it. That is no file of the package, and would stay.
BEFORE_REMOVAL = """\
#!/bin/sh
set -e
if command -v py3clean > /dev/null 2>&1; then
    py3clean -p {package}
fi
"""


def write(root: Path, fields: str) -> None:
    """Writes it below the folder of a package."""
    folder = root / "DEBIAN"
    folder.mkdir(parents=True, exist_ok=True)
    (folder / "control").write_text(fields)
    package = fields.partition("\n")[0].removeprefix("Package: ")
    script = folder / "prerm"
    script.write_text(BEFORE_REMOVAL.format(package=package))
    script.chmod(0o755)
