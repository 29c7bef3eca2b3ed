"""The page by a link, as an archive of the folder that a web host serves."""

import subprocess
import tempfile
from contextlib import contextmanager
from pathlib import Path

import tree
from package_parts import Refused, archive


@contextmanager
def folder(given):
    """The page's folder: the given one, or one that scripts/static-page writes, which goes at the end."""
    if given and not (given / "known.json").is_file():
        raise Refused(f"{given} is no page: scripts/static-page writes one")
    with tempfile.TemporaryDirectory(prefix="ztso-package-") as name:
        made = given or Path(name, "page")
        if not given:
            done = subprocess.run([tree.TOP / "scripts/static-page", made], stdin=subprocess.DEVNULL, stderr=subprocess.PIPE, text=True, check=False)
            if done.returncode:
                raise Refused(f"{done.stderr.strip()}; name a page by --page FOLDER, or pack none by --without-page")
        yield made


def write(to, page, epoch):
    files = [tree.File(path.name, path.read_bytes(), False) for path in sorted(page.iterdir())]
    return archive.write(to, "page", files, epoch)
