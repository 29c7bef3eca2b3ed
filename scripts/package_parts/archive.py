"""Archives: files in one folder, with nothing of the machine on which they are made."""

import io
import lzma
import tarfile

import tree


def member(name, epoch, mode):
    """A member of an archive, with nothing of this machine or its users."""
    info = tarfile.TarInfo(name)
    info.mtime, info.mode, info.uname, info.gname = epoch, mode, "root", "root"
    return info


def content(top, files, epoch):
    """The bytes of the archive, before they are compressed."""
    archive = io.BytesIO()
    with tarfile.open(fileobj=archive, mode="w", format=tarfile.USTAR_FORMAT) as out:
        folders = {""}
        for file in files:
            *above, _ = file.place.split("/")
            for count in range(len(above) + 1):
                folder = "/".join([top, *above[:count]])
                if folder not in folders:
                    folders.add(folder)
                    info = member(folder, epoch, 0o755)
                    info.type = tarfile.DIRTYPE
                    out.addfile(info)
            info = member(f"{top}/{file.place}", epoch, 0o755 if file.executable else 0o644)
            info.size = len(file.content)
            out.addfile(info, io.BytesIO(file.content))
    return archive.getvalue()


def write(folder, what, files, epoch, preset=9 | lzma.PRESET_EXTREME, package="ztso"):
    """Makes the archive `PACKAGE-VERSION-WHAT.tar.xz` of these files."""
    name = f"{package}-{tree.version()}-{what}"
    path = folder / f"{name}.tar.xz"
    path.write_bytes(lzma.compress(content(name, files, epoch), preset=preset))
    return path
