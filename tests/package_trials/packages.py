"""The packages: the same bytes twice, and what they hold runs where nothing else is."""

import os
import re
import shutil
from pathlib import Path

import tree

from . import SB, below, call, is_binary, prefix, said_of, workplace

# in place of the program where that is no binary: it is packed, and not run
STAND_IN = Path("/bin/true")
# functions of the C library that docs/security.md says the program doesn't call: its file has no such name
UNCALLED = ("socket connect bind accept listen sendto recvfrom fork vfork clone execve execvp posix_spawn system popen "
            "dlopen dlsym getenv secure_getenv fopen openat creat unlink rename mkdir chmod mmap mprotect").split()


def part(count, program):
    if not (tree.TOP / ".git").exists():
        print("  not tried: the packages, since this is no clone of the repository", flush=True)
        return
    if not (count.there("dpkg-deb", "the packages") and count.there("git", "the packages")):
        return
    with workplace(program) as (folder, alone):
        packed = alone if is_binary(program) else STAND_IN.resolve()
        # what a package is made of has nothing of the folder, the time zone, the language or the rights of who makes it
        page = page_by_a_link(count, folder)
        first = package(folder / "first", packed, "--page", page, umask=0o022)
        second = package(folder / "second" / "deep", packed, "--page", page, umask=0o077,
                         variables={"TZ": "Asia/Tokyo", "LC_ALL": "C"})
        count.told("packs", first[0] == 0 and second[0] == 0, first[2] + second[2])
        made = below(folder / "first")
        version, called = tree.version(), "ztso-unproved" if said_of(program) else "ztso"
        count.same("what is made", [name.replace("aarch64", "x86_64").replace("arm64", "amd64") for name in made],
                   ["SHA256SUMS", *(f"ztso-{version}-{what}.tar.xz" for what in ("page", "queue", "source")),
                    f"{called}-{version}-x86_64-linux.tar.xz", f"{called}_{version}_amd64.deb"])
        for name in made:
            one, other = (folder / "first" / name).read_bytes(), (folder / "second/deep" / name).read_bytes()
            count.told(f"{name} is the same twice", one == other)
        count.same("sums", call("sha256sum", "--quiet", "-c", "SHA256SUMS", folder=folder / "first"), (0, "", ""))
        refusals(count, folder, packed)
        if Path(program) != tree.TOP / "crates/ztso/out/ztso":
            print("  not tried: which functions the program calls, since it isn't the proved one", flush=True)
        else:
            there = [name for name in UNCALLED if b"\0%s\0" % name.encode() in alone.read_bytes()]
            count.same("functions that the program calls", there, [])
        _, of_page, of_queue, of_source, of_program, of_debian = (folder / "first" / name for name in made)
        archive(count, folder, of_program, packed, page)
        debian(count, folder, of_debian, packed, said_of(program))
        page_archive(count, folder, of_page, page)
        queue_archive(count, folder, of_queue)
        source_archive(count, folder, of_source)
        status, said, faults = package(folder / "without", packed, "--without-page", "--without-source")
        left = [name for name in below(folder / "without") if "page" in name or "source" in name]
        count.same("without a page and the sources", (status, faults, left), (0, "", []))


def package(to, program, *words, **options):
    return call(tree.TOP / "scripts/make-package", "--to", to, "--program", program, "--changed", *words, **options)


def page_by_a_link(count, folder):
    """A page by a link, whose program was compiled before and is a stand-in here."""
    wasm, page = folder / "ztso.wasm", folder / "page"
    wasm.write_bytes(b"\0asm")
    count.same("a page by a link", call(tree.TOP / "scripts/static-page", "--wasm", wasm, page), (0, "", ""))
    return page


def refusals(count, folder, packed):
    """What isn't committed isn't packed, nor what is no program."""
    clone = folder / "clone"
    status, _, faults = call("git", "-c", "advice.detachedHead=false", "clone", "-q", "--shared", tree.TOP, clone)
    count.same("clones", (status, faults), (0, ""))
    (clone / "VERSION").write_text("0.0.1\n")
    status, said, faults = call(clone / "scripts/make-package", "--to", folder / "none", "--program", packed)
    count.told("a change", (status, said, faults.count("\n")) == (1, "", 1) and "VERSION" in faults, said + faults)
    status, said, faults = package(folder / "none", tree.TOP / "ztso")
    count.told("no program", (status, said, faults.count("\n")) == (1, "", 1) and "is no program" in faults, said + faults)
    status, said, faults = package(folder / "none", packed, "--page", folder)
    count.told("no page", (status, said, faults.count("\n")) == (1, "", 1) and "is no page" in faults, said + faults)
    count.same("nothing is made", (folder / "none").exists(), False)


def files(top):
    return [name for name in below(top) if (top / name).is_file()]


def unpacked(count, folder, path):
    """The folder of an archive, unpacked in one where nothing else is."""
    place = folder / f"unpacked-{path.name}"
    place.mkdir()
    count.same(f"unpacks {path.name}", call("tar", "-xf", path, "-C", place), (0, "", ""))
    (top,) = place.iterdir()
    return top


def archive(count, folder, path, packed, page):
    """The archive's commands run where it is unpacked, and it has the files that are installed."""
    top = unpacked(count, folder, path)
    wanted = {file.place: (file.content, 0o100755 if file.executable else 0o100644) for file in tree.files(packed, page)}
    count.told("the archive's files", prefix.contents(top) == wanted, "other files, contents or rights")
    witness(count, "from the archive", top / "bin/ztso", top / "share/ztso", packed)
    alone(count, "the archive's program alone", top.parent, top / "lib/ztso/ztso", top / "share/ztso", packed)


def page_archive(count, folder, path, page):
    """The folder that a web host serves, as it was, and each file that its scripts and sheets name is in it."""
    top = unpacked(count, folder, path)
    wanted = {file.name: file.read_bytes() for file in page.iterdir()}
    count.told("the page's files", {file.name: file.read_bytes() for file in top.iterdir()} == wanted, "other files or contents")
    texts = "\n".join(file.read_text() for file in top.iterdir() if file.suffix in (".html", ".js", ".css"))
    named = set(re.findall(r"""["'/]([\w-]+\.(?:js|json|wasm|css|svg))["']""", texts))
    count.same("files that the page names and hasn't", sorted(named - wanted.keys()), [])


def queue_archive(count, folder, path):
    """It has the files that its README names, as the repository has them, and the README's lines compile beside them."""
    top = unpacked(count, folder, path)
    lines = (top / "README").read_text().split("\n")
    named = [line.split()[0] for line in lines if re.match(r"\S+  +\S", line)]
    count.same("the archive's files", files(top), sorted(["README", *named]))
    for name in named:
        here = tree.TOP / (name if "/" in name else f"examples/bare-metal/{name}")
        count.told(f"the archive's {name}", (top / name).read_bytes() == here.read_bytes(), "other bytes")
    uses = [re.sub(r"^hart \d:", "", line.strip()) for line in lines if line.startswith("    ") and "gcc" not in line]
    code = [line for line in uses if not line.lstrip().startswith(("while", "struct received", "if"))]
    body = [line for line in uses if line not in code]
    (top / "mine.c").write_text("\n".join([*code, "void use(uint32_t);", "void run(uint32_t word);", "void run(uint32_t word) {", *body, "}", ""]))
    flags = ["-march=rv32ima", "-mabi=ilp32", "-ffreestanding", "-std=c11", "-Wall", "-Wextra", "-Werror", "-c", "mine.c", "functions.S"]
    for compiler in (["riscv64-unknown-elf-gcc"], ["clang", "--target=riscv32-unknown-elf"]):
        if count.there(compiler[0], "the queue's functions compiled"):
            count.same(f"{compiler[0]} takes the archive's README", call(*compiler, *flags, folder=top), (0, "", ""))


def source_archive(count, folder, path):
    """The files that git tracks, and no other."""
    top = unpacked(count, folder, path)
    names = call("git", "-C", tree.TOP, "ls-files", "-z")[1].split("\0")[:-1]
    wanted = {name: ((tree.TOP / name).read_bytes(), os.access(tree.TOP / name, os.X_OK)) for name in names}
    came = {name: ((top / name).read_bytes(), os.access(top / name, os.X_OK)) for name in files(top)}
    count.told("the sources", came == wanted, "other files, contents or rights")


def debian(count, folder, path, packed, notice):
    """The package is installed into a root of its own by dpkg, runs there, and is removed with all that it brought."""
    called = "ztso-unproved" if notice else "ztso"
    described = call("dpkg-deb", "--field", path, "Package", "Description")[1]
    good = described.startswith(f"Package: {called}\n") and (notice.removeprefix("ztso: ").strip() in " ".join(described.split()))
    count.told("the package's name and description say what is proved", good and ("is proved to follow" in described) != bool(notice), described)
    root = folder / "root"
    for name in ("var/lib/dpkg/info", "var/lib/dpkg/updates"):
        (root / name).mkdir(parents=True)
    (root / "var/lib/dpkg/status").write_text("")
    # dpkg wants to be root, if only in a namespace of users
    as_root = ["unshare", "--map-root-user"] if os.geteuid() else []
    if as_root and call(*as_root, "true")[0]:
        print("  not tried: the package in a root of its own, since dpkg needs root", flush=True)
    elif count.there("dpkg", "the package in a root of its own"):
        # the C library is no package of that root
        status, said, faults = call(*as_root, "dpkg", f"--root={root}", "--force-depends", "--install", path)
        count.told("dpkg --install", status == 0, said + faults)
        witness(count, "from the package", root / "usr/bin/ztso", root / "usr/share/ztso", packed)
        alone(count, "the package's program alone", root, root / "usr/lib/ztso/ztso", root / "usr/share/ztso", packed)
        prefix.manual(count, root / "usr/share/man", folder)
        status, said, faults = call(*as_root, "dpkg", f"--root={root}", "--purge", called)
        count.told("dpkg --purge", status == 0, said + faults)
        shutil.rmtree(root / "var")
        count.same("nothing is left", below(root), [])
    if count.there("lintian", "lintian"):
        # it compares with Debian's own rules for the licence and the archive's changes, which are no errors
        status, said, faults = call("lintian", "--allow-root", path)
        count.told("lintian", not any(line.startswith("E:") for line in said.split("\n")) and status == 0, said + faults)


def alone(count, name, root, program, share, packed):
    """The program runs where no file is but those of the package and the libraries that it names."""
    as_root = ["unshare", "--map-root-user"] if os.geteuid() else []
    if packed == STAND_IN.resolve() or not (count.there("ldd", name) and count.there("chroot", name)) or as_root and call(*as_root, "true")[0]:
        return
    libraries = [Path(library) for library in re.findall(r"(/\S+) \(0x", call("ldd", program)[1])]
    for library in libraries:
        (root / library.parent.relative_to("/")).mkdir(parents=True, exist_ok=True)
        shutil.copy(library, root / library.relative_to("/"))
    words = [f"/{path.relative_to(root)}" for path in (program, *(share / file for file in SB))]
    status, said, faults = call(*as_root, "chroot", root, words[0], "run", *words[1:])
    count.told(name, status == 0 and said.endswith("\nHolds\n"), said + faults)
    for library in libraries:
        (root / library.relative_to("/")).unlink()
    for folder in sorted({above for library in libraries for above in (root / library.relative_to("/")).parents}, reverse=True):
        if folder != root and folder.is_relative_to(root) and not any(folder.iterdir()):
            folder.rmdir()


def witness(count, name, wrapper, share, packed):
    if packed == STAND_IN.resolve():
        return
    status, said, faults = call(wrapper, "run", *(share / file for file in SB), folder="/")
    count.told(name, status == 0 and said.endswith("\nHolds\n"), said + faults)
