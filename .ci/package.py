#!/usr/bin/env python3
"""Makes the packages by package.sh in trees of their own, and uses what they have.

They are made twice, of two clones of one commit: the bytes are the same, and the files those that are listed here. The program of
each does what README.md and the man page show, and install.sh puts the tar's files into a folder. CSVLOAD names the program; a
stub stands for rt. What the machine hasn't the tools for is passed over by a line that says so.
"""

import hashlib
import io
import os
import pathlib
import re
import shutil
import subprocess
import sys
import tarfile
import tempfile

TOP = pathlib.Path(__file__).parent.parent
NEEDED = ("bash", "git", "gzip", "strip", "tar")
SOURCES = (".gitignore", "CHANGELOG.md", "LICENSE", "completions", "docs", "examples", "install.sh", "package.sh", "python")
EPOCH = 1_700_000_000
LIMIT = 300
GATE = "34 passed, 0 failed"
KIT = "rattle-kit-0 logic 0"
RT = f"""#!/bin/sh
if [ "$1" = version ]; then echo '{KIT}'; else mkdir -p out && cp "$CSVLOAD" out/csvload; fi
"""

PROGRAMS = {"bin/csvload", "bin/csvload-many", "bin/csvload-postgres"}
SHARED = {
    "share/bash-completion/completions/csvload",
    "share/doc/csvload/FORMAT.md",
    "share/doc/csvload/PROMISES.md",
    "share/doc/csvload/PROVED",
    "share/doc/csvload/changelog.gz",
    "share/doc/csvload/copyright",
    "share/doc/csvload/examples/README.md",
    "share/doc/csvload/examples/csvload.R",
    "share/doc/csvload/examples/many.sh",
    "share/doc/csvload/examples/notes.csv",
    "share/doc/csvload/examples/orders.csv",
    "share/doc/csvload/examples/postgres.sh",
    "share/doc/csvload/examples/scores.csv",
    "share/man/man1/csvload.1.gz",
}
MODULES = {f"csvload/{name}.py" for name in ("__init__", "arrays", "dask", "finding", "frames", "reading", "running", "splitting")} | {"csvload/py.typed"}
BELOW_PREFIX = PROGRAMS | SHARED | {"share/zsh/site-functions/_csvload"}
IN_TAR = BELOW_PREFIX | {"install.sh", "python/backend.py", "python/pyproject.toml"} | {f"python/{name}" for name in MODULES}
IN_DEB = PROGRAMS | SHARED | {"share/zsh/vendor-completions/_csvload"} | {f"lib/python3/dist-packages/{name}" for name in MODULES}


def same(got: object, wanted: object) -> None:
    assert got == wanted, f"{got!r}, not {wanted!r}"


def run(command: list, folder: pathlib.Path, environment: dict[str, str]) -> tuple[int, str]:
    """The status, and what was said on both streams."""
    done = subprocess.run(command, cwd=folder, env=environment, stdout=subprocess.PIPE, stderr=subprocess.STDOUT, timeout=LIMIT)
    return done.returncode, done.stdout.decode()


def git(folder: pathlib.Path, *words: object) -> str:
    """What git says, whatever its user has set."""
    at = f"{EPOCH} +0000"
    alone = dict(os.environ, GIT_CONFIG_GLOBAL="/dev/null", GIT_CONFIG_SYSTEM="/dev/null")
    for who in ("AUTHOR", "COMMITTER"):
        alone |= {f"GIT_{who}_NAME": "A B", f"GIT_{who}_EMAIL": "a@b.org", f"GIT_{who}_DATE": at}
    return subprocess.run(["git", *map(str, words)], cwd=folder, env=alone, check=True, capture_output=True, text=True).stdout


def gather_tools(folder: pathlib.Path) -> None:
    """All programs of this PATH but csvload in one folder; beside it one for dpkg-deb, and one for the stub for rt."""
    for name in ("others", "dpkg-deb", "rt"):
        (folder / name).mkdir()
    for place in os.environ["PATH"].split(":"):
        for program in pathlib.Path(place).glob("*") if place else ():
            link = folder / ("dpkg-deb" if program.name == "dpkg-deb" else "others") / program.name
            if program.name not in ("rt", "csvload") and not os.path.lexists(link):
                link.symlink_to(program)
    (folder / "rt" / "rt").write_text(RT)
    (folder / "rt" / "rt").chmod(0o755)


def only(folder: pathlib.Path, *names: str) -> dict[str, str]:
    """An environment that has the programs of these folders alone."""
    return dict(os.environ, PATH=":".join(str(folder / name) for name in names))


def commit_sources(tree: pathlib.Path) -> None:
    """A checkout of what package.sh reads, as it stands here."""
    for name in git(TOP, "ls-files", *SOURCES).splitlines():
        (tree / name).parent.mkdir(parents=True, exist_ok=True)
        shutil.copy(TOP / name, tree / name)
    git(tree, "init", "-q")
    git(tree, "add", "-A")
    git(tree, "commit", "-q", "-m", "all")


def put_program(tree: pathlib.Path) -> pathlib.Path:
    """The program where package.sh looks for it, and the text of a gate's run."""
    (tree / "crates" / "csvload" / "out").mkdir(parents=True)
    shutil.copy(os.environ["CSVLOAD"], tree / "crates" / "csvload" / "out" / "csvload")
    (tree / "out").mkdir()
    (tree / "out" / "gate").write_text(f"some crate\n{GATE}\nand more\n")
    return tree


def made(tree: pathlib.Path) -> dict[str, str]:
    """The packages of a tree with their checksums."""
    return {path.name: hashlib.sha256(path.read_bytes()).hexdigest() for path in (tree / "out").glob("csvload*")}


def check_members(archive: tarfile.TarFile, top: str, listed: set[str]) -> None:
    """The files are those that are listed, all of root and of the commit's time, and what is to be run can be."""
    members = archive.getmembers()
    same({it.name.removeprefix(top) for it in members if not it.isdir()}, listed)
    for it in members:
        scripts = it.name.endswith(".sh") or "/bin/" in it.name
        assert it.mode == (0o755 if scripts or it.isdir() else 0o644), (it.name, oct(it.mode))
        assert (it.uid, it.gid, it.mtime) == (0, 0, EPOCH), (it.name, it.uid, it.gid, it.mtime)


def check_proved(documents: pathlib.Path, commit: str, program: str) -> None:
    same((documents / "PROVED").read_text(), f"commit: {commit}\ntoolchain: {KIT}\nprogram: {program}\ngate: {GATE}\n")


def check_transcript(folder: pathlib.Path, environment: dict[str, str]) -> int:
    """Each command of README.md's first block says what stands there."""
    block = (TOP / "README.md").read_text().split("```\n")[1]
    steps = re.findall(r"^\$ (.*)\n((?:(?!\$ ).*\n)*)", block, re.M)
    for command, text in steps:
        if command.startswith("sqlite3 ") and not shutil.which("sqlite3"):
            print(f"{sys.argv[0]}: a command of README.md passed over, no sqlite3")
            continue
        same((command, run(["bash", "-c", command], folder, environment)[1]), (command, text))
    return len(steps)


def check_manual(manual: str, folder: pathlib.Path, environment: dict[str, str]) -> int:
    """Each command among the man page's examples ends well; the files that they name are made."""
    shown = re.sub(r"\\(.)", r"\1", manual.split(".SH EXAMPLES\n.nf\n")[1].split(".fi\n")[0])
    commands = shown.splitlines()
    for name in re.findall(r"[\w-]+\.(?:csv|txt)", shown):
        if not (folder / name).exists():
            shutil.copy(folder / "orders.csv", folder / name)
    for command in commands:
        status, said = run(["bash", "-c", command], folder, environment)
        assert status == 0, (command, status, said)
    return len(commands)


def use(top: pathlib.Path, modules: pathlib.Path, environment: dict[str, str]) -> int:
    """Works with an unpacked tree as its documents say; how many commands that were."""
    environment = dict(environment, PATH=f"{top}/bin:{environment['PATH']}", PYTHONPATH=str(modules), PYTHONDONTWRITEBYTECODE="1")
    documents = top / "share" / "doc" / "csvload"
    same(run(["csvload", "version"], top, environment), run([os.environ["CSVLOAD"], "version"], top, environment))
    packed = subprocess.run(["gzip", "-dc", top / "share/man/man1/csvload.1.gz"], check=True, capture_output=True).stdout
    same(packed, (TOP / "docs" / "csvload.1").read_bytes())
    with tempfile.TemporaryDirectory() as name:
        folder = pathlib.Path(name, "examples")
        shutil.copytree(documents / "examples", folder)
        environment.pop("CSVLOAD")
        ask = "import csvload; print(*csvload.read('orders.csv').columns['quantity'])"
        same(run([sys.executable, "-c", ask], folder, environment), (0, "2 12 1 40\n"))
        same(run(["csvload-many"], folder, environment)[0], 2)
        same(run(["csvload-postgres"], folder, environment)[0], 1)
        return check_transcript(folder, environment) + check_manual(packed.decode(), folder, environment)


def check_tar(path: pathlib.Path, folder: pathlib.Path) -> int:
    top = path.name.removesuffix("-linux-amd64.tar.gz")
    with tarfile.open(path) as archive:
        check_members(archive, f"{top}/", IN_TAR)
        archive.extractall(folder)
    environment = only(folder, "others")
    status, said = run([folder / top / "install.sh"], folder, dict(environment, PREFIX="a prefix"))
    into = folder / "a prefix"
    beside = f"install.sh: '{into}/bin' isn't in PATH: export PATH=\"{into}/bin:$PATH\""
    same((status, set(said.splitlines())), (0, {beside, *(str(into / name) for name in BELOW_PREFIX)}))
    same({str(it.relative_to(into)) for it in into.rglob("*") if it.is_file()}, BELOW_PREFIX)
    for name in BELOW_PREFIX:
        assert (into / name).read_bytes() == (folder / top / name).read_bytes(), name
    commands = use(into, folder / top / "python", environment)
    check_pip(folder / top / "python", folder, environment)
    return commands


def check_pip(sources: pathlib.Path, folder: pathlib.Path, environment: dict[str, str]) -> None:
    """pip installs the module, and fetches nothing for it; its version is the program's."""
    if run([sys.executable, "-m", "venv", folder / "venv"], folder, environment)[0]:
        print(f"{sys.argv[0]}: pip passed over, no venv")
        return
    programs = folder / "venv" / "bin"
    status, said = run([programs / "pip", "install", "--no-index", sources], folder, environment)
    assert status == 0, said
    ask = "import csvload, importlib.metadata as of; print('csvload', of.version('csvload'))"
    same(run([programs / "python", "-c", ask], folder, environment), run([os.environ["CSVLOAD"], "version"], folder, environment))


def check_deb(path: pathlib.Path, folder: pathlib.Path) -> int:
    files = subprocess.run(["dpkg-deb", "--fsys-tarfile", path], check=True, capture_output=True).stdout
    with tarfile.open(fileobj=io.BytesIO(files)) as archive:
        check_members(archive, "./usr/", IN_DEB)
    subprocess.run(["dpkg-deb", "-x", path, folder], check=True)
    fields = run(["dpkg-deb", "-f", path, "Version", "Architecture", "Depends"], folder, dict(os.environ))[1]
    wanted = rf"Version: {re.escape(path.name.split('_')[1])}\nArchitecture: amd64\nDepends: libc6 \(>= 2\.\d+\)\n"
    assert re.fullmatch(wanted, fields), fields
    if shutil.which("lintian"):
        status, said = run(["lintian", "--fail-on", "error", path], folder, dict(os.environ))
        assert status == 0, said
    else:
        print(f"{sys.argv[0]}: the package's form passed over, no lintian")
    return use(folder / "usr", folder / "usr/lib/python3/dist-packages", dict(os.environ))


def check_proved_alone(tree: pathlib.Path, folder: pathlib.Path, commit: str) -> None:
    """Without --built the program is made first; without dpkg-deb there is the tar alone, and without rt nothing, which is said."""
    for path in (*(tree / "out").glob("csvload*"), tree / "crates" / "csvload" / "out" / "csvload"):
        path.unlink()
    status, said = run(["./package.sh", "out/gate"], tree, only(folder, "rt", "others"))
    (tar,) = made(tree)
    same((status, said), (1, f"out/{tar}\npackage.sh: no program 'dpkg-deb': only the tar is made\n"))
    with tarfile.open(tree / "out" / tar) as archive:
        archive.extractall(folder / "proved")
    (top,) = (folder / "proved").iterdir()
    check_proved(top / "share/doc/csvload", commit, "proved and built by rt run")
    lack = "no program 'rt'"
    same(run(["./package.sh"], tree, only(folder, "others")), (1, f"package.sh: {lack}\n"))
    beside = "which is Rattle's toolchain; a package needs none"
    same(run(["./install.sh"], tree, only(folder, "others")), (1, f"install.sh: {lack}, {beside}\n"))


def check_refusals(tree: pathlib.Path, environment: dict[str, str]) -> None:
    """Of a gate that failed and of a checkout with changes nothing is made."""
    before = made(tree)
    (tree / "out" / "failed").write_text("33 passed, 1 failed\n")
    line = "no line 'N passed, 0 failed' in 'out/failed'"
    same(run(["./package.sh", "out/failed"], tree, environment), (1, f"package.sh: {line}\n"))
    for words in (["--help"], ["out/gate", "--built"], ["--built", "out/gate", "more"], [""]):
        status, said = run(["./package.sh", *words], tree, environment)
        same((status, said.split()[:2]), (1, ["package.sh", "[GATE]"]))
    (tree / "docs" / "new").write_text("")
    line = "the checkout has changes that aren't committed"
    same(run(["./package.sh", "--built"], tree, environment), (1, f"package.sh: {line}\n"))
    same(made(tree), before)


def main() -> None:
    missing = [name for name in NEEDED if not shutil.which(name)] + ([] if (TOP / ".git").exists() else ["checkout"])
    if missing:
        print(f"{sys.argv[0]}: passed over, no {', no '.join(missing)}")
        return
    with tempfile.TemporaryDirectory() as name:
        folder = pathlib.Path(name)
        gather_tools(folder)
        environment = only(folder, "rt", "dpkg-deb", "others")
        one, two = folder / "one", folder / "another one"
        one.mkdir()
        commit_sources(one)
        git(folder, "clone", "-q", one, two)
        commit = git(one, "rev-parse", "HEAD").strip()
        has_deb = shutil.which("dpkg-deb") is not None
        for tree, zone, mask in ((one, "UTC", 0o022), (two, "Asia/Tokyo", 0o077)):
            old = os.umask(mask)
            put_program(tree)
            status, said = run(["./package.sh", "--built", "out/gate"], tree, dict(environment, TZ=zone))
            os.umask(old)
            assert (status == 0) is has_deb, (status, said)
        same(made(one), made(two))
        same(len(made(one)), 1 + has_deb)

        commands = check_tar(next((one / "out").glob("*.tar.gz")), folder)
        check_proved(folder / "a prefix" / "share/doc/csvload", commit, "as it stood in crates/csvload/out")
        if has_deb:
            (folder / "deb").mkdir()
            commands += check_deb(next((one / "out").glob("*.deb")), folder / "deb")
        else:
            print(f"{sys.argv[0]}: the .deb passed over, no dpkg-deb")
        check_proved_alone(two, folder, commit)
        check_refusals(two, environment)
    what = "tar and .deb" if has_deb else "tar"
    print(f"{sys.argv[0]}: {what} made twice with the same bytes, and {commands} commands of the documents run from them")


if __name__ == "__main__":
    main()
