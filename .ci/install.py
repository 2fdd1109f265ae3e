#!/usr/bin/env python3
"""Runs install.sh over a tree of its own, in which a stub stands for rt and nothing is proved: where the files go, and what a copy
that fails leaves. As root too a disk counts as full where a file may have no more bytes than a limit.
"""

import os
import pathlib
import resource
import shutil
import subprocess
import sys
import tempfile

TOP = pathlib.Path(__file__).parent.parent
COPIED = {
    "bin/csvload": 0o755,
    "bin/csvload-postgres": 0o755,
    "bin/csvload-many": 0o755,
    "share/man/man1/csvload.1": 0o644,
    "share/doc/csvload/FORMAT.md": 0o644,
    "share/bash-completion/completions/csvload": 0o644,
    "share/zsh/site-functions/_csvload": 0o644,
}
# In the order of the files that are copied; in place of the first one the program is made.
SOURCES = (
    "install.sh",
    "examples/postgres.sh",
    "examples/many.sh",
    "docs/csvload.1",
    "docs/FORMAT.md",
    "completions/csvload.bash",
    "completions/_csvload",
)
PROVES = "#!/bin/sh\nmkdir -p out && echo new >out/csvload\n"
PROVES_NOT = "#!/bin/sh\nexit 1\n"
# More than each of the files, but for the one that shall not fit.
LIMIT = 1 << 20


def tree(made: pathlib.Path) -> None:
    """What install.sh reads, and the stub."""
    for name in SOURCES:
        (made / name).parent.mkdir(exist_ok=True)
        shutil.copy(TOP / name, made / name)
    (made / "crates" / "csvload").mkdir(parents=True)
    (made / "tools").mkdir()
    stub(made, PROVES)


def stub(made: pathlib.Path, text: str) -> None:
    (made / "tools" / "rt").write_text(text)
    (made / "tools" / "rt").chmod(0o755)


def install(made: pathlib.Path, prefix: str, stand: pathlib.Path) -> int:
    environment = dict(os.environ, PATH=f"{made}/tools:{os.environ['PATH']}", PREFIX=prefix)
    limit = lambda: resource.setrlimit(resource.RLIMIT_FSIZE, (LIMIT, LIMIT))
    return subprocess.run([made / "install.sh"], cwd=stand, env=environment, preexec_fn=limit, capture_output=True, timeout=60).returncode


def files(folder: pathlib.Path) -> dict[str, bytes]:
    return {str(path.relative_to(folder)): path.read_bytes() for path in folder.rglob("*") if path.is_file()}


def main() -> None:
    with tempfile.TemporaryDirectory() as folder:
        made, stand = pathlib.Path(folder, "tree"), pathlib.Path(folder, "a place")
        made.mkdir()
        stand.mkdir()
        tree(made)
        new = {
            name: b"new\n" if name == "bin/csvload" else (made / source).read_bytes()
            for name, source in zip(COPIED, (None, *SOURCES[1:]))
        }
        into = stand / "relative"
        assert install(made, "relative", stand) == 0
        assert files(into) == new and list(stand.iterdir()) == [into], files(stand)
        modes = {name: (into / name).stat().st_mode & 0o777 for name in COPIED}
        assert modes == COPIED, modes

        # The last file doesn't fit; then its folder can't be made; then nothing is proved.
        old = {name: b"old" for name in COPIED}
        for name in old:
            (into / name).write_bytes(b"old")
        last = made / SOURCES[-1]
        last.write_bytes(b"#" * (LIMIT + 1))
        assert install(made, str(into), stand) != 0 and files(into) == old, files(into).keys()
        last.write_bytes(new["share/zsh/site-functions/_csvload"])
        shutil.rmtree(into / "share" / "zsh")
        (into / "share" / "zsh").write_bytes(b"in its place")
        there = files(into)
        assert install(made, str(into), stand) != 0 and files(into) == there, files(into).keys()
        (into / "share" / "zsh").unlink()
        there = files(into)
        stub(made, PROVES_NOT)
        assert install(made, str(into), stand) != 0 and files(into) == there, files(into).keys()
        stub(made, PROVES)
        assert install(made, str(into), stand) == 0 and files(into) == new
    print(f"{sys.argv[0]}: {len(COPIED)} files where they belong, and none of them where a copy fails")


if __name__ == "__main__":
    main()
