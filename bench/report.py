"""The file of a run of bench.py: on which machine and with which versions it was made, and all that it printed."""
import hashlib
import os
import re
import shutil
import subprocess
import time

HERE = os.path.dirname(os.path.abspath(__file__))
R = ["Rscript", "-e", "cat(R.version.string, '; the package', as.character(packageVersion('%s')))"]
VERSIONS = {        # by the beginning of a tool's name: what tells its version
    "rust ": ["rustc", "--version"],
    "data.table": R[:2] + [R[2] % "data.table"],
    "vroom": R[:2] + [R[2] % "vroom"],
    "readr": R[:2] + [R[2] % "readr"],
    "pandas": ["/usr/bin/python3", "-c", "import pandas, sys; print('Python', sys.version.split()[0] + '; pandas', pandas.__version__)"],
    "python csv": ["/usr/bin/python3", "--version"],
    "sqlite3": ["sqlite3", "--version"],
    "postgres": ["psql", "--version"],
    "clickhouse": ["clickhouse-client", "--version"],
    "miller": ["mlr", "--version"],
    "csvkit": ["csvstat", "--version"],
    "csvtool": ["dpkg-query", "-W", "-f", "${Version}", "csvtool"],
    "gawk": ["gawk", "--version"],
}


def told(argv):
    """The first line that a command prints, or an empty text where it can't be run."""
    try:
        return subprocess.run(argv, capture_output=True, text=True, timeout=60).stdout.split("\n")[0].strip()
    except (OSError, subprocess.TimeoutExpired):
        return ""


def found(pattern, file):
    """What the pattern's group first finds in a file, or an empty text."""
    try:
        match = re.search(pattern, open(file).read())
    except OSError:
        return ""
    return match[1] if match else ""


def machine():
    memory = int(found(r"MemTotal:\s+(\d+)", "/proc/meminfo") or 0) / 1e6
    kind = "virtual, " if found(r"(?m)^flags.*\b(hypervisor)\b", "/proc/cpuinfo") else ""
    return "%s, %s%d processors, %.0f GB; %s %s, %s" % (
        found(r"model name\s*: (.*)", "/proc/cpuinfo") or os.uname().machine, kind, os.cpu_count(), memory,
        os.uname().sysname, os.uname().release.split("-")[0], found(r'PRETTY_NAME="(.*)"', "/etc/os-release"))


def checkout():
    changed = told(["git", "-C", HERE, "status", "--porcelain", "--", "../crates", "../crates.txt"])
    return "%s%s" % (told(["git", "-C", HERE, "rev-parse", "--short", "HEAD"]), ", with changes in crates" if changed else "")


def program(path):
    with open(shutil.which(path), "rb") as file:
        return "%s, SHA-256 %s" % (told([path, "version"]), hashlib.sha256(file.read()).hexdigest()[:16])


def version(tool):
    line = next((told(argv) for start, argv in VERSIONS.items() if tool.startswith(start)), "")
    crate = found(r'name = "csv"\nversion = "(.*)"', HERE + "/peer-rust/Cargo.lock") if tool.startswith("rust ") else ""
    return "%s; the crate csv %s" % (line, crate) if crate else line


class Report:
    """What a run has printed so far. A run that is broken off leaves no file."""

    def __init__(self, words):
        # A program's folder tells nothing to a reader on another machine.
        self.words = " ".join(["bench.py"] + [os.path.basename(w) if os.path.isabs(w) else w for w in words])
        self.begun, self.load = time.gmtime(), os.getloadavg()[0]
        self.lines, self.spreads, self.tools = [], [], []

    def say(self, *lines):
        print(*lines, sep="\n", flush=True)
        self.lines += lines

    def ran(self, tool, spread):
        self.spreads.append(spread)
        self.tools.append(tool)

    def facts(self, programs):
        yield "run", "%s to %s UTC" % (time.strftime("%Y-%m-%d, %H:%M", self.begun), time.strftime("%H:%M", time.gmtime()))
        yield "words", "`%s`" % self.words
        yield "machine", machine()
        yield "load average of a minute", "%.1f before the run, %.1f at its end" % (self.load, os.getloadavg()[0])
        yield "checkout", checkout()
        for name, path in programs:
            yield name, program(path)
        versions = {}
        for tool in self.tools:
            versions.setdefault(version(tool), tool)
        for line, tool in versions.items():
            if line:
                yield tool, line
        if self.spreads:
            yield "spread", "%.0f to %.0f %% of a tool's median wall time" % (min(self.spreads) * 100, max(self.spreads) * 100)

    def write(self, folder, name, programs):
        """Write FOLDER/DATE-NAME.md, with a number behind a name that is taken, and return its path."""
        os.makedirs(folder, exist_ok=True)
        start = os.path.join(folder, time.strftime("%Y-%m-%d-", self.begun) + name)
        path, number = start + ".md", 2
        while os.path.exists(path):
            path, number = "%s-%d.md" % (start, number), number + 1
        with open(path, "w") as file:
            file.write("# %s, %s\n\n| | |\n|---|---|\n" % (name, time.strftime("%Y-%m-%d", self.begun)))
            file.writelines("| %s | %s |\n" % fact for fact in self.facts(programs))
            file.writelines(line + "\n" for line in self.lines)
        return path
