#!/usr/bin/env python3
"""Compare CSV loaders on one machine: wall time, CPU time, peak memory.

    bench.py [--csvload PATH] [--shape made] [--mb 40] [--reps 5] [--only WORD,..] [--threads 4]
    bench.py --scaling [--sizes 4,40,400] [--scale-threads 1,2,4]      tools that have threads alone

What is printed stands, with machine and versions, in results/DATE-NAME.md (--results, --name).
Words cut at commas are lists: shapes, sizes in MB, threads, parts of tools' names.
Inputs are made by make_data.py in --work and kept there. Every repetition runs all
tools once, in an order turned by one each time. MB/s is the file's size by the shortest
wall time (others on the machine only add to it) without the tool's start: libraries in R
and Python time their second call themselves, and from others, as from memory per input
byte, a run on a file of 100 rows is taken off. MB/CPU s is the size by the least CPU time
less the start's: on a busy machine the better measure of one thread. The rest is whole.
Kinds: `typed` detects types and fills columns, `given` is given them, `scan` only
finds the records, `print` writes them out again, `limit` is the hardware's side.
The ratio is MB/s over that of the best peer of kind typed or given; csvload and limits
aren't peers. Peers that aren't installed are left out. Wants /usr/bin/time, and:

    apt-get install sqlite3 miller csvkit csvtool python3-pandas r-cran-data.table
        r-cran-readr gawk postgresql clickhouse-server clickhouse-client librust-csv-dev
"""
import argparse
import collections
import glob
import os
import re
import shutil
import signal
import statistics
import subprocess
import sys
import tempfile
import time

sys.dont_write_bytecode = True
import make_data
import report as reports

HERE = os.path.dirname(os.path.abspath(__file__))
PG = max(glob.glob("/usr/lib/postgresql/*/bin/"), default="")
SCHEMAS = {
    "made": "id:int ok:bool day:date note:text",
    "bad": "id:int ok:bool day:date note:text",
    "text": "id:int author:text body:text tag:text",
    "dates": "id:int d:date t:time ts:stamp ok:bool",
    "wide": " ".join("n%02d:int" % c for c in range(50)),
    "latin": "id:int name:text n:int note:text",
    **dict.fromkeys(["plain", "half", "blank", "quoted", "ragged"], " ".join("n%d:int" % c for c in range(10))),
}
SQL_TYPES = {
    "sqlite": dict(int="INTEGER", bool="TEXT", date="TEXT", time="TEXT", stamp="TEXT", text="TEXT"),
    "postgres": dict(int="bigint", bool="boolean", date="date", time="time", stamp="timestamp", text="text"),
    "clickhouse": dict(int="Int64", bool="Enum8('false'=0,'true'=1)", date="Date", time="String", stamp="String", text="String"),
}
AS_POSTGRES = ["setpriv", "--reuid=postgres", "--regid=postgres", "--clear-groups"]
Tool = collections.namedtuple("Tool", "name kind threads argv stdin most_mb count")
Run = collections.namedtuple("Run", "wall cpu peak rows inside")


def numbers(words):
    return [int(w) for w in words.split(",")]


def columns(shape):
    return [c.split(":") for c in SCHEMAS[shape].split()]


def table(shape, system):
    return ", ".join("%s %s" % (n, SQL_TYPES[system][t]) for n, t in columns(shape))


def run(tool, server=None, limit=900):
    """One run: wall and CPU seconds, peak bytes, and the records and seconds it told itself (None: failed)."""
    notes = os.path.join(tempfile.gettempdir(), "bench.time.%d" % os.getpid())
    before = server.usage() if server else None
    start = time.perf_counter()
    child = subprocess.Popen(["/usr/bin/time", "-q", "-o", notes, "-f", "%M %U %S"] + tool.argv, text=True, start_new_session=True,
                             stdin=subprocess.PIPE if tool.stdin else subprocess.DEVNULL, stderr=subprocess.STDOUT,
                             stdout=subprocess.DEVNULL if tool.count is None else subprocess.PIPE)
    try:
        out, _ = child.communicate(tool.stdin, timeout=limit)
    except subprocess.TimeoutExpired:
        os.killpg(child.pid, signal.SIGKILL)
        child.communicate()
        return None
    wall = time.perf_counter() - start
    peak, user, system = open(notes).read().split()
    os.unlink(notes)
    cpu, peak = float(user) + float(system), int(peak) * 1024
    if server:
        after = server.usage()
        cpu, peak = cpu + after[0] - before[0], peak + after[1]
    found = re.findall(tool.count, out) if tool.count else []
    if child.returncode != 0 or tool.count and not found:
        return None
    inside = re.findall(r"in ([\d.]+)s", out) if tool.count else []
    return Run(wall, cpu, peak, int(found[-1]) if found else None, float(inside[-1]) if inside else None)


class ClickHouse:
    """A server on loopback, kept under `work`, that ends with this program."""
    PORT = 19123

    def __init__(self, work):
        home = os.path.join(work, "clickhouse")
        os.makedirs(home, exist_ok=True)
        config = os.path.join(home, "config.xml")
        with open(config, "w") as f:
            f.write("""<yandex><logger><level>error</level><log>{0}/log</log><errorlog>{0}/err</errorlog></logger>
<tcp_port>{1}</tcp_port><listen_host>127.0.0.1</listen_host><path>{0}/</path><tmp_path>{0}/tmp/</tmp_path>
<mark_cache_size>5368709</mark_cache_size><users_config>{0}/config.xml</users_config><default_profile>default</default_profile>
<default_database>default</default_database><profiles><default/></profiles><quotas><default/></quotas>
<users><default><password></password><networks><ip>127.0.0.1</ip></networks><profile>default</profile><quota>default</quota></default></users></yandex>
""".format(home, self.PORT))
        self.process = subprocess.Popen(["clickhouse-server", "--config-file=" + config], cwd=home,
                                        stdout=subprocess.DEVNULL, stderr=subprocess.DEVNULL)
        for _ in range(100):
            time.sleep(0.1)
            if subprocess.run(self.client("select 1"), capture_output=True).returncode == 0:
                return
        raise SystemExit("clickhouse-server does not answer")

    def client(self, *queries):
        return ["sh", "-c", " && ".join("clickhouse-client --port %d --query \"%s\"" % (self.PORT, q) for q in queries)]

    def usage(self):
        """CPU seconds so far, and the peak since the last call."""
        pid = self.process.pid
        fields = open("/proc/%d/stat" % pid).read().rsplit(")", 1)[1].split()
        peak = int(re.search(r"VmHWM:\s+(\d+)", open("/proc/%d/status" % pid).read())[1]) * 1024
        with open("/proc/%d/clear_refs" % pid, "w") as f:
            f.write("5")
        return (int(fields[11]) + int(fields[12])) / os.sysconf("SC_CLK_TCK"), peak

    def close(self):
        self.process.terminate()
        self.process.wait()


def postgres(work):
    """The words that run the server in single-user mode, which takes SQL line by line from its input."""
    home = os.path.join(work, "postgres")
    if not os.path.exists(home):
        os.makedirs(home)
        shutil.chown(home, "postgres", "postgres")
        subprocess.run(AS_POSTGRES + [PG + "initdb", "-D", home, "-N", "--locale=C.UTF-8"], check=True, capture_output=True, cwd=tempfile.gettempdir())
    return AS_POSTGRES + [PG + "postgres", "--single", "-F", "-D", home, "-c", "shared_buffers=1GB", "-c", "max_wal_size=4GB", "postgres"]


def tools(file, start, shape, threads, args):
    """All tools for one file, those that are missing left out."""
    in_r = "f<-function(p)%%s;f('%s');s<-system.time(d<-f('%s'))[[3]];cat('in ',s,'s rows=',nrow(d),sep='')" % (start, file)
    in_python = "import pandas,time;f=lambda p:%%s;f('%s');t=time.time();d=f('%s');print('in %%%%fs rows=%%%%d'%%%%(time.time()-t,len(d)))" % (start, file)
    dated = [n for n, t in columns(shape) if t in ("date", "stamp")]
    faulty, made = shape == "bad", []

    def add(name, kind, argv, count=r"(\d+)", threads=1, stdin=None, most_mb=1000):
        if shutil.which(argv[0]) and args.wanted(name):
            made.append(Tool(name, kind, threads, argv, stdin, most_mb, count))

    for n in threads:
        words = ["threads=%d" % n] + ["types=BIGINT,BOOLEAN,DATE,VARCHAR", "store_rejects=true"] * faulty
        if args.before:
            add("before summary", "ours", [args.before, "summary", file] + words, r"(?m)^rows\|(\d+)$", n)
        if args.csvload:
            add("csvload summary", "ours", [args.csvload, "summary", file] + words, r"(?m)^rows\|(\d+)$", n)
            add("csvload load", "ours-print", [args.csvload, "load", file] + words, None, n)
        for package, name, call in (
                ("data.table", "data.table fread", "data.table::fread(p,nThread=%%d,showProgress=F%s)" % (",fill=T" * faulty)),
                ("vroom", "vroom", "vroom::vroom(p,delim=',',altrep=F,num_threads=%d,progress=F,show_col_types=F)"),
                ("readr", "readr", "readr::read_csv(p,lazy=F,num_threads=%d,progress=F,show_col_types=F)")):
            if os.path.exists("/usr/lib/R/site-library/" + package):
                add(name, "typed", ["Rscript", "-e", in_r % (call % n)], r"rows=(\d+)", n)
    python = "/usr/bin/python3"     # Debian's, which has pandas
    if os.path.exists("/usr/lib/python3/dist-packages/pandas"):
        add("pandas C", "typed", [python, "-c", in_python % ("pandas.read_csv(p,parse_dates=%r%s)" % (dated, ",on_bad_lines='skip'" * faulty))], r"rows=(\d+)")
    add("python csv", "scan", [python, "-c", "import csv;print(sum(1 for _ in csv.reader(open('%s',newline='')))-1)" % file])
    makers = dict(int="int", bool="'true'.__eq__", date="datetime.date.fromisoformat", time="datetime.time.fromisoformat",
                  stamp="datetime.datetime.fromisoformat", text="str")
    if not faulty:
        add("python csv + casts", "given", [python, "-c", "import csv,datetime;r=csv.reader(open('%s',newline=''));next(r);k=[%s]\n"
            "c=[[f(v) for f,v in zip(k,row)] for row in r];print(len(c))" % (file, ",".join(makers[t] for _, t in columns(shape)))], most_mb=100)
        add("sqlite3 .import", "given", ["sqlite3", ":memory:", "create table t(%s)" % table(shape, "sqlite"),
            ".import --csv --skip 1 %s t" % file, "select count(*) from t"])
        if args.postgres:
            create = "CREATE UNLOGGED TABLE t (%s)\n" % table(shape, "postgres")
            add("postgres COPY", "given", args.postgres, r'count = "(\d+)"', stdin=create +
                "COPY t FROM '%s' WITH (FORMAT csv, HEADER)\nSELECT count(*) FROM t\nDROP TABLE t\n" % file)
        if args.clickhouse:
            add("clickhouse insert", "given", args.clickhouse.client("drop table if exists t", "create table t (%s) engine=Memory" % table(shape, "clickhouse"),
                "insert into t format CSVWithNames\" < \"" + file, "select count() from t"))
    add("rust csv + casts", "typed", [args.rust, "typed", file], most_mb=0 if faulty else 1000)
    add("rust csv", "scan", [args.rust, "count", file], most_mb=0 if faulty else 1000)
    add("miller count", "scan", ["mlr", "--icsv", "--ojson", "--allow-ragged-csv-input", "count", file])
    add("miller field types", "typed", ["mlr", "--icsv", "--ojson", "--allow-ragged-csv-input", "summary", "-a", "field_type,mean", file], None, most_mb=100)
    add("miller print", "print", ["mlr", "--icsv", "--otsv", "--allow-ragged-csv-input", "cat", file], None)
    add("csvkit csvstat", "typed", ["csvstat", file], r"Row count: (\d+)", most_mb=4)
    add("csvkit csvformat", "print", ["csvformat", "-T", file], None)
    add("csvtool height", "scan", ["csvtool", "height", file])
    add("gawk -F, (lines)", "scan", ["gawk", "-F,", "{n+=NF} END{print NR-1}", file])
    for words in ("wc -l", "cat"):
        add(words, "limit", words.split() + [file], None)
    for what in ("read", "memcpy", "lf", "quotes", "masks"):
        add("rust " + what, "limit", [args.rust, what, file])      # the last three: scans of bytes in memory
    return made


def data(shape, mb, work):
    """The file of that shape and size, made where it isn't there, and its number of records."""
    file = os.path.join(work, "%s.%s" % (shape, mb or "start"))
    if not os.path.exists(file + ".rows"):
        make_data.write(shape, file, None if mb else 100, mb * 1000000 or None)
    subprocess.run(["cat", file], stdout=subprocess.DEVNULL)      # into the page cache
    return file, int(open(file + ".rows").read())


def measure(shape, mb, threads, args):
    """Run all tools interleaved; a list of (tool, median run, spread, MB/s, peak per byte, MB/CPU s), and the file's records."""
    file, records = data(shape, mb, args.work)
    start, _ = data(shape, 0, args.work)
    size = os.path.getsize(file)
    every = [t for t in tools(file, start, shape, threads, args) if mb <= t.most_mb]
    server = lambda t: args.clickhouse if "clickhouse" in t.name else None
    begun = {}
    for t in tools(start, start, shape, threads, args):
        begun[t.name, t.threads] = min(filter(None, [run(t, server(t)) for _ in range(3)]), default=None)
    runs = collections.defaultdict(list)
    for i in range(args.reps):
        for t in every[i % len(every):] + every[:i % len(every)]:
            if all(r and r.wall < 60 for r in runs[t.name, t.threads]):
                runs[t.name, t.threads].append(run(t, server(t)))
    rows = []
    for t in every:
        good = [r for r in runs[t.name, t.threads] if r]
        first = begun[t.name, t.threads]
        if not (good and first):
            rows.append((t, None, 0, 0, 0, 0))
            continue
        walls = [r.wall for r in good]
        middle = Run(statistics.median(walls), min(r.cpu for r in good), max(r.peak for r in good), good[-1].rows, None)
        net = min(r.inside or max(r.wall - first.wall, 0.001) for r in good)
        rows.append((t, middle, (max(walls) - min(walls)) / middle.wall, size / net / 1e6, (middle.peak - first.peak) / size,
                     size / max(middle.cpu - first.cpu, 0.01) / 1e6))
    return rows, records, size


def show(shape, mb, threads, args, report):
    rows, records, size = measure(shape, mb, threads, args)
    best = max((r[3] for r in rows if r[1] and r[0].kind in ("typed", "given") and r[1].rows in (records, None)), default=1)
    report.say("", "### %s, %d bytes, %d records, %d repetitions" % (shape, size, records, args.reps), "",
               "| tool | kind | threads | median s | spread | CPU s | MB/CPU s | MB/s | of best peer | peak MB | peak/byte | records |",
               "|---|---|--:|--:|--:|--:|--:|--:|--:|--:|--:|---|")
    for t, m, spread, speed, memory, per_cpu in sorted(rows, key=lambda r: -r[3]):
        if m is None:
            report.say("| %s | %s | %d | failed | | | | | | | | |" % (t.name, t.kind, t.threads))
            continue
        report.ran(t.name, spread)
        told = "not told" if m.rows is None or t.kind == "limit" else "right" if m.rows == records else "%+d" % (m.rows - records)
        report.say("| %s | %s | %d | %.2f | %.0f%% | %.2f | %.0f | %.0f | %.2f | %.0f | %.1f | %s |" % (
            t.name, t.kind, t.threads, m.wall, spread * 100, m.cpu, per_cpu, speed, speed / best, m.peak / 1e6, memory, told))


def scaling(args, report):
    sizes, threads = numbers(args.sizes), numbers(args.scale_threads)
    found = {}
    for mb in sizes:
        rows, records, _ = measure(args.shape, mb, threads, args)
        for t, m, spread, speed, memory, _ in rows:
            if any(w in t.name for w in ("csvload", "fread", "vroom", "readr", "rust csv")):
                if m:
                    report.ran(t.name, spread)
                mark = "" if m and m.rows in (records, None) else " wrong"
                found[t.name, t.threads, mb] = "%.0f (%.1f)%s" % (speed, memory, mark) if m else "failed"
    report.say("", "### %s: MB/s (peak bytes per input byte)" % args.shape, "",
               "| tool | threads | %s |" % " | ".join("%d MB" % mb for mb in sizes), "|---|--:|%s" % ("--:|" * len(sizes)))
    for name, n in sorted({k[:2] for k in found}):
        report.say("| %s | %d | %s |" % (name, n, " | ".join(found.get((name, n, mb), "") for mb in sizes)))


def main():
    p = argparse.ArgumentParser(description=__doc__, formatter_class=argparse.RawDescriptionHelpFormatter)
    p.add_argument("--csvload", help="our program")
    p.add_argument("--before", help="an earlier build of it, measured in the same run")
    p.add_argument("--reps", type=int, default=5)
    p.add_argument("--only", help="tools whose name has one of these words")
    p.add_argument("--scaling", action="store_true")
    p.add_argument("--name", help="of the result, by default the shapes")
    p.add_argument("--results", default=os.path.join(HERE, "results"), help="the folder into which the result is written")
    for name, value in (("shape", "made"), ("mb", "40"), ("threads", "1,4"), ("sizes", "4,40,400"), ("scale-threads", "1,2,4"),
                        ("work", os.path.join(tempfile.gettempdir(), "csvbench")), ("rust", os.path.join(tempfile.gettempdir(), "csvbench/rust/release/rustcsv"))):
        p.add_argument("--" + name, default=value)
    args = p.parse_args()
    for program in filter(None, (args.csvload, args.before)):
        if not shutil.which(program):
            p.error("no program " + program)
    signal.signal(signal.SIGTERM, lambda *_: exit(1))       # so that the server is stopped
    os.makedirs(args.work, exist_ok=True)
    if shutil.which("cargo") and os.path.exists("/usr/share/cargo/registry") and not os.path.exists(args.rust):
        subprocess.run(["cargo", "build", "-q", "--release", "--offline", "--target-dir", os.path.dirname(os.path.dirname(args.rust))], cwd=HERE + "/peer-rust")
    args.wanted = lambda name: not args.only or any(w in name for w in args.only.split(","))
    args.postgres = postgres(args.work) if os.path.exists(PG) and os.getuid() == 0 and args.wanted("postgres COPY") else None
    args.clickhouse = ClickHouse(args.work) if shutil.which("clickhouse-server") and args.wanted("clickhouse insert") else None
    report = reports.Report(sys.argv[1:])
    try:
        if args.scaling:
            scaling(args, report)
        else:
            for shape in args.shape.split(","):
                for mb in numbers(args.mb):
                    show(shape, mb, numbers(args.threads), args, report)
        name = args.name or "scaling-" * args.scaling + args.shape.replace(",", "-")
        programs = [(n, p) for n, p in (("csvload", args.csvload), ("before", args.before)) if p]
        print("\n" + report.write(args.results, name, programs))
    finally:
        if args.clickhouse:
            args.clickhouse.close()


if __name__ == "__main__":
    main()
