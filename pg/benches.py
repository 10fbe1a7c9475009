#!/usr/bin/env python3
"""Sidecars at their benches, with what may befall them: run by pg/test, against its private cluster and nothing else.

A yes is judged by its clause: it tells an age, and whatever was committed before the asking less that age must not get one.
Prints a line for each test, and last the number of those that passed; a failure ends with status 1."""
import glob
import os
import random
import resource
import shutil
import signal
import socket
import subprocess
import sys
import threading
import time

WORK, BIN, OWNER = sys.argv[1:4]
SIDECAR = "rust/sidecar/target/release/balsa-sidecar"
ASK = "rust/sidecar/target/release/balsa-ask"
SETTINGS = f"host={os.environ['PGHOST']} user=tester dbname=postgres connect_timeout=2"
LEASE = 1500  # milliseconds
SEGMENT_ENTRIES = 64
random.seed(7)


def now():
    """Milliseconds of the clock that the sidecars use."""
    return time.clock_gettime_ns(time.CLOCK_BOOTTIME) / 1e6


def texts():
    """Texts that no other one of these is a redrawing of: a chain whose ends are labelled."""
    for number in range(1, 999 * 999):
        yield f"[{number % 999 + 1}CH3]CCO[{number // 999 + 1}CH3]"


FRESH = texts()
RUNNING = []


class Database:
    """A session in which withdrawals are made, one at a time."""

    def __init__(self, role="tester"):
        self.psql = subprocess.Popen(["psql", "-qAtX", "-v", "ON_ERROR_STOP=0"], stdin=subprocess.PIPE, stdout=subprocess.PIPE,
                                     stderr=subprocess.STDOUT, text=True)
        self.run(f"SET ROLE {role}")

    def run(self, command):
        """What a command prints."""
        self.psql.stdin.write(f"{command};\n\\echo done\n")
        self.psql.stdin.flush()
        return "".join(iter(self.psql.stdout.readline, "done\n")).strip()

    def withdraw(self, text, tag=7):
        """Withdraws a text; its number, and the time at which the commit was known."""
        number = int(self.run(f"SELECT balsa_feed.withdraw('{text}', {tag})"))
        return number, now()

    def close(self):
        self.psql.stdin.close()
        self.psql.wait()


class Bench:
    """A sidecar with its folder."""

    def __init__(self, name, *options, lease=LEASE, **how):
        self.folder = f"{WORK}/benches/{name}"
        self.socket = f"{WORK}/benches/{name}.socket"
        self.log = open(f"{self.folder}.log", "a+")
        command = [SIDECAR, "--folder", self.folder, "--socket", self.socket, "--database", SETTINGS, "--lease", str(lease),
                   "--poll", str(lease // 3), *options]
        self.process = subprocess.Popen(command, stderr=self.log, stdout=subprocess.DEVNULL, **how)
        RUNNING.append(self)
        self.client = None

    def ask(self, text, within=20):
        """The words of the answer, when it was asked for and when it came; none where the sidecar is not there."""
        asked = now()
        try:
            if self.client is None:
                self.client = socket.socket(socket.AF_UNIX)
                self.client.settimeout(within)
                self.client.connect(self.socket)
                self.lines = self.client.makefile("rb")
            self.client.sendall(text.encode() + b"\n")
            line = self.lines.readline()
        except OSError:
            line = b""
        if not line.endswith(b"\n"):
            self.hang_up()
            return None, asked, now()
        return line.decode().split(), asked, now()

    def until(self, text, wanted, seconds=10):
        """Asks until the answer begins with these words; the answer."""
        end = time.monotonic() + seconds
        while time.monotonic() < end:
            words, _, _ = self.ask(text)
            if words and " ".join(words).startswith(wanted):
                return words
            time.sleep(0.001)
        raise AssertionError(f"{text} is not told '{wanted}' within {seconds} s, but {words}: {self.said()}")

    def halts(self):
        """Asks until it has halted, with no yes before; the reason."""
        end = time.monotonic() + 10
        while time.monotonic() < end:
            words, _, _ = self.ask("CCO")
            assert not words or words[0] == "no", words
            if words and words[1] == "halted":
                return " ".join(words[2:])
        raise AssertionError(f"it has not halted: {self.said()}")

    def said(self):
        self.log.flush()
        self.log.seek(0)
        return self.log.read()[-600:]

    def hang_up(self):
        if self.client is not None:
            self.client.close()
            self.client = None

    def send(self, number):
        os.kill(self.process.pid, number)

    def kill(self):
        self.hang_up()
        self.process.kill()
        self.process.wait()
        RUNNING.remove(self)


def keeps_clause(answer, committed):
    """Whether an answer is allowed for a text whose commit was known at a time. Two milliseconds are lost in rounding."""
    words, asked, _ = answer
    return not words or words[0] != "yes" or committed >= asked - float(words[2]) - 2


def backends():
    """The processes that serve sidecars."""
    listed = DB.run("SELECT pid FROM pg_stat_activity WHERE application_name = 'balsa-sidecar'")
    return [int(pid) for pid in listed.split()]


def server():
    """The server and all its processes."""
    first = int(open(f"{WORK}/data/postmaster.pid").readline())
    listed = subprocess.run(["ps", "-o", "pid=", "--ppid", str(first)], stdout=subprocess.PIPE, text=True).stdout
    return [first, *map(int, listed.split())]


def control(*words):
    """pg_ctl, by the owner of the cluster."""
    command = [f"{BIN}/pg_ctl", "-D", f"{WORK}/data", "-l", f"{WORK}/data/log", "-w", *words]
    if os.getuid() == 0:
        command = ["setpriv", f"--reuid={OWNER}", "--clear-groups", "--", *command]
    subprocess.run(command, check=True, stdout=subprocess.DEVNULL)


# ---- the tests ----


def travels():
    """From the table to the refusal at three benches, in any drawing."""
    benches = [Bench(f"three-{i}") for i in range(3)]
    for bench in benches:
        bench.until("Cc1ccccc1C", "yes")
    number, committed = DB.withdraw("CC1=C(C)C=CC=C1", 41)
    for bench in benches:
        told = bench.until("CC1=C(C)C=CC=C1", "no withdrawn")
        assert told == ["no", "withdrawn", str(number), "41"], told
        took = now() - committed
        assert took < LEASE, took
        assert bench.ask("CC=1C(C)=CC=CC1")[0] == told
        assert bench.ask("Cc1c(C)cccc1")[0] == told
        assert bench.ask("Cc1ccc(C)cc1")[0][0] == "yes"
        bench.kill()


def tells():
    """The protocol: refusals with code and place, the empty text, a line that is too long, an answer by the client."""
    bench = Bench("tells")
    assert bench.until("", "yes")[1] == DB.run("SELECT max(number) FROM balsa_feed.withdrawal")
    for text, told in [("C11", "no refused 7 2"), ("cc", "no refused 22"), ("C(", "no refused 3 2"), ("\tC", "no refused 3 0")]:
        assert " ".join(bench.ask(text)[0]) == told, (text, bench.ask(text))
    assert bench.ask("C" * 16384)[0] == ["no", "refused", "4", "1000"]
    assert bench.ask("C" * 40000)[0][:3] == ["no", "refused", "2"]
    asked = subprocess.run([ASK, bench.socket, str(LEASE), "CCO", "C11"], stdout=subprocess.PIPE, text=True)
    assert asked.returncode == 1 and asked.stdout.splitlines()[1] == "no refused 7 2", asked
    assert subprocess.run([ASK, bench.socket, str(LEASE), "CCO"], stdout=subprocess.DEVNULL).returncode == 0
    bench.kill()
    assert subprocess.run([ASK, bench.socket, str(LEASE), "CCO"], stdout=subprocess.DEVNULL).returncode == 2


def killed():
    """kill -9 while withdrawals arrive: afterwards all are known; never a yes for one that is held or older than its age."""
    committed, held, judged = {}, set(), 0
    stop = threading.Event()

    def withdraw():
        session = Database("balsa_withdrawer")
        while not stop.is_set():
            text = next(FRESH)
            committed[text] = session.withdraw(text)
            time.sleep(0.001)
        session.close()

    writer = threading.Thread(target=withdraw)
    writer.start()
    try:
        for _ in range(25):
            bench = Bench("killed")
            end = time.monotonic() + random.uniform(0.05, 0.3)
            while time.monotonic() < end:
                known = list(committed)
                if not known:
                    continue
                text = random.choice(known[-40:])
                answer = bench.ask(text)
                judged += answer[0] is not None
                assert keeps_clause(answer, committed[text][1]), (text, answer, committed[text])
                if answer[0] and answer[0][:2] == ["no", "withdrawn"]:
                    assert answer[0][2] == str(committed[text][0]), (answer, committed[text])
                    held.add(text)
                assert not (text in held and answer[0] and answer[0][0] == "yes"), (text, answer)
            bench.kill()
    finally:
        stop.set()
        writer.join()
    bench = Bench("killed")
    bench.until("", "yes")
    for text, (number, _) in committed.items():
        assert bench.ask(text)[0] == ["no", "withdrawn", str(number), "7"], (text, bench.ask(text))
    bench.kill()
    assert judged > 200 and len(committed) > 2 * SEGMENT_ENTRIES and held, (judged, len(committed), len(held))
    print(f"    {len(committed)} withdrawals, 25 kills, {judged} answers, {len(held)} texts seen as held")


def frozen_sidecar():
    """A sidecar is stopped with a question on its way; what it says when it goes on counts with the client's own time."""
    bench = Bench("frozen-sidecar")
    bench.until("", "yes")
    bench.send(signal.SIGSTOP)
    text = next(FRESH)
    _, committed = DB.withdraw(text)
    late = []
    waiting = threading.Thread(target=lambda: late.append(bench.ask(text)))
    waiting.start()
    client = subprocess.Popen([ASK, bench.socket, str(3 * LEASE), text], stdout=subprocess.PIPE, text=True)
    time.sleep(1.3 * LEASE / 1000)
    bench.send(signal.SIGCONT)
    waiting.join()
    words, asked, came = late[0]
    assert words and came - asked > LEASE, late
    assert words[0] == "no" or float(words[2]) + came - asked > LEASE, late
    assert keeps_clause(late[0], committed), late
    assert client.wait() == 1, client.stdout.read()
    bench.until(text, "no withdrawn")
    bench.kill()


def judge_while(bench, text, committed, seconds):
    """Asks for a withdrawn text again and again; the answers' reasons."""
    reasons = set()
    end = time.monotonic() + seconds
    while time.monotonic() < end:
        answer = bench.ask(text)
        assert keeps_clause(answer, committed), (answer, committed)
        if answer[0]:
            assert answer[0][0] == "no" or answer[1] - committed <= LEASE, (answer, committed)
            reasons.add(" ".join(answer[0][:2]) if answer[0][0] == "no" else "yes")
        time.sleep(0.002)
    return reasons


def frozen_backend():
    """The process of the server that serves the sidecar is stopped: no yes past the lease, and then another one serves."""
    bench = Bench("frozen-backend")
    bench.until("", "yes")
    stopped = backends()
    assert stopped
    for pid in stopped:
        os.kill(pid, signal.SIGSTOP)
    try:
        text = next(FRESH)
        _, committed = DB.withdraw(text)
        reasons = judge_while(bench, text, committed, 1.4 * LEASE / 1000)
        assert "no stale" in reasons, reasons
        bench.until(text, "no withdrawn")
    finally:
        for pid in stopped:
            os.kill(pid, signal.SIGCONT)
    bench.kill()


def frozen_database():
    """The whole server is stopped, with a withdrawal that was just made: no yes past the lease, and yes again afterwards."""
    bench = Bench("frozen-database")
    bench.until("", "yes")
    text = next(FRESH)
    _, committed = DB.withdraw(text)
    stopped = server()
    for pid in stopped:
        os.kill(pid, signal.SIGSTOP)
    try:
        judge_while(bench, text, committed, 1.2 * LEASE / 1000)
        assert bench.ask("CCO")[0][:2] == ["no", "stale"]
        assert int(bench.ask("CCO")[0][2]) > LEASE
    finally:
        for pid in stopped:
            os.kill(pid, signal.SIGCONT)
    bench.until("CCO", "yes")
    bench.until(text, "no withdrawn")
    bench.kill()


def no_database():
    """Without a feed from the start there is no yes; what is held is still told."""
    bench = Bench("no-database", "--database", "host=/nonexistent")
    words = bench.until("CCO", "no stale")
    assert len(words) == 3
    bench.kill()


def restored():
    """A database restored older: halted for good, also where it has since gone on."""
    bench, away = Bench("restored"), Bench("restored-away")
    for each in (bench, away):
        each.until("", "yes")
    control("-m", "fast", "stop")
    shutil.rmtree(f"{WORK}/older", ignore_errors=True)
    subprocess.run(["cp", "-a", f"{WORK}/data", f"{WORK}/older"], check=True)
    control("start")
    reconnect()
    text = next(FRESH)
    DB.withdraw(text)
    for each in (bench, away):
        each.until(text, "no withdrawn")
    away.kill()
    control("-m", "fast", "stop")
    shutil.rmtree(f"{WORK}/data")
    os.rename(f"{WORK}/older", f"{WORK}/data")
    control("start")
    reconnect()
    assert "went back" in " ".join(bench.until("CCO", "no halted"))
    DB.withdraw(next(FRESH))
    DB.withdraw(next(FRESH))
    time.sleep(0.5)
    bench.until(text, "no halted")
    away = Bench("restored-away")
    assert "not the one held" in away.halts()
    for each in (bench, away):
        each.kill()


def gap():
    """A number left out, as by a hand that evades the function: halted for good."""
    bench = Bench("gap")
    bench.until("", "yes")
    held = int(bench.ask("")[0][1])
    DB.run(f"INSERT INTO balsa_feed.withdrawal VALUES ({held + 2}, 7, 'CCCCF')")
    assert "a gap" in " ".join(bench.until("CCO", "no halted"))
    DB.run("ALTER TABLE balsa_feed.withdrawal DISABLE TRIGGER only_added")
    DB.run(f"DELETE FROM balsa_feed.withdrawal WHERE number = {held + 2}")
    DB.run("ALTER TABLE balsa_feed.withdrawal ENABLE TRIGGER only_added")
    time.sleep(0.8)
    bench.until("CCO", "no halted")
    bench.kill()
    bench = Bench("gap")
    bench.until("CCO", "yes")
    bench.kill()


def damaged():
    """A segment with a wrong byte in its contents or in a text, one cut short, missing, of an older state: halted, and no yes before."""
    bench = Bench("damaged")
    bench.until("", "yes")
    bench.kill()
    segments = sorted(glob.glob(f"{WORK}/benches/damaged/withdrawn-*"))
    assert len(segments) > 2, segments
    for harm in ("byte", "text", "cut", "missing", "older"):
        folder = f"{WORK}/benches/damaged-{harm}"
        shutil.copytree(f"{WORK}/benches/damaged", folder)
        segment = sorted(glob.glob(f"{folder}/withdrawn-*"))[1]
        with open(segment, "r+b") as file:
            if harm == "byte":
                file.seek(2 + 6 * 5)
                file.write(b"\x01")
            if harm == "text":
                held = file.read()
                file.seek(held.index(b"]CCO[", 386) + 1)
                file.write(b"NCO")
            if harm == "cut":
                file.truncate(20000)
            if harm == "older":
                file.seek(1)
                file.write(b"\x07")
        if harm == "missing":
            os.remove(segment)
        bench = Bench(f"damaged-{harm}")
        bench.halts()
        DB.withdraw(next(FRESH))
        time.sleep(0.1)
        assert bench.ask("CCO")[0][:2] == ["no", "halted"]
        bench.kill()


def second():
    """A second sidecar on the same folder, and one on the same socket: refused, and the first goes on."""
    bench = Bench("second")
    bench.until("", "yes")
    other = [SIDECAR, "--database", SETTINGS]
    for words in (["--folder", bench.folder, "--socket", f"{bench.socket}-2"], ["--folder", f"{bench.folder}-2", "--socket", bench.socket]):
        done = subprocess.run([*other, *words], stderr=subprocess.PIPE, timeout=10)
        assert done.returncode == 2 and done.stderr, done
    assert bench.ask("CCO")[0][0] == "yes"
    bench.kill()


def full_disk():
    """No room for a segment, and none for the audit: halted, and no yes is given that is not written down."""

    def no_room():
        signal.signal(signal.SIGXFSZ, signal.SIG_IGN)
        resource.setrlimit(resource.RLIMIT_FSIZE, (20000, 20000))

    bench = Bench("full", preexec_fn=no_room)
    bench.halts()
    bench.kill()
    bench = Bench("full")
    bench.until("CCO", "yes")
    bench.kill()
    bench = Bench("full", "--audit", "/dev/full")
    assert "audit" in bench.halts()
    bench.kill()


def audited():
    """A line for each answer: the time, the answer, the text."""
    path = f"{WORK}/benches/audit"
    bench = Bench("audited", "--audit", path, "--sync")
    bench.until("CCO", "yes")
    before = time.time() * 1000
    told = [" ".join(bench.ask(text)[0]) for text in ("CCO", "C11", "C\tC")]
    lines = [line.split("\t") for line in open(path).read().splitlines()[-3:]]
    assert [line[1] for line in lines] == told, lines
    assert [line[2] for line in lines] == ["CCO", "C11", "C\\tC"], lines
    assert all(before - 5 <= int(line[0]) <= time.time() * 1000 for line in lines), lines
    bench.kill()


def roles():
    """Withdrawals are only added, by one function, and numbered in the order of commits without gaps."""
    withdrawer, bench, owner = Database("balsa_withdrawer"), Database("balsa_bench"), Database()
    table = "balsa_feed.withdrawal"
    for command in (f"INSERT INTO {table} VALUES (999999, 1, 'C')", f"UPDATE {table} SET tag = 1", f"DELETE FROM {table}",
                    f"TRUNCATE {table}"):
        assert "permission denied" in withdrawer.run(command)
        assert "permission denied" in bench.run(command)
    for command in (f"UPDATE {table} SET tag = 1", f"DELETE FROM {table}", f"TRUNCATE {table}"):
        assert "withdrawals are only added" in owner.run(command)
    assert "permission denied" in bench.run("SELECT balsa_feed.withdraw('C', 1)")
    assert "refusal 7 at byte 2" in withdrawer.run("SELECT balsa_feed.withdraw('C11', 1)")

    def many(session):
        for i in range(40):
            session.run("BEGIN")
            session.run("SELECT balsa_feed.withdraw('CCCCCCCCCCF', 3)")
            session.run("ROLLBACK" if i % 3 == 0 else "COMMIT")

    sessions = [Database("balsa_withdrawer") for _ in range(4)]
    threads = [threading.Thread(target=many, args=[session]) for session in sessions]
    for thread in threads:
        thread.start()
    for thread in threads:
        thread.join()
    assert owner.run(f"SELECT count(*) = max(number) AND min(number) = 1 FROM {table}") == "t"
    for session in (withdrawer, bench, owner, *sessions):
        session.close()


def reconnect():
    """A new session, after the server was started anew."""
    global DB
    DB.close()
    DB = Database()


def processor_time(pid):
    """Seconds of processor time that a process has used."""
    return int(open(f"/proc/{pid}/schedstat").read().split()[0]) / 1e9


def speed(call, workers):
    """Texts a second through a function of the extension, the best of 20 looks at the corpus: by the clock, and in one process
    by its processor time."""
    DB.run(f"SET max_parallel_workers_per_gather = {workers}")
    pid = int(DB.run("SELECT pg_backend_pid()"))
    clock, processor = [], []
    for _ in range(20):
        started, used = time.monotonic(), processor_time(pid)
        rows = int(DB.run(f"SELECT count({call}) FROM shelf"))
        clock.append(time.monotonic() - started)
        processor.append(processor_time(pid) - used)
    print(f"    {call}, {workers} workers: {rows / min(clock):,.0f} texts a second" +
          (f", {rows / min(processor):,.0f} of processor time" if workers == 0 else ""))


def figures():
    """What docs/PERFORMANCE.md has of these."""
    DB.run("CREATE TEMP TABLE corpus (line text)")
    DB.run(f"\\copy corpus FROM 'corpus/real.smi' (DELIMITER E'\\x01')")
    DB.run("CREATE TABLE shelf AS SELECT line::balsa AS text FROM corpus, generate_series(1, 4)")
    DB.run("SET parallel_setup_cost = 0; SET parallel_tuple_cost = 0; SET min_parallel_table_scan_size = 0")
    DB.run("VACUUM ANALYZE shelf")
    for call in ("text", "(balsa_check(text)).code", "balsa_kekulized(text)", "balsa_key(text)"):
        for workers in (0, 2):
            speed(call, workers)
    DB.run("CREATE INDEX shelf_key ON shelf (balsa_key(text)); ANALYZE shelf; SET max_parallel_workers_per_gather = 0")
    print("    " + DB.run("EXPLAIN (ANALYZE, COSTS OFF, TIMING OFF) SELECT * FROM shelf WHERE balsa_key(text) = balsa_key('Cc1c(C)cccc1') AND balsa_compared(text, 'Cc1c(C)cccc1') <> 'clear'").replace("\n", "\n    "))
    print("    pairs of the corpus that have one key: " + DB.run("SELECT string_agg(told || ' ' || n, ', ') FROM (SELECT balsa_compared(a.line, b.line) AS told, count(*) AS n FROM corpus a JOIN corpus b ON balsa_key(a.line) = balsa_key(b.line) AND a.ctid < b.ctid GROUP BY 1) AS pairs"))
    benches = [Bench(f"figures-{i}", lease=60000) for i in range(3)]
    for bench in benches:
        bench.until("", "yes", 60)
    took = []
    for _ in range(100):
        text = next(FRESH)
        _, committed = DB.withdraw(text)
        for bench in benches:
            bench.until(text, "no withdrawn")
        took.append(now() - committed)
    took.sort()
    print(f"    from insert to refusal at three sidecars: median {took[50]:.1f} ms, largest {took[-1]:.1f} ms")
    for bench in benches[1:]:
        bench.kill()
    some = [next(FRESH) for _ in range(20000)]
    DB.run("DO $$ DECLARE t text; BEGIN FOREACH t IN ARRAY '{%s}'::text[] LOOP PERFORM balsa_feed.withdraw(t::balsa, 5); END LOOP; END $$" % ",".join(some))
    started = now()
    benches[0].until(some[-1], "no withdrawn", 300)
    print(f"    20,000 withdrawals taken in from the feed: {(now() - started) / 1000:.1f} s")
    benches[0].kill()
    bench = Bench("figures-0", lease=60000)
    bench.until("", "yes", 60)
    print("    " + bench.said().strip().splitlines()[-1])
    real = open("corpus/real.smi").read()
    for name, lines in (("corpus", real), ("withdrawn", "\n".join(random.sample(some, 5000)) + "\n")):
        done = subprocess.run([ASK, "--times", bench.socket, "60000"], input=lines, stdout=subprocess.PIPE, text=True)
        print(f"    {name}: {done.stdout.strip()}")
    bench.kill()


DB = Database()
TESTS = [roles, travels, tells, audited, killed, frozen_sidecar, frozen_backend, frozen_database, no_database, second, full_disk, damaged,
         gap, restored]
try:
    for test in TESTS:
        started = time.monotonic()
        test()
        print(f"{test.__name__}: {time.monotonic() - started:.1f} s", flush=True)
    if "figures" in sys.argv[4:]:
        figures()
finally:
    for bench in list(RUNNING):
        bench.kill()
    DB.close()
print(len(TESTS))
