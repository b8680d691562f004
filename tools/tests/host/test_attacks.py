"""What a user may do to an audit: nothing that concerns root's things. Each attack is an unprivileged user's; rows,
lines and metrics of root's things are the same bytes with it and without it."""
import json
import os

from support.common import ALLOW, LOADER, TOP, filter_of, gate, insn, ret
from support.own_machine import OwnMachine
from host.test_audit import STATED

USER = 12345
# Audits a machine: prints the object, the lines, the metrics and the page, how many seconds of a processor it took with
# all that it started, and the most bytes that its processes had together: a child is beside it, and beside that scf.
# Its words are the tools' folder, and what is to be set: module and name, and a value.
AUDIT = """
import importlib, json, os, resource, sys
sys.path.insert(0, sys.argv[1])
from scftools.base import program
from scftools.model import tables
from scfhost import audit, audit_output, expectations, processes
program.is_tool = True
for place, value in json.loads(sys.argv[2]).items():
    module, _, name = place.rpartition(".")
    setattr(importlib.import_module(module), name, value)
options = expectations.Options(tables.read_table(None), has_surfaces=True, allows_unconfined=True)
options.check()
judges = audit.Judges(options)
for _ in range(2):
    began = sum(os.times()[:4])
    report = audit.audit_machine(options, judges)
    print(json.dumps({
        "object": audit_output.audit_json(report, options.table), "metrics": audit_output.metrics(report),
        "lines": list(audit_output.audit_lines(report, options.table)),
        "page": audit_output.page(report, options.table), "seconds": sum(os.times()[:4]) - began,
        "bytes": 1024 * sum(resource.getrusage(who).ru_maxrss for who in (
            resource.RUSAGE_SELF, resource.RUSAGE_CHILDREN, resource.RUSAGE_CHILDREN))}))
"""
# The budgets in tests: root's things have time on any machine, and a user's end soon.
BUDGETS = {"scftools.base.child.LONGEST": 600.0, "scfhost.audit.SECONDS_OF_ROOT": 3000.0,
           "scfhost.audit.SECONDS_OF_USERS": 3.0, "scfhost.audit.SECONDS_OF_FILES": 3.0}
# What an attack begins with, and how it says that it has begun.
BEGIN = LOADER + """
import itertools, signal, struct, subprocess
threading.stack_size(1 << 16)
HOME = "/run/user/12345"
def insn(code, k, jt=0, jf=0):
    return struct.pack("<HBBI", code, jt, jf, k)
def ready():
    open(HOME + "/ready", "w").close()
    while True:
        signal.pause()
def be(name, *filters):
    library.prctl(15, name, 0, 0, 0)
    for data in filters:
        assert load(data) >= 0
def says(name, pid, bundle, **more):
    os.makedirs(f"{HOME}/crun/{name}", exist_ok=True)
    with open(f"{HOME}/crun/{name}/status", "w") as file:
        json.dump({"pid": pid, "bundle": bundle, "cgroup-path": "/", **more}, file)
def bundle(name, text):
    os.makedirs(f"{HOME}/{name}", exist_ok=True)
    with open(f"{HOME}/{name}/config.json", "w") as file:
        file.write(text)
    return f"{HOME}/{name}"
def sleeper():
    return subprocess.Popen(["sleep", "1000"]).pid
ALLOW = insn(6, 0x7FFF0000)
# each path through it is another region, of which there are 2 to the power of 24
REGIONS = insn(0x20, 16) + b"".join(insn(0x45, 1 << at, 0, 1) + insn(0x20, 16) for at in range(24)) + ALLOW
"""


def of_root(answer):
    """What an audit says of root's things: rows, lines and metrics."""
    rows = [row for row in answer["object"]["rows"] if row["user"] is None]
    lines, is_of_user = [], False
    for line in answer["lines"]:
        is_of_user = f"of user {USER}" in line if line[:4] != "    " else is_of_user
        lines += [line] if not is_of_user and line[:2] != "# " else []
    metrics = [line for line in answer["metrics"].splitlines() if 'user=""' in line or line[:1] == "#"]
    return rows, lines, metrics


class Audits(OwnMachine):
    def audits(self, **settings):
        """What two audits say, one after another, as --watch makes them."""
        out = self.out_of(0, self.on("/usr/bin/python3", "-c", AUDIT, os.path.join(TOP, "tools"),
                                     json.dumps({**BUDGETS, **settings})))
        return [json.loads(line) for line in out.splitlines()]

    def signals(self, name, whom):
        """The settings by which scf sends a signal where it is given a filter that has the word 0x73746f70."""
        path = self.file("scf", f"""#!/bin/sh
grep -qa pots /proc/self/fd/0 && kill -{name} {whom}
exec {TOP}/crates/scf/out/scf "$@" </proc/self/fd/0
""")
        os.chmod(path, 0o755)
        os.chmod(self.folder, 0o755)
        return {"scftools.ask.client.PROGRAMS": [path]}


class Containers(Audits):
    """Rows of root's."""

    def test_what_is_never_seen(self):
        """Processes that start and end all the time, and a health check now and then."""
        for name, script in (("busy", "while :; do sleep 0; done"), ("checked", "while :; do sleep 1800; done")):
            self.container("runc", name, STATED, args=("sh", "-c", script))
        # (so long a look that the one process has its turn on any machine)
        for answer in self.audits(**{"scfhost.machine.PAUSE": 0.1}):
            rows = {row["name"]: row for row in answer["object"]["rows"]}
            self.assertEqual({name: row["verdict"] for name, row in rows.items()},
                             {"busy": "not known", "checked": "as configured"})
            self.assertIn("it has processes that come and go faster than they can be looked at",
                          [part.get("why") for part in rows["busy"]["parts"]])
            self.assertEqual(answer["object"]["processes"]["unread"], 0)

    def test_who_judges_is_ended(self):
        """One row isn't known, and no other: who is given its filter is ended by scf."""
        marked = {"names": ["chroot"], "action": "SCMP_ACT_ERRNO", "args": [
            {"index": 0, "value": 0x73746F70, "op": "SCMP_CMP_EQ"}]}
        for at in range(5):
            entry = marked if at == 2 else {"names": ["mount"], "action": "SCMP_ACT_ERRNO", "errnoRet": 1 + at}
            self.container("runc", f"c{at}", {**STATED, "syscalls": [entry]})
        for answer in self.audits(**self.signals("KILL", "$PPID")):
            rows = {row["name"]: row for row in answer["object"]["rows"]}
            self.assertEqual({name: row["verdict"] for name, row in rows.items()},
                             {f"c{at}": "not known" if at == 2 else "as configured" for at in range(5)})
            self.assertEqual([part["why"] for part in rows["c2"]["parts"]], ["who looks at it was ended"])


class Attacks(Audits):
    """On a machine on which root has a container, and a program with a filter."""

    def setUp(self):
        super().setUp()
        os.chmod(self.folder, 0o755)
        self.on("sh", "-c", f"mkdir -m 755 /run/user/{USER}; chown {USER}:{USER} /run/user/{USER}")
        self.container("runc", "web", STATED)
        self.crowd(("alpha", [filter_of([0, 1])], 2, 1), ("beta", [filter_of([0, 1, 317]), filter_of([0, 1])], 1, 3))

    def attack(self, script, **settings):
        """What an audit says beside a user's attack, in which root's things are as they were without it."""
        before = self.audits(**settings)[1]
        self.assertEqual([row["verdict"] for row in before["object"]["rows"]], ["stricter", "as configured"])
        words = f"setpriv --reuid={USER} --regid={USER} --clear-groups /usr/bin/python3 -c \"$0\""
        self.on("sh", "-c", f"{words} </dev/null >/dev/null 2>/run/error &", BEGIN + script)
        waits = f"until [ -e /run/user/{USER}/ready ]; do sleep 0.05; done"
        self.assertEqual(self.on("timeout", "600", "sh", "-c", waits)[0], 0, self.on("cat", "/run/error")[1])
        for answer in self.audits(**settings):
            for with_user, without in zip(of_root(answer), of_root(before)):
                self.assertEqual(with_user, without)
            of_user = [line for line in answer["object"]["left_out"] if f"user {USER}" in line]
            self.assertLessEqual(len(of_user), 1, of_user)
            self.assertIn(answer["object"]["status"], (before["object"]["status"], 4))
            figures = [{name: each[name] for name in ("seconds", "bytes")} for each in (before, answer)]
            self.assertLess(answer["bytes"], 1 << 30, figures)
            self.assertLess(answer["seconds"], 100, figures)
        return answer

    def rows_of_user(self, answer):
        return [row for row in answer["object"]["rows"] if row["user"] == USER]

    def test_threads_with_filters_of_their_own(self):
        """Seven long filters that all have, and one that each has."""
        answer = self.attack("""
def thread(at):
    assert load(insn(0, at) + ALLOW) >= 0
    time.sleep(1000)
be(b"many", *(insn(0, at) * 4000 + ALLOW for at in range(7)))
for at in range(1500):
    threading.Thread(target=thread, args=(at,), daemon=True).start()
def has_all(it):
    return "Seccomp_filters:\\t8" in open(f"/proc/self/task/{it}/status").read()
while sum(map(has_all, os.listdir("/proc/self/task"))) < 1500:
    time.sleep(0.1)
ready()
""")
        self.assertEqual(len(self.rows_of_user(answer)), 1)

    def test_more_bytes_of_filters_than_are_copied(self):
        answer = self.attack("""
for at in range(300):
    if not os.fork():
        be(b"big", insn(0, at) * 4000 + ALLOW)
        time.sleep(1000)
time.sleep(2)
ready()
""", **{"scfhost.machine_pass.MOST_FILTER_BYTES": 1 << 20, "scfhost.audit.SECONDS_OF_USERS": 600.0})
        (row,) = self.rows_of_user(answer)
        whys = [part["why"] for part in row["parts"] if part["stack"] is None]
        self.assertEqual({*whys}, {"its filters, and those that were read before, have too many bytes"})
        # (32 filters have so many bytes)
        self.assertEqual((len(whys), len(row["parts"])), (300 - 32, 300))

    def test_regions_without_end(self):
        """scf has no time to print them all; a thread with it waits in a call that goes on by restart_syscall."""
        answer = self.attack("""
be(b"regions", REGIONS, ALLOW)
threading.Thread(target=ready, daemon=True).start()
time.sleep(10000)
""")
        self.assertEqual(len(self.rows_of_user(answer)), 1)

    def test_regions_of_many_bytes(self):
        """Of a filter of 4005 instructions beside one of 10, scf would print 110 MB."""
        answer = self.attack("""
long = insn(0x20, 16) + b"".join(insn(0x45, 1 << at, 0, 1) + insn(0x20, 24) + insn(0x20, 16) for at in range(17))
long += insn(0x20, 16) * (4004 - len(long) // 8) + ALLOW
short = insn(0x20, 32) + b"".join(insn(0x45, 1 << at, 0, 1) + insn(0x20, 32) for at in range(4)) + ALLOW
be(b"regions", long, short)
threading.Thread(target=ready, daemon=True).start()
time.sleep(10000)
""")
        self.assertEqual(len(self.rows_of_user(answer)), 1)

    def test_a_chain_of_processes(self):
        """Each is the child of the one before: the parent's answer is remembered. (The kernel takes the longer for each
        fork(2), the longer a chain is of which none executes a program.)"""
        answer = self.attack("""
with open(HOME + "/chain", "w") as file:
    file.write('[ $1 -eq 0 ] && exec touch ' + HOME + '/ready; sh "$0" $(($1 - 1)) & exec sleep 10000')
os.execv("/bin/sh", ["sh", HOME + "/chain", "2000"])
""")
        self.assertGreater(answer["object"]["processes"]["unconfined"], 2000)

    def test_configurations_that_take_long(self):
        """Long ones, nested ones, ones of empty lists, and pipes that nobody writes to."""
        answer = self.attack("""
entry = json.dumps({"names": ["read"], "action": "SCMP_ACT_ERRNO", "args": [{"index": 0, "value": 1}]})
text = '{"linux": {"seccomp": {"defaultAction": "SCMP_ACT_ALLOW", "defaultErrnoRet": %d, "syscalls": [%s]}}}'
texts = [text % (at, ",".join([entry] * 40000)) for at in range(3)]
texts += [text % (7, "[" * 90000 + "]" * 90000), text % (8, ",".join(["[]"] * 1000000)), "[" * 3000000, " " * (1 << 24)]
for at, text in enumerate(texts):
    says(f"c{at}", sleeper(), bundle(f"b{at}", text))
os.mkdir(HOME + "/pipe")
os.mkfifo(HOME + "/pipe/config.json")
says("pipe", sleeper(), HOME + "/pipe")
ready()
""")
        # (how many of them are judged in time is the machine's)
        self.assertLessEqual({row["verdict"] for row in self.rows_of_user(answer)},
                             {"not known", "weaker", "unconfined though configured"})

    def test_many_folders_of_containers(self):
        """More than are looked at, with files that no runtime writes."""
        answer = self.attack("""
os.mkdir(HOME + "/runc")
texts = ["", "[]", "{}", '{"init_process_pid": 1e999}', "[" * 50000, "\\\\ud800", "x" * (1 << 20),
         '{"init_process_pid": %s}' % ("9" * 5000), '{"init_process_pid": 1, "config": {"labels": [[]]}}']
for at, text in zip(range(500), itertools.cycle(texts)):
    os.mkdir(f"{HOME}/runc/{at}")
    open(f"{HOME}/runc/{at}/state.json", "w").write(text)
ready()
""")
        self.assertIn(f"of user {USER}: ", "".join(answer["object"]["left_out"]))

    def test_names_that_only_root_may_know(self):
        """Paths through root's folders, and links, tell nothing, whether there is something or not."""
        secret = self.file("secret/web/config.json", {"annotations": {"io.podman.annotations.name": "hidden"}})
        hard = os.path.dirname(self.file("hard/x", ""))
        os.link(secret, f"{hard}/config.json")
        for path, mode in ((f"{self.folder}/secret", 0o700), (secret, 0o600)):
            os.chmod(path, mode)
        os.chown(hard, USER, USER)
        answer = self.attack(f"""
os.symlink("{self.folder}/secret/web", HOME + "/link")
for at, path in enumerate(["/root/../{self.folder}/secret/web", "{self.folder}/secret/none", HOME + "/link", "{hard}",
                           HOME + "/../../../root", "/proc/1/root{self.folder}/secret/web", "{self.folder}/secret/web",
                           HOME + "/.." * 20 + "{self.folder}/secret/none", HOME + "/.." * 20 + "/root/.ssh"]):
    says(f"c{{at}}", sleeper(), path)
ready()
""")
        rows = [(row["name"], row["verdict"], row["profile"]["why"].rpartition(": ")[2])
                for row in self.rows_of_user(answer)]
        self.assertEqual(rows, [(f"c{at}", "not known", "Permission denied") for at in range(9)])
        self.assertNotIn("hidden", json.dumps(answer))

    # The user as whom files are read sends a signal to who reads them.
    HUNTS = """
signal.signal(signal.SIGCHLD, signal.SIG_IGN)
pid = sleeper()
for at in range(%d):
    says(f"c{at}", pid, bundle("b", '{"linux": {}}'))
if not os.fork():
    while True:
        for number in filter(str.isdecimal, os.listdir("/proc")):
            try:
                if int(number) not in (os.getpid(), os.getppid(), pid):
                    os.kill(int(number), signal.%s)
            except OSError:
                pass
        time.sleep(0.001)
ready()
"""

    def test_who_reads_files_is_stopped(self):
        answer = self.attack(self.HUNTS % (1, "SIGSTOP"), **{"scfhost.audit.SECONDS_OF_FILES": 1.0})
        self.assertLessEqual(len(self.rows_of_user(answer)), 1)

    def test_who_reads_files_is_ended(self):
        self.attack(self.HUNTS % (50, "SIGKILL"))

    def test_the_program_and_filters_of_root(self):
        """A user's processes of the same executable, with the same filters and others."""
        numbers = [filter_of([0, 1]), gate(ret(ALLOW)), filter_of([0, 1, 2])]
        answer = self.attack(f"""
for data in map(bytes.fromhex, {[data.hex() for data in numbers]}):
    read, write = os.pipe()
    if not os.fork():
        be(b"alpha", data)
        os.read(read, 1)
time.sleep(1)
ready()
""")
        rows = answer["object"]["rows"]
        names = {row["user"]: row["name"] for row in rows if row["kind"] == "program"}
        self.assertEqual(set(names.values()), {os.path.realpath("/usr/bin/python3")})
        self.assertEqual(set(names), {None, USER})

    def test_texts_that_look_like_others(self):
        """Names of containers that are lines, identifiers of root's, and labels."""
        answer = self.attack("""
for at, name in enumerate(["web", "x\\nas configured: container web", "web\\\\x0a", "a,user=", "user 0: web"]):
    says(name, sleeper(), bundle(f"b{at}", json.dumps({"linux": {}, "annotations": {
        "io.podman.annotations.name": name + '"} 1\\n'}})))
ready()
""")
        self.assertEqual(len({row["id"] for row in self.rows_of_user(answer)}), 5)
        self.assertEqual({row["verdict"] for row in self.rows_of_user(answer)}, {"unconfined by configuration"})

    def test_processes_that_wait_in_execve_for_ever(self):
        """The kernel makes who traces them wait: they don't keep others from being read, whatever their numbers are."""
        answer = self.attack(r"""
def fine():
    if not os.fork():
        be(b"fine", ALLOW)
        time.sleep(1000)
def be_stuck(end, go):
    be(b"stuck", ALLOW)
    def sleeps():
        os.write(end, b"%10d" % threading.get_native_id())
        time.sleep(1000)
    threading.Thread(target=sleeps, daemon=True).start()
    os.read(go, 1)
    os.execv("/bin/sleep", ["sleep", "1000"])
fine()
for _ in range(3):
    read, end = os.pipe()
    go, start = os.pipe()
    number = os.fork()
    if not number:
        be_stuck(end, go)
    assert library.ptrace(0x4206, int(os.read(read, 10)), None, None) == 0
    os.write(start, b"x")
fine()
time.sleep(1)
ready()
""", **{"scfhost.audit.SECONDS_OF_USERS": 60.0})
        (row,) = self.rows_of_user(answer)
        parts = [(part.get("why"), [process["name"] for process in part["processes"]]) for part in row["parts"]]
        why = "it executes a program, and until that has begun the kernel makes a tracer wait"
        self.assertEqual(parts, [(why, ["stuck"])] * 3 + [(None, ["fine", "fine"])])

    def test_processes_that_come_and_go(self):
        """With threads that do: one that stays is known."""
        answer = self.attack("""
be(b"stays", ALLOW)
if not os.fork():
    be(b"busy", ALLOW)
    while True:
        threading.Thread(target=time.sleep, args=(0.002,)).start()
        number = os.fork()
        if not number:
            os._exit(0)
        os.waitpid(number, 0)
ready()
""", **{"scfhost.audit.SECONDS_OF_USERS": 60.0})
        (row,) = self.rows_of_user(answer)
        self.assertIn(["stays"], [[process["name"] for process in part["processes"]] for part in row["parts"]
                                  if part["stack"] is not None])

    def test_who_judges_is_stopped(self):
        """A user's row isn't known, and no other: here scf stops where it is given the user's filter."""
        answer = self.attack(f"""
be(b"stops", bytes.fromhex("{insn(0, 0x73746F70).hex()}") + ALLOW)
ready()
""", **self.signals("STOP", "$$"), **{"scfhost.audit.SECONDS_OF_USERS": 1.0})
        (row,) = self.rows_of_user(answer)
        ((verdict, why),) = [(part["verdict"], part.get("why")) for part in row["parts"]]
        self.assertEqual(verdict, "not known")
        self.assertRegex(why, r"\Ait takes longer than \S+ seconds\Z")
