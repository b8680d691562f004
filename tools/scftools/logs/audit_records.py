"""Audit records: what the kernel writes of a syscall that a filter answers, and of one that an audit rule logs; and the
cores that coredumpctl lists, which has no syscall: the core itself has it.

They are read as the kernel's log, auditd and journald have them, and as ausearch prints them, raw or interpreted; and
as `journalctl -o json` prints entries, of which journald itself writes the members that begin with `_`
(systemd.journal-fields(7)), so that a program's message is told from a record, whatever it says.
The kernel writes a record of KILL_THREAD, KILL_PROCESS, LOG and actions without a name if actions_logged has them, and
one of another action if also the filter that gives the answer was loaded with SECCOMP_FILTER_FLAG_LOG (seccomp_log in
kernel/seccomp.c). It has neither the arguments nor the data of the action (audit_seccomp in kernel/auditsc.c).
"""
from __future__ import annotations

# (the module signal makes enums of its constants)
from _signal import SIGSYS
import itertools
import json
import os
import re
from collections.abc import Iterable, Iterator

from ..base import output, program
from ..base.values import Any, Pattern, dataclass
from ..model import architectures
from ..model.answers import ACTIONS
from ..model.calls import SKIPPED, Call
from ..model.tables import Table

ACTIONS_LOGGED = "/proc/sys/kernel/seccomp/actions_logged"
KERNEL_LOG = "/dev/kmsg"
# Where auditd keeps the records that it takes from the kernel (log_file of auditd.conf(5)).
AUDITD_LOG = "/var/log/audit/audit.log"
# The most bytes of a message in it (PRINTKRB_RECORD_MAX in include/linux/printk.h is less).
LONGEST = 1 << 13
# What may stand before a record, in which a process has no word: of dmesg a level, a facility, a time and a thread; of
# journald and syslog a time, the machine's name and that of who wrote it; of auditd the machine's name.
STAMP = (r"(?:[A-Z][a-z]{2} (?:[ 0-9][0-9]|[0-9]{4}-[0-9]{2}-[0-9]{2}) [0-9:.]{8,15}(?: [A-Z0-9+-]{1,6})?|"
         r"[0-9][0-9T:.,+-]{9,40}Z?|\[[ A-Za-z0-9:.<>+]{1,40}\])")
LOGGED = rf"(?:{STAMP} )?(?:[A-Za-z0-9_.-]{{1,255}} )?"
OF_KERNEL = (rf"(?:(?:<[0-9]{{1,3}}>)?(?:[a-z0-9]{{1,9}} {{0,9}}:[a-z]{{1,9}} {{0,9}}: ?)?"
             rf"(?:{STAMP}(?:\[ {{0,9}}[CT][0-9]{{1,10}}\])? )?|{LOGGED}kernel: (?:{STAMP} )?)")
OF_AUDITD = rf"(?:{LOGGED}audisp[a-z-]{{1,9}}(?:\[[0-9]{{1,10}}\])?: )?(?:node=\S{{1,255}} )?"
# How both kinds of records begin: by number (linux/audit.h), auditd's name, and journald's for what the kernel wrote.
BARE_KINDS = Pattern(r"type=(1326|SECCOMP|1300|SYSCALL) (?:msg=)?(?=audit\()")
RECORD_KINDS = Pattern(rf"\A(?:(?:{OF_KERNEL}(?:audit: )?|{OF_AUDITD}){BARE_KINDS.pattern}|"
                       rf"{LOGGED}audit(?:\[[0-9]{{1,10}}\])?: (SECCOMP|SYSCALL) )")
SECCOMP_KINDS, SYSCALL_KINDS = ("1326", "SECCOMP"), ("1300", "SYSCALL")
# Records of other types, and ausearch's lines between those of one event.
OTHER = Pattern(rf"\A(?:(?:{OF_KERNEL}(?:audit: )?|{OF_AUDITD})type=[A-Z0-9_\[\]]{{1,40}} (?:msg=)?audit\(|"
                r"(?:----|time->.*|<no matches>)\Z)")
# The fields that the kernel writes behind all that a process may choose. A name in quotes has no blank and no quote;
# one with such characters is in hexadecimal. ausearch -i prints names as they are.
TAIL = Pattern(r" sig=(\S+)(?: arch=(\S+))? syscall=(\S+) compat=(\S+) ip=(\S+) code=(\S+)")
WHO = Pattern(r" pid=(\S+) comm=(\"[^\"]*\"|\S+)")
# (the text of an errno, which ausearch -i prints, has no hundred characters)
CALL_FIELDS = Pattern(r" arch=(\S+) syscall=(\S+)(?: per=\S+)?(?: success=\S+ exit=.{0,100}?)?"
               r" a0=(\S+) a1=(\S+) a2=(\S+) a3=(\S+) ")
# When a record was written, in seconds since 1970, and its serial number, which no two of a kind share.
STAMP_OF_RECORD = Pattern(r"audit\((([0-9]{1,12}\.[0-9]{3}):[0-9]{1,20})\)")
# auditd puts these before what it adds to a record itself, which names what the kernel's part has as numbers.
ENRICHED = "\x1d"
# The kernel leaves out records if too many come at once (kauditd_printk_skb in kernel/audit.c).
SUPPRESSED = Pattern(rf"\A{OF_KERNEL}audit: kauditd_printk_skb: ([0-9]{{1,9}}) callbacks suppressed")
RATE_LIMITED = ("the kernel's log may lack records: the kernel drops those beyond its rate limit "
                "(kernel.printk_ratelimit_burst in kernel.printk_ratelimit seconds); auditd, where it runs, takes all")
# What ausearch -i calls the actions: those that kill alike (auparse/seccomp-code-table.h of audit 3.0).
CODES = {"kill": ("KILL_PROCESS", "KILL_THREAD"), "trap": ("TRAP",), "errno": ("ERRNO",),
         "user-notify": ("USER_NOTIF",), "trace": ("TRACE",), "log": ("LOG",), "allow": ("ALLOW",)}
UNKNOWN_CODE = Pattern(r"unknown-seccomp-code\((0x[0-9a-f]{1,8})\)")
# The most cores that are kept, and the most lines of `coredumpctl --json=pretty list`, which has ten a core.
MOST_CORES, MOST_LIST_LINES = 200, 100000
# The lines of `coredumpctl info` that are read: the first of a process, its signal, and where its core is.
PROCESS = Pattern(r" {1,16}PID: ([0-9]{1,10})(?: \((.{0,256})\))?\Z")
SIGNAL = Pattern(r" {1,16}Signal: ([0-9]{1,3}) \(")
STORAGE = Pattern(r" {1,16}Storage: .* \(present\)\Z")
# The time of a record that journald has from audit, in microseconds since 1970.
SOURCE_TIME = Pattern(r"[0-9]{7,18}\Z")


class Malformed(Exception):
    """A record with a value that the kernel doesn't write: what it is."""


@dataclass(frozen=True)
class SeccompRecord:
    """An audit record of seccomp: its syscall, the high halves that the answer may have, and the process."""

    call: Call
    halves: tuple[int, ...]
    process: int | None
    name: str
    # its time and serial number, None if the line doesn't have them as numbers
    stamp: str | None


def _number(text: str, what: str, most: int, base: int = 10) -> int:
    """A field as a number, from 0 to `most`."""
    if not re.fullmatch("[0-9]{1,20}" if base == 10 else "(?:0x)?[0-9a-fA-F]{1,16}", text) or int(text, base) > most:
        raise Malformed(f"{what}={output.cut(text)} isn't {'an address' if base == 16 else f'a number up to {most}'}")
    return int(text, base)


def architecture_of(text: str | None) -> int:
    """`arch=`: in hexadecimal, or by a name."""
    if text is None:
        raise Malformed("the record has no arch=, without which its syscall isn't known")
    name = architectures.name_in(text)
    if name is not None:
        return architectures.NUMBERS[name]
    if not re.fullmatch("[0-9a-fA-F]{1,8}", text):
        raise Malformed(f"arch={output.cut(text)} isn't an architecture")
    return int(text, 16)


def named_number(name: str, architecture: int, tables: dict[str, Table]) -> int | None:
    """The number of a syscall by its name in an architecture, None if no table has it."""
    table = tables.get(architectures.profile_name(architecture) or "")
    return None if table is None else table.number_of(name)


def number_of(text: str, architecture: int, tables: dict[str, Table]) -> int:
    """`syscall=`: a number, -1, or a name."""
    if text == "-1":
        return SKIPPED
    if re.fullmatch("[0-9]{1,20}", text):
        return _number(text, "syscall", 0xFFFFFFFF)
    number = named_number(text, architecture, tables)
    if number is None:
        raise Malformed(f"syscall={output.cut(text)}: the table has no such name: print the record without -i")
    return number


def halves_of(text: str) -> tuple[int, ...]:
    """`code=`: the high half of an answer, without its data; more than one by the name of those that kill."""
    if text in CODES:
        return tuple(half for half, name in ACTIONS.items() if name in CODES[text])
    unknown = UNKNOWN_CODE.fullmatch(text)
    text = unknown[1] if unknown else text
    if not re.fullmatch("0x[0-9a-f]{1,8}", text):
        raise Malformed(f"code={output.cut(text)} isn't an action")
    if int(text, 16) & 0xFFFF:
        raise Malformed(f"code={text} has data, which the kernel leaves out")
    return (int(text, 16) >> 16,)


def name_of(text: str) -> str:
    """`comm=`: in quotes, in hexadecimal, or by ausearch -i as it is."""
    if text.startswith('"'):
        return text.strip('"')
    if re.fullmatch("(?:[0-9A-F]{2}){1,256}", text):
        return bytes.fromhex(text).decode("latin-1")
    return text[:256]


def kind_of(line: str) -> tuple[str, int] | None:
    """Which record a line has, by its type's name, and where it begins."""
    # (what may stand before a record has no `=`)
    match = BARE_KINDS.match(line) if line.startswith("type=") else RECORD_KINDS.search(line)
    return (match[match.lastindex], match.end() - 1) if match else None


def record_in(line: str, at: int, tables: dict[str, Table]) -> SeccompRecord:
    """The record of seccomp that begins there; the last fields count, since those before may have a process's words."""
    text = line[at:].partition(ENRICHED)[0]
    tails, who = list(TAIL.finditer(text)), WHO.search(text)
    if not tails:
        raise Malformed("the record is cut: it has no sig= arch= syscall= compat= ip= code=")
    _, arch, number, _, pointer, code = tails[-1].groups()
    architecture, stamp = architecture_of(arch), STAMP_OF_RECORD.search(line, at, at + 64)
    process = int(who[1]) if who and re.fullmatch("[0-9]{1,10}", who[1]) else None
    call = Call(number_of(number, architecture, tables), architecture, _number(pointer, "ip", (1 << 64) - 1, 16))
    return SeccompRecord(call, halves_of(code), process, name_of(who[2]) if who else "", stamp[1] if stamp else None)


def syscall_in(line: str, at: int, tables: dict[str, Table]) -> tuple[int, int, dict[int, int]]:
    """Of the record that begins there, of a syscall that a rule of auditctl logs: its number, its architecture, and its
    first four arguments, which the kernel writes in hexadecimal, and ausearch -i also by names."""
    match = CALL_FIELDS.search(line[at:].partition(ENRICHED)[0])
    if not match:
        raise Malformed("the record is cut: it has no arch= syscall= a0= a1= a2= a3=")
    arch, number, *arguments = match.groups()
    architecture = architecture_of(arch)
    return number_of(number, architecture, tables), architecture, {
        index: int(value, 16) for index, value in enumerate(arguments) if re.fullmatch("(?:0x)?[0-9a-f]{1,16}", value)}


def is_of(line: str, process: int, since: float | None) -> bool:
    """Whether a line has a record of a process, and none that is older than this."""
    who, stamp = WHO.search(line), STAMP_OF_RECORD.search(line)
    is_older = since is not None and stamp is not None and float(stamp[2]) < since
    return who is not None and who[1] == str(process) and not is_older


def kernel_lines() -> Iterator[str]:
    """The audit records in this machine's kernel log, oldest first (/dev/kmsg)."""
    try:
        log = os.open(KERNEL_LOG, os.O_RDONLY | os.O_NONBLOCK | os.O_CLOEXEC)
    except OSError as error:
        raise program.ToolError(f"the kernel's log can't be read: {KERNEL_LOG}: {error.strerror}") from error
    with open(log, "rb", buffering=0) as messages:
        while True:
            try:
                message = messages.read(LONGEST)
            except BrokenPipeError:
                # the kernel has written over what was to be read
                continue
            if message is None:
                return
            # (of facility 0, which a program's message never has, and at its beginning: others have words of processes)
            head, _, text = message.partition(b";")
            number = head.partition(b",")[0]
            if number.isdigit() and int(number) >> 3 == 0 and text.startswith(b"audit: type="):
                yield text.partition(b"\n")[0].decode("latin-1")


def actions_logged() -> str | None:
    """The actions that this kernel may log, None if it doesn't say."""
    try:
        with open(ACTIONS_LOGGED, encoding="ascii") as file:
            return output.escaped(file.read(256).strip())
    except (OSError, UnicodeDecodeError):
        return None


@dataclass
class Core:
    """A process that left a core: its number and name, its signal, 0 if unknown, and whether the core is there."""

    process: int
    name: str
    signal: int = 0
    is_present: bool = False

    @property
    def has_syscall(self) -> bool:
        return self.signal == SIGSYS and self.is_present

    def describe(self) -> str:
        who = f"process {self.process}" + (f" ({output.cut(self.name)})" if self.name else "")
        if self.signal != SIGSYS:
            return f"{who} was ended by signal {self.signal}, and a filter ends a process by SIGSYS"
        if not self.is_present:
            return f"{who} was ended by SIGSYS, and its core, which has the syscall, isn't kept"
        return (f"{who} was ended by SIGSYS, and its core has the syscall: coredumpctl dump {self.process} | "
                "scf why --core - ..")


def _parsed(text: str, what: str) -> Any:
    try:
        return json.loads(text)
    except (ValueError, RecursionError) as error:
        raise Malformed(f"it isn't {what}, whole and on one line") from error


def message_in(line: str) -> str:
    """The message of an entry as the kernel's log has it; an empty one if neither the kernel nor audit wrote it.
    journald puts the time and the serial number of a record that it has from audit into members of their own."""
    entry = _parsed(line, "an entry as `journalctl -o json` prints it")
    message = entry.get("MESSAGE")
    if isinstance(message, list) and all(isinstance(byte, int) and 0 <= byte < 256 for byte in message):
        # (one with a control character)
        message = bytes(message).decode("latin-1")
    if not isinstance(message, str):
        return ""
    if entry.get("_TRANSPORT") == "kernel" and entry.get("SYSLOG_FACILITY") == "0":
        # (of another facility is what programs write into the kernel's log)
        return message
    if entry.get("_TRANSPORT") != "audit":
        return ""
    microseconds, serial = entry.get("_SOURCE_REALTIME_TIMESTAMP"), entry.get("_AUDIT_ID")
    if not isinstance(microseconds, str) or not isinstance(serial, str) or not SOURCE_TIME.match(microseconds):
        return f"audit: {message}"
    kind, _, text = message.partition(" ")
    return f"audit: type={kind} audit({microseconds[:-6]}.{microseconds[-6:-3]}:{serial}): {text}"


class Cores(list):
    """The cores in the lines of `coredumpctl info`, and in its list as JSON."""

    def take(self, line: str) -> bool:
        """Takes a line of `coredumpctl info`; whether it begins a process."""
        process = PROCESS.match(line)
        if process and len(self) < MOST_CORES:
            self.append(Core(int(process[1]), process[2] or ""))
        elif self and line.startswith(" "):
            signal = SIGNAL.match(line)
            if signal:
                self[-1].signal = int(signal[1])
            elif STORAGE.match(line):
                self[-1].is_present = True
        return process is not None

    def take_list(self, first: str, lines: Iterable[str]) -> None:
        """Takes what `coredumpctl --json list` prints, of which the first line is read: on one line, or pretty."""
        if first == "[":
            first = "".join(itertools.chain(first, itertools.islice(_until_end(lines), MOST_LIST_LINES)))
        for entry in _parsed(first, "a list as `coredumpctl --json=short list` prints it"):
            process, signal = (entry.get(name) if isinstance(entry, dict) else None for name in ("pid", "sig"))
            if isinstance(process, int) and isinstance(signal, int) and len(self) < MOST_CORES:
                self.append(Core(process, str(entry.get("exe") or ""), signal, entry.get("corefile") == "present"))


def _until_end(lines: Iterable[str]) -> Iterator[str]:
    for line in lines:
        yield line
        if line == "]":
            return
