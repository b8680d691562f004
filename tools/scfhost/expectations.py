"""What is expected of a machine's containers, units and other confined programs, and the rows of an audit of these."""
from __future__ import annotations

import functools
import json
import os
from collections.abc import Callable, Iterable, Sequence

from scftools.base import program
from scftools.base.values import Any, dataclass, replace
from scftools.model.answers import ALLOW
from scftools.model.profiles import elsewhere_of
from scftools.model.tables import Table
from scftools.ask.questions import IS_ALLOWED
from scftools.ask.verdicts import SAME
from scftools.forms.filters import Filter
from scftools.forms.lists import lxc, sandbox_rules, snapd
from scftools.forms.profile_inputs import ProfileInput
from scftools.report import compare_output
from . import configurations, container_files, owned_files, sandbox_programs, units, verify
from .audit_rows import CONTAINER, OTHER_PROGRAM, UNIT, AuditRow, Expectation
from .container_files import SLICE_OF_A_USER, ContainerDescription, Membership
from .machine import Process, Snapshot
from .processes import Kernel

# The IDs of users who aren't the system's (UIDS-GIDS of systemd): from the first on, without those of services.
FIRST_USER, OF_SERVICES = 1000, range(61184, 65520)


@dataclass(frozen=True)
class Options:
    """The options of an audit: a profile that all rows should have, or one that none may exceed."""

    table: Table
    expected: tuple[str, bytes] | None = None
    baseline: tuple[str, bytes] | None = None
    is_forced: bool = False
    allows_unconfined: bool = False
    roots: tuple[str, ...] = ()
    # None for all architectures that a profile names
    scope: str | None = None
    # whether to find out what each stack allows, for a page
    has_surfaces: bool = False

    def request(self, profile: bytes, relation: str = SAME, **settings: Any) -> verify.Request:
        return verify.Request(ProfileInput(profile), self.table, self.scope, relation, **settings)

    def check(self) -> None:
        """Raises a ToolError if scf refuses a profile, the table or the limit, and leaves it to no runtime."""
        for name, profile in filter(None, (self.expected, self.baseline, ("", verify.ALLOWS_ALL))):
            comparison = self.request(profile).comparison([Filter("", IS_ALLOWED.filter)])
            fault = comparison.run()[1].fault
            if fault is not None and fault.kind not in verify.LEFT_TO_RUNTIMES:
                when, _, *where = *compare_output.fault_sentences(comparison, fault), "", ""
                sentence = " ".join(filter(None, (f"{fault.line}:", when, *where)))
                raise program.ToolError(f"'{name}': {sentence}" if fault.source == "profile" else sentence)


def of_settings(config: dict[str, Any], runtime: str | None, source: str | None, options: Options) -> Expectation:
    """The expectation of a container's settings, as its runtime applies them."""
    try:
        return Expectation(verify.request_of(config, runtime, options.table, options.scope), source)
    except configurations.ContainerError as why:
        return Expectation(source=source, why=str(why))
    except Exception as error:  # pylint: disable=broad-exception-caught
        return Expectation(source=source, why=f"'{source}' can't be read: {type(error).__name__}")


class Expectations:
    def __init__(self, options: Options) -> None:
        self.options = options
        self.of_lists: dict[object, Expectation | None] = {}
        # the main processes of units
        self.main_processes: dict[str, int] = {}

    @functools.lru_cache(None)
    def of_all(self, runtime: str | None = None) -> Expectation | None:
        """The profile of --expect, as a container's runtime applies it."""
        if self.options.expected is None:
            return None
        name, data = self.options.expected
        if runtime is None:
            return Expectation(self.options.request(data), name)
        value = json.loads(data)
        linux = value.get("linux") if isinstance(value, dict) else None
        return of_settings({"linux": linux if isinstance(linux, dict) else {"seccomp": value}}, runtime, name,
                           self.options)

    def of_container(self, container: ContainerDescription) -> Expectation:
        """The expectation of a container; what its settings mean is found out by a child."""
        if (stated := self.of_all(container.runtime)) is not None:
            return stated
        if container.engine == "LXC" and container.user is None:
            return self._of_lxc(container)
        return Expectation(source=container.config or None, why=container.why, settings=container.seccomp,
                           runtime=container.runtime)

    def _of_list(self, key: object, source: str, read: Callable[[], Expectation | None]) -> Expectation | None:
        """The expectation that is read of a sandbox's own list, or why it can't be; once for each key."""
        if key not in self.of_lists:
            try:
                self.of_lists[key] = self.of_all() or read()
            except (owned_files.UnreadableFile, sandbox_rules.ListError) as why:
                self.of_lists[key] = Expectation(source=source, why=str(why))
        return self.of_lists[key]

    def _of_groups(self, profiles: Sequence[bytes], source: str, doubt: str | None = None) -> Expectation:
        """The expectation of several profiles, each for its architectures."""
        asked, *others = (self.options.request(profile, elsewhere=elsewhere)
                          for profile, elsewhere in zip(profiles, elsewhere_of(profiles)))
        return Expectation(replace(asked, others=tuple(others)), source, doubt=doubt)

    def _of_lxc(self, container: ContainerDescription) -> Expectation:
        """The expectation of a container of LXC, whose configuration only its name tells."""
        path = os.path.join(sandbox_programs.LXC_CONTAINERS, container.identifier, "config")

        def read() -> Expectation:
            if (policy_path := sandbox_programs.lxc_policy(path)) is None:
                return Expectation(source=path)
            policy = lxc.read_lxc_policy(owned_files.read_own(policy_path, sandbox_rules.MOST_LIST_BYTES))
            policies = [policy, *policy.others] if self.options.scope is None else [policy]
            return self._of_groups([each.data() for each in policies], policy_path)

        return self._of_list(path, path, read)

    def of_firejail(self, sandbox: sandbox_programs.Firejail) -> Expectation:
        return self._of_list(sandbox, sandbox.profile, lambda: Expectation(
            self.options.request(sandbox.policy().data()), sandbox.profile))

    def of_snap(self, tag: str) -> Expectation | None:
        """The expectation of the programs with a snap's security tag, None if the tag has no filter."""
        path = os.path.join(sandbox_programs.SNAP_RULES, f"{tag}.src")

        def read() -> Expectation | None:
            policy = snapd.read_snap_template(owned_files.read_own(path, sandbox_rules.MOST_LIST_BYTES))
            return None if policy.default == ALLOW else Expectation(self.options.request(policy.data()), path,
                                                                    beside=sandbox_programs.filter_of_all_snaps())

        return self._of_list(tag, path, read)

    def of_units(self, names: Sequence[str]) -> dict[str, Expectation]:
        stated = self.of_all()
        if stated is not None or not names:
            return {name: stated for name in names if stated is not None}
        try:
            shown = {properties.get("Id", ""): properties for properties in units.shown_by_systemctl(names)}
        except program.ToolError as why:
            return {name: Expectation(source="systemctl", why=str(why)) for name in names}
        reader = units.ListReader(units.all_groups, lambda _: None)
        self.main_processes = {name: int(properties["MainPID"]) for name, properties in shown.items()
                               if properties.get("MainPID", "").isdecimal()}
        return {name: self._of_unit(name, shown.get(name), reader) for name in names}

    def _of_unit(self, name: str, shown: dict[str, str] | None, reader: units.ListReader) -> Expectation:
        source = f"systemctl show {name}"
        if shown is None:
            return Expectation(source=source, why="systemctl shows no such unit")
        try:
            settings = units.settings_in(shown, name, reader)
            if not settings.have_filters:
                return Expectation(source=source)
            # (one profile names all if x86-64 alone is judged)
            groups = units.groups_of(settings) if self.options.scope is None else [settings.architectures]
            profiles = [units.profile_of(settings, group).encode() for group in groups]
        except program.ToolError as why:
            return Expectation(source=source, why=str(why))
        return self._of_groups(profiles, source, settings.doubt)


class RowMaker:
    """The rows of a machine's processes, without their parts."""

    def __init__(self, kernel: Kernel, snapshot: Snapshot, expectations: Expectations,
                 containers: Iterable[ContainerDescription]) -> None:
        self.kernel, self.snapshot, self.expectations = kernel, snapshot, expectations
        self.members = Membership(kernel, containers, snapshot.processes)
        self.sandboxes, self.tags = sandbox_programs.firejails_of(snapshot.processes), sandbox_programs.snap_tags()
        units_of = map(container_files.unit_of, snapshot.processes.values())
        self.of_units = expectations.of_units(sorted({unit for unit in units_of if unit is not None}))

    def rows(self) -> list[AuditRow]:
        rows: dict[tuple[object, ...], AuditRow] = {}
        for process in self.snapshot.processes.values():
            if (row := self.row_of(process)) is not None:
                rows.setdefault((row.kind, row.user, row.place or row.key), row).processes.append(process)
        # where a container's description stands is added to its key if one before it of the same user has the key, too:
        # those come first that files describe, then those that only a group's name tells
        seen: set[tuple[int | None, str]] = set()
        for row in sorted((row for row in rows.values() if row.container is not None), key=lambda row: (
                not row.container.folder, row.place)):
            if (row.user, row.key) in seen:
                row.key = f"{row.key} of {row.place}"
            seen.add((row.user, row.key))
        return list(rows.values())

    def row_of(self, process: Process) -> AuditRow | None:
        """A new row for a process, None for one without a filter that is in no container and no unit."""
        unit = container_files.unit_of(process)
        container = self.members.container_of(process, unit is not None and self.of_units[unit].is_stated)
        if container is not None:
            return AuditRow(CONTAINER, container.identifier, [], self.expectations.of_container(container), container,
                            container.user)
        tag, owner = sandbox_programs.snap_tag_of(self.kernel, process) if self.tags else (None, None)
        of_snap = self.expectations.of_snap(tag) if tag in self.tags else None
        if of_snap is not None:
            return AuditRow(OTHER_PROGRAM, tag, [], of_snap, user=owner)
        if unit is not None:
            return AuditRow(UNIT, unit, [], self.of_units[unit], user=self.user_in_unit(process, unit))
        if not process.is_confined:
            return None
        path = os.fsdecode(process.executable) or f"unknown ({os.fsdecode(process.name)})"
        sandbox, expected = self.sandboxes[process.number], self.expectations.of_all() or Expectation()
        if sandbox is not None:
            path, expected = f"{path} in firejail {sandbox.number}", self.expectations.of_firejail(sandbox)
        return AuditRow(OTHER_PROGRAM, path, [], expected, user=process.owner or None)

    def user_in_unit(self, process: Process, unit: str) -> int | None:
        """The user who has brought a process into a unit, None if it is the unit's own: one of the system's users has
        it, or the one as whom the unit's main process runs."""
        main = self.snapshot.processes.get(self.expectations.main_processes.get(unit, 0))
        is_of_user = any(map(SLICE_OF_A_USER.match, process.groups.values()))
        is_own = process.owner < FIRST_USER or process.owner in OF_SERVICES or \
            main is not None and main.owner == process.owner
        return None if is_own and not is_of_user else process.owner or None
