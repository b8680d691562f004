"""Regions of records, as `scf answers` prints them, judged by a second machine and a second reading of profiles: every
record lies in exactly one region, or only in open ones, and gets the answer that stands there."""
import random
import unittest

from support.common import part

import kernel_programs
from support import several
from support.judged import record_of
from support.on_parts import ran
from support.stand_in import StandIn, unpacked, words_of
from scftools.ask.regions import parse_regions

WORD = (1 << 32) - 1
# The most steps of a drawn stack: random jumps have very many paths.
STEPS = 2000


def has(region, record):
    """Whether a record, as its sixteen words, lies in a region."""
    return all(values.has(record[at]) for at, values in region.words.items())


def drawn_records(dice, programs, count):
    """Records whose words are constants of the filters, or beside them, or drawn."""
    constants = kernel_programs.constants([[kernel_programs.Insn(code, k) for code, _, _, k in program]
                                           for program in programs])
    for _ in range(count):
        record = []
        for at in range(16):
            near = sorted(constants.get(at, constants[-1]))
            record.append(dice.choice((dice.choice(near) + dice.choice((0, 0, 1, -1)), dice.getrandbits(32), 0)) & WORD)
        yield record


class Regions(unittest.TestCase):
    """What the program prints, as the tools read it, judged by another machine and another reading of profiles."""

    def regions_of(self, bundle, *words):
        """The regions, each with its record's words, which an open one may lack; None if they are unfinished."""
        out, status = ran(["answers", "--examples", f"--limit={10 * STEPS}", *words], bundle)
        if status == 4:
            self.assertEqual(out, b"unfinished\n")
            return None
        return [(region, region.call and words_of(region.call)) for region in parse_regions(out.decode())]

    def lies(self, regions, record, answer):
        """The region of a record with this answer."""
        having = [region for region, _ in regions if has(region, record)]
        exact = [region for region in having if region.is_exact]
        self.assertTrue(len(exact) == 1 or not exact and having, record)
        answers = [region.answer and region.answer.word for region in exact or having]
        self.assertTrue(None in answers or answer in answers, record)
        return exact[0] if exact else None

    def of_stack(self, filters, records):
        """Judges the regions of a stack by records, and by those that are printed."""
        regions = self.regions_of(b"".join(part("filter", data) for data in filters))
        if regions is None:
            return 0
        programs, machine = [unpacked(data) for data in filters], StandIn()
        for record in (*records, *(shown for _, shown in regions if shown)):
            answer = machine.decision_of(programs, record)
            region = self.lies(regions, record, answer)
            if region is not None and region.answer is not None:
                at, index = map(int, region.line.split(" at ")[1].split(":"))
                path = []
                self.assertEqual(machine.answer(programs[at], record, path), answer, record)
                self.assertEqual(path[-1], index, record)
        for region, shown in regions:
            self.assertTrue(shown is None or has(region, shown), shown)
        return len(records)

    def of_profile(self, reading, records):
        """Judges the regions of a profile."""
        bundle = b"".join(part(*kind_and_data) for kind_and_data in [("profile", several.text(reading.profile)),
                                               *several.tables_of(reading.given)])
        is_native = reading.given == ["SCMP_ARCH_X86_64"]
        regions = self.regions_of(bundle, *([] if is_native else ["--architectures"]))
        for region, record in regions:
            self.assertTrue(has(region, record) and region.is_exact, record)
        for record in (*records, *(shown for _, shown in regions)):
            arguments = [record[at] | record[at + 1] << 32 for at in range(4, 16, 2)]
            answer, reason = reading.answer(record[1], record[0], arguments)
            if reason == "foreign" and not is_native:
                self.assertFalse(any(has(region, record) for region, _ in regions))
                continue
            region = self.lies(regions, record, answer)
            self.assertEqual(region.line, f"{StandIn().printed(answer)} {reason}", record)
        return len(records)

    def test_stacks(self):
        """Drawn stacks, whose filters compute, jump and store at random."""
        dice, count = random.Random(71), 0
        while count < 5000:
            stack = kernel_programs.random_stack(dice)
            filters = [kernel_programs.packed(program) for program in stack]
            count += self.of_stack(filters, list(drawn_records(dice, stack, 20)))

    def test_profiles(self):
        """Drawn profiles for several architectures, and filters of them."""
        dice, count = random.Random(72), 0
        while count < 5000:
            reading = several.draw(dice)
            if reading.fault() is not None:
                continue
            records = [record_of(number, arch, 0, arguments)
                       for name in reading.rules for arch, number, arguments in reading.records(name, dice, 2)]
            records = dice.sample(records, min(len(records), 40)) + [record_of(0, 0x28, 0, [0] * 6)]
            count += self.of_profile(reading, records)
            parts = [("profile", several.text(reading.profile)), *several.tables_of(reading.given)]
            compiled, _ = ran(["compile", "--architectures"], b"".join(part(*each) for each in parts))
            self.of_stack([compiled], records[:10])
