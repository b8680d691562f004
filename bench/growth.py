"""Comparisons of sides that answer alike, small and large: how their cost grows with what they are made of."""
import functools
import json
import os
import random
import subprocess

import pairs
from pairs import ALLOW, EPERM, KILL_PROCESS, X86_64, insn

SCF = os.path.join(pairs.TOP, "crates", "scf", "out", "scf")
TABLE = b"call_0 0\n"


def part(kind, data):
    return b"%s %d\n" % (kind.encode(), len(data)) + data


def beside(left, right):
    """Two stacks of filters, as words of scf and a bundle."""
    return ["compare", "--beside"], b"".join(
        [part("filter", data) for data in left] + [part("beside", data) for data in right])


def profile_of(entries):
    """The parts of a profile of one syscall that gives EPERM where no entry allows."""
    text = {"defaultAction": "SCMP_ACT_ERRNO", "syscalls": [
        {"names": ["call_0"], "action": "SCMP_ACT_ALLOW",
         "args": [{"index": index, "value": value, "op": f"SCMP_CMP_{operator}"}
                  for index, operator, value in conditions]}
        for conditions in entries]}
    return part("profile", json.dumps(text).encode()) + part("table", TABLE)


def with_profile(data, entries):
    """A filter, and such a profile."""
    return ["compare", "--native"], part("filter", data) + profile_of(entries)


def of_compiled(count, shift=0):
    """As many values of one argument, or of its high half, beside the filter that is compiled of them."""
    given = profile_of([[(0, "EQ", 3 * number << shift)] for number in range(count)])
    compiled = subprocess.run([SCF, "compile"], input=given, stdout=subprocess.PIPE, check=True).stdout
    return ["compare", "--native"], part("filter", compiled) + given


def of_equal_arguments(count):
    """What a profile answers in which as many rules want two arguments to have one value."""
    return ["answers"], profile_of([[(0, "EQ", number), (1, "EQ", number)] for number in range(count)])


def of_one_call(body):
    """A filter that refuses all calls but number 0, which its body answers."""
    head = insn(0x20, 4) + insn(0x15, X86_64, 1, 0) + insn(0x06, KILL_PROCESS)
    return head + insn(0x20, 0) + insn(0x15, 0, 1, 0) + insn(0x06, EPERM) + body + insn(0x06, EPERM)


def load(argument, is_high=False):
    return insn(0x20, 16 + 8 * argument + 4 * is_high)


def allowing(values):
    """Allows where arguments have these values, and goes on behind where they don't."""
    body = insn(0x06, ALLOW)
    for argument, value in reversed(values):
        for is_high, half in ((False, value & 0xFFFFFFFF), (True, value >> 32)):
            body = load(argument, is_high) + insn(0x15, half, 0, len(body) // 8) + body
    return body


def of_values(count, shift=0):
    """As many values of one argument, or of its high half, in a drawn order."""
    rules = [[(0, value << shift)] for value in random.Random(count).sample(range(1, 10 * count), count)]
    return of_rules(rules)


def of_pairs(count):
    """As many rules of one syscall with two conditions."""
    return of_rules([[(0, number), (1, number)] for number in range(count)])


def of_rules(rules):
    return with_profile(of_one_call(b"".join(map(allowing, rules))),
                        [[(argument, "EQ", value) for argument, value in values] for values in rules])


def of_exchanged(count):
    """Two lists of as many numbers, in the second of which neighbours change places."""
    numbers = list(range(0, 2 * count, 2))
    other = [number for at in range(0, count, 2) for number in reversed(numbers[at:at + 2])]
    return beside([pairs.listing(numbers)], [pairs.listing(other)])


def of_drawn(count):
    """Two lists of as many numbers, the second one in a drawn order."""
    left, right = pairs.of_numbers(count)
    return beside([left], [right])


def refusing(number):
    """A filter that refuses one number."""
    return insn(0x20, 0) + insn(0x15, number, 0, 1) + insn(0x06, EPERM) + insn(0x06, ALLOW)


def of_reversed(count):
    """Two stacks of as many filters, the second one reversed."""
    filters = [refusing(number) for number in range(count)]
    return beside(filters, filters[::-1])


def of_ten_tests(count):
    """As many filters that each refuse ten numbers, by a test of each."""
    return [b"".join([insn(0x20, 0), *(insn(0x15, 10 * place + number, 10 - number) for number in range(10)),
                      insn(0x06, ALLOW), insn(0x06, EPERM)]) for place in range(count)]


def of_more(count):
    """As many filters beside themselves and one more that changes nothing."""
    filters = of_ten_tests(count)
    return beside(filters, [*filters, filters[0]])


def of_themselves(count):
    """As many filters beside themselves."""
    return beside(of_ten_tests(count), of_ten_tests(count))


def of_answers(count):
    """What as many filters answer."""
    return ["answers"], b"".join(part("filter", data) for data in of_ten_tests(count))


def of_unequal(count, operator="NE"):
    """One rule with as many conditions that each refuse one value, or the values below it."""
    body = insn(0x06, ALLOW)
    for argument in reversed(range(count)):
        beyond = len(body) // 8
        # (a value with a high half is neither 9 nor below it)
        low = insn(0x15, 9, beyond, 0) if operator == "NE" else insn(0x35, 9, 0, beyond)
        body = load(argument, True) + insn(0x15, 0, 0, 2) + load(argument) + low + body
    return with_profile(of_one_call(body), [[(argument, operator, 9) for argument in range(count)]])


# What grows, the comparison of so many, and the sizes.
ROWS = (
    ("values of one argument", of_values, (50, 100, 200, 400)),
    ("  of its high half", functools.partial(of_values, shift=32), (50, 100, 200, 400)),
    ("values, beside the compiled filter", of_compiled, (256, 512, 1024, 2048)),
    ("  of its high half", functools.partial(of_compiled, shift=32), (64, 128, 256, 512)),
    ("rules of two conditions", of_pairs, (10, 20, 40, 80)),
    ("numbers, neighbours exchanged", of_exchanged, (100, 200, 400, 800)),
    ("numbers in a drawn order", of_drawn, (100, 200, 400, 800)),
    ("filters, the second stack reversed", of_reversed, (2, 4, 8, 16)),
    ("rules of two equal arguments, answers", of_equal_arguments, (80, 160, 320, 640)),
    ("filters of ten tests, themselves", of_themselves, (7, 14, 28, 56)),
    ("  answers", of_answers, (7, 14, 28, 56)),
    ("filters, and one more", of_more, (7, 14, 28)),
    ("conditions by NE of one rule", of_unequal, (1, 2, 3, 4, 5, 6)),
    ("conditions by GE of one rule", functools.partial(of_unequal, operator="GE"), (1, 2, 3, 4, 5, 6)),
)
