"""Pairs of inputs whose filters compute before they test.

A filter beside a profile: each pair has one to three calls, one of which the profile allows by a condition that the
filter tests by a construct. A filter beside another: both compute the same, one by a rewrite of the other, of one word
or two of the record, and allow or deny. Both sides agree, or a constant of a filter is changed.
"""
import functools
import json
import operator

from .common import ALLOW, EPERM, KILL_PROCESS, X32, X86_64, insn
from .judged import MACHINE, WORD, Pair, Profile, Stack

LD, LDX, TAX, TXA, NEG, ST, RET, RET_A = 0x20, 0x01, 0x07, 0x87, 0x84, 0x02, 0x06, 0x16
# Loads of a constant, and of scratch words to A and to X.
LD_K, LD_M, LDX_M = 0x00, 0x60, 0x61
ADD, SUB, MUL, DIV, OR, AND, LSH, RSH, XOR = 0x04, 0x14, 0x24, 0x34, 0x44, 0x54, 0x64, 0x74, 0xA4
JA, JEQ, JGT, JGE, JSET = 0x05, 0x15, 0x25, 0x35, 0x45
# The other operand is X.
X = 0x08
NUMBER, ARCHITECTURE, ARGUMENTS = 0, 4, 16


def condition(op, value, two=0, code=()):
    """A condition as a profile has it, and instructions that test it: each is a code and a constant, a test has the
    labels that it goes to, too, and a jump has a label alone. They end at `yes` and `no`, or return; the argument's
    words stand at `low` and four bytes further on."""
    return {"value": value, "op": op, "valueTwo": two}, code


def masked(mask, value, low, *code):
    """The low word under a mask."""
    return condition("SCMP_CMP_MASKED_EQ", mask, value, [(LD, low), *code])


def equal(value, low, *code):
    """A number below 2^32, by its low word; the high word is tested before."""
    return condition("SCMP_CMP_EQ", value, code=[(LD, low + 4), (JEQ, 0, "next", "no"), "next", (LD, low), *code])


def least(value, low, *code):
    """At least a number below 2^32: a greater high word decides."""
    return condition("SCMP_CMP_GE", value, code=[(LD, low + 4), (JGT, 0, "yes", "next"), "next", (LD, low), *code])


def most(value, low, *code):
    return condition("SCMP_CMP_LE", value, code=[(LD, low + 4), (JEQ, 0, "next", "no"), "next", (LD, low), *code])


def is_equal(value, yes="yes", no="no"):
    return JEQ, value & WORD, yes, no


def some_mask(dice):
    return dice.choice((0xFF, 0xF0, 0x3, 0x80000001, 0xFFFF0000, 0x7FFFFFFF, 1 << dice.randrange(32),
                        dice.getrandbits(32) or 1))


def value_in(dice, mask):
    return dice.getrandbits(32) & mask


def of_any_length(dice):
    """A number from 1 on, of any count of bits."""
    return dice.randrange(1, 1 << dice.randrange(1, 33))


def odd(dice):
    return dice.choice((3, 5, 7, 0x10001, WORD, of_any_length(dice) | 1))


# Tests whether what is computed is 0; and codes that return the answer that belongs to a bit, which is set if the
# condition holds.
ZERO_TESTS = (is_equal(0), (JSET, WORD, "no", "yes"), (JGT, 0, "no", "yes"), (JGE, 1, "no", "yes"))
ANSWERS_OF_BIT = ([(MUL, ALLOW - EPERM), (ADD, EPERM), (RET_A, 0)],
                  [(NEG, 0), (AND, ALLOW ^ EPERM), (XOR, EPERM), (RET_A, 0)])


def is_zero(dice):
    return dice.choice(ZERO_TESTS)


# What is drawn for a construct of a word: a mask, a value that has no other bit, and a number

def under(dice, mask, number):
    return mask, value_in(dice, mask), number


def any_mask(dice):
    return under(dice, some_mask(dice), dice.getrandbits(32))


def low_bits(dice):
    by = dice.randrange(1, 31)
    return under(dice, WORD >> by, by)


def some_low_bits(dice):
    by = dice.randrange(1, 31)
    return under(dice, WORD >> by & (dice.getrandbits(32) | 1 if dice.random() < 0.5 else WORD), by)


def high_bits(dice):
    by = dice.randrange(1, 31)
    return under(dice, WORD >> by << by, by)


def middle_bits(dice):
    by, width = dice.randrange(1, 31), dice.randrange(1, 32)
    return under(dice, (1 << width) - 1 << by & WORD, by)


def bits_of_product(dice):
    """A factor of 2^n drops the highest n bits."""
    factor = of_any_length(dice)
    return under(dice, WORD // (factor & -factor), factor)


def but_few_bits(dice):
    """Few bits are left out, whose values scf tries one by one."""
    part_of_it = of_any_length(dice) & 0xFF << dice.randrange(25) or 1
    return under(dice, ~part_of_it & WORD, part_of_it)


def but_a_bit(dice):
    bit = 1 << dice.randrange(32)
    return under(dice, WORD ^ bit, bit)


def a_bit(dice):
    at = dice.randrange(32)
    return 1 << at, 1 << at, at


def shifted(codes, mask, *test):
    """Codes of a shift, behind each of which a test is, under a mask unless that has all bits."""
    return [[*code, *([(AND, mask)] if mask is not None else []), *test] for code in codes]


# Constructs of a word by what is drawn: each gives the codes of which one is drawn, of an argument whose low word
# stands at `low`.
OF_MASK = {
    any_mask: {
        "mask": lambda mask, value, _, __: [[(AND, mask), is_equal(value)]],
        "mask in x": lambda mask, value, _, __: [[(LDX, mask), (AND | X, 0), is_equal(value)]],
        "word in x": lambda mask, value, _, __: [[(TAX, 0), (LD_K, mask), (AND | X, 0), is_equal(value)]],
        "or": lambda mask, value, _, __: [[(OR, ~mask & WORD), is_equal(value | ~mask)]],
        "xor and mask": lambda mask, value, _, __: [[(XOR, value), *test] for test in (
            [(AND, mask), is_equal(0)], [(JSET, mask, "no", "yes")], [(OR, ~mask & WORD), is_equal(~mask)])],
        "offset under mask": lambda mask, value, by, _: [[(AND, mask), *test] for test in (
            [(ADD, by), is_equal(value + by)], [(SUB, by), is_equal(value - by)], [(NEG, 0), is_equal(-value)],
            [(XOR, WORD), (ADD, by), is_equal(~value + by)])]},
    (lambda dice: (some_mask(dice), 0, 0)): {"bits": lambda mask, _, __, ___: [[(JSET, mask, "no", "yes")]]},
    high_bits: {"division": lambda _, value, by, __: [[(DIV, 1 << by), is_equal(value >> by)]]},
    low_bits: {"product": lambda _, value, by, __: [[(MUL, 1 << by), is_equal(value << by)]]},
    some_low_bits: {"left shift": lambda mask, value, by, _: shifted(
        ([(LSH, by)], [(LDX, by), (LSH | X, 0)]), mask << by & WORD if mask != WORD >> by else None,
        is_equal(value << by))},
    middle_bits: {"right shift": lambda mask, value, by, _: shifted(
        ([(RSH, by)], [(LDX, by), (RSH | X, 0)]), mask >> by if mask >> by != WORD >> by else None,
        is_equal(value >> by))},
    (lambda dice: under(dice, WORD >> dice.randrange(1, 32), odd(dice))): {
        "odd product under mask": lambda mask, value, factor, _: [
            [(MUL, factor), (AND, mask), is_equal(value * factor & mask)]]},
    bits_of_product: {"any product": lambda _, value, factor, __: [[(MUL, factor), is_equal(value * factor)]]},
    (lambda dice: under(dice, WORD >> 1, 0)): {
        "sum with itself": lambda _, value, __, ___: [[(TAX, 0), (ADD | X, 0), is_equal(2 * value)]]},
    but_few_bits: {"word less part": lambda _, value, part_of_it, low: [
        [(AND, part_of_it), (TAX, 0), (LD, low), (SUB | X, 0), is_equal(value)]]},
    but_a_bit: {"cleared bit": lambda _, value, bit, __: [
        [*stored((JSET, bit, "set", "clear"), [(SUB, bit)], []), is_equal(value)]]},
    a_bit: {"returned bit": lambda _, __, at, ___: [[(RSH, at), (AND, 1), *end] for end in ANSWERS_OF_BIT]},
}
# Of a value, and a number.
OF_VALUE = {
    (lambda dice: (dice.getrandbits(32), dice.getrandbits(32))): {
        "copies": lambda value, _, __: [
            [(ST, 3), (LD_K, 7), (LD_M, 3), (TAX, 0), (LD_K, 0), (TXA, 0), is_equal(value)]],
        "identity": lambda value, _, __: [[*code, is_equal(value)] for code in (
            [(ADD, 0)], [(SUB, 0)], [(OR, 0)], [(XOR, 0)], [(RSH, 0)], [(LSH, 0)], [(MUL, 1)], [(DIV, 1)],
            [(LDX, 1), (DIV | X, 0)], [(LDX, 1), (MUL | X, 0)], [(LDX, 0), (ADD | X, 0)], [(LDX, 0), (RSH | X, 0)])],
        "xor": lambda value, by, _: [[(XOR, by), is_equal(value ^ by)]],
        "offset": lambda value, by, _: [[(ADD, by), is_equal(value + by)], [(SUB, by), is_equal(value - by)]],
        "negation": lambda value, _, __: [[(NEG, 0), is_equal(-value)]],
        "difference": lambda value, by, _: [[(TAX, 0), (LD_K, by), (SUB | X, 0), is_equal(by - value)]],
        "halves": lambda value, _, low: [[(RSH, 16), (JEQ, value >> 16, "then", "no"), "then", (LD, low),
                                          (AND, 0xFFFF), is_equal(value & 0xFFFF)]],
        "joined halves": lambda value, _, low: [
            [(RSH, 16), (XOR, value >> 16), (TAX, 0), (LD, low), (AND, 0xFFFF), (XOR, value & 0xFFFF), (OR | X, 0),
             test] for test in ZERO_TESTS],
        "three times": lambda value, _, __: [[(TAX, 0), (ADD | X, 0), (ADD | X, 0), is_equal(3 * value)]],
        "returned scratch word": lambda value, _, __: [
            [*stored((JEQ, value, "set", "clear"), [(LD_K, ALLOW)], [(LD_K, EPERM)]), (RET_A, 0)]],
        # (a number OR its negation has its highest bit set if it isn't 0)
        "returned equality": lambda value, _, __: [
            [(XOR, value), (TAX, 0), (NEG, 0), (OR | X, 0), (RSH, 31), (XOR, 1), *end] for end in ANSWERS_OF_BIT]},
    # (an odd factor has an inverse modulo 2^32)
    (lambda dice: (dice.getrandbits(32), odd(dice))): {
        "odd product": lambda value, factor, _: [[(MUL, factor), is_equal(value * factor)]]},
    (lambda dice: (dice.getrandbits(32), some_mask(dice))): {
        "sum of parts": lambda value, mask, low: [
            [(AND, mask), (TAX, 0), (LD, low), (AND, ~mask & WORD), (ADD | X, 0), is_equal(value)]]},
    (lambda dice: (dice.getrandbits(32), of_any_length(dice))): {
        "quotient and remainder": lambda value, divisor, low: [
            [(DIV, divisor), (JEQ, value // divisor, "then", "no"), "then", (MUL, divisor), (TAX, 0), (LD, low),
             (SUB | X, 0), is_equal(value % divisor)]]},
}
# Of the least value, and a number.
OF_LEAST = {
    (lambda dice: (dice.randrange(1, 1 << 32), 0)): {
        "order in x": lambda value, _, __: [[(LDX, value), (JGE | X, 0, "yes", "no")]],
        "order of offset": lambda value, _, __: [[(SUB, value), (JGT, WORD - value, "no", "yes")]],
        "order of negation": lambda value, _, __: [[(NEG, 0), (JEQ, 0, "no", "then"), "then",
                                                    (JGT, (1 << 32) - value, "no", "yes")]],
        "order of complement": lambda value, _, __: [[(XOR, WORD), (JGT, value ^ WORD, "no", "yes")]],
        "order of difference": lambda value, _, __: [[(TAX, 0), (LD_K, value - 1), (SUB | X, 0),
                                                      (JGE, value, "yes", "no")]]},
    (lambda dice: high_bits(dice)[1:]): {
        "order of high bits": lambda value, by, _: [
            [(AND, WORD >> by << by), (JGE, value, "yes", "no")],
            [(AND, WORD >> by << by), (JGT, max(value, 1) - 1, "yes", "no" if value else "yes")],
            [(RSH, by), (JGE, value >> by, "yes", "no")]],
        "order of high complement": lambda value, by, _: [
            [*code, (JGT, (WORD >> by << by) - value, "no", "yes")] for code in (
                [(XOR, WORD), (AND, WORD >> by << by)], [(AND, WORD >> by << by), (XOR, WORD >> by << by)])]},
    # (an order of the high bits, and where they are equal, of the low ones)
    (lambda dice: (dice.getrandbits(32), dice.randrange(1, 32))): {
        "order of low bits": lambda value, by, low: [
            [(RSH, by), (JGT, value >> by, "yes", "then"), "then", (JEQ, value >> by, "more", "no"), "more", (LD, low),
             (AND, (1 << by) - 1), (JGE, value & (1 << by) - 1, "yes", "no")]]},
    (lambda dice: (dice.randrange((1 << 31) + 1, 1 << 32), 0)): {
        "returned quotient": lambda value, _, __: [[(DIV, value), *end] for end in ANSWERS_OF_BIT]},
}


def of_row(made, count, draw, codes, dice, low):
    """The condition of a row, by so many of the drawn numbers."""
    drawn = draw(dice)
    return made(*drawn[:count], low, *dice.choice(codes(*drawn, low)))


# Other constructs

def by_high_bits(dice, low):
    by = dice.randrange(1, 31)
    mask = WORD >> by << by
    return most((1 << by) - 1, low, *dice.choice((
        [(JSET, mask, "no", "yes")], [(RSH, by), is_equal(0)], [(AND, mask), is_equal(0)])))


# Parts of a word joined

def by_joined_masks(dice, low):
    first, second = some_mask(dice), some_mask(dice)
    value = value_in(dice, first | second)
    by = dice.getrandbits(32)
    parts = (AND, first), (TAX, 0), (LD, low), (AND, second)
    return masked(first | second, value, low, *dice.choice((
        [*parts, (OR | X, 0), is_equal(value)],
        [(OR, ~first & WORD), (TAX, 0), (LD, low), (OR, ~(second & ~first) & WORD), (AND | X, 0),
         is_equal(value | ~(first | second))],
        [(AND, first), (TAX, 0), (LD, low), (AND, second & ~first), (XOR, by), (XOR | X, 0), is_equal(value ^ by)])))


# Both words of an argument joined

def by_joined_words(dice, low):
    value = dice.getrandbits(64)
    return condition("SCMP_CMP_EQ", value, code=[(LD, low + 4), (XOR, value >> 32), (TAX, 0), (LD, low),
                                                 (XOR, value & WORD), (OR | X, 0), is_equal(0)])


def by_joined_words_under_masks(dice, low):
    high_mask, low_mask = some_mask(dice), some_mask(dice)
    high, value = value_in(dice, high_mask), value_in(dice, low_mask)
    return condition("SCMP_CMP_MASKED_EQ", high_mask << 32 | low_mask, high << 32 | value,
                     [(LD, low + 4), (AND, high_mask), (XOR, high), (TAX, 0), (LD, low), (AND, low_mask), (XOR, value),
                      (OR | X, 0), is_zero(dice)])


# Orders of a word under any mask

def top_of(dice, mask):
    """Some of the highest bits of a mask."""
    bits = [bit for bit in range(31, -1, -1) if mask >> bit & 1]
    return sum(1 << bit for bit in bits[:dice.randint(1, len(bits))])


def at_least(dice, less, value, yes, no):
    """An order that parts `value` and what is more from `less` and what is less; nothing lies between."""
    number = dice.randint(less + 1, value)
    return dice.choice(((JGE, number, yes, no), (JGT, number - 1, yes, no)))


def by_order_under_mask(dice, low):
    """At least the value of a mask's highest bits: all of these are set."""
    mask = some_mask(dice)
    top = top_of(dice, mask)
    return masked(top, top, low, (AND, mask), at_least(dice, top & top - 1 | mask & ~top, top, "yes", "no"))


def by_order_below_under_mask(dice, low):
    """Less than the lowest of a mask's highest bits: none of these is set."""
    mask = some_mask(dice)
    top = top_of(dice, mask)
    return masked(top, 0, low, (AND, mask), at_least(dice, mask & ~top, top & -top, "no", "yes"))


def by_orders_under_mask(dice, low):
    """Between the values that have a mask's highest bits in common."""
    mask = some_mask(dice)
    top = top_of(dice, mask)
    value = value_in(dice, top)
    return masked(top, value, low, (AND, mask), (JGE, value, "then", "no"), "then",
                  (JGT, value | mask & ~top, "no", "yes"))


def by_order_behind_high_bits(dice, low):
    """A mask with a gap, once its high bits are tested."""
    by = dice.randrange(2, 31)
    high, mask = WORD >> by << by, dice.getrandbits(by) or 1
    value, top = value_in(dice, high), top_of(dice, mask)
    return masked(high | top, value | top, low, (AND, high), (JEQ, value, "then", "no"), "then", (LD, low),
                  (AND, high | mask), at_least(dice, value | top & top - 1 | mask & ~top, value | top, "yes", "no"))


# Products and quotients by constants

def by_order_of_product(dice, low):
    """The word is known to be small."""
    factor = dice.randrange(2, 1 << dice.randrange(2, 31))
    bound = dice.randint(1, WORD // factor)
    value = dice.randrange(bound)
    if dice.random() < 0.5:
        return most(value, low, (JGE, bound, "no", "then"), "then", (MUL, factor),
                    (JGT, factor * value + dice.randrange(factor), "no", "yes"))
    return least(value, low, (JGE, bound, "yes", "then"), "then", (MUL, factor),
                 (JGE, max(factor * value - dice.randrange(factor), 0), "yes", "no"))


def by_order_of_quotient(dice, low):
    divisor = of_any_length(dice)
    value = dice.randint(0, WORD // divisor)
    if dice.random() < 0.5:
        return most(min(value * divisor + divisor - 1, WORD), low, (DIV, divisor), (JGT, value, "no", "yes"))
    return least(value * divisor, low, (DIV, divisor), (JGE, value, "yes", "no"))


def by_least_or_greatest_quotient(dice, low):
    divisor = of_any_length(dice)
    if dice.random() < 0.5:
        return most(divisor - 1, low, (DIV, divisor), is_equal(0))
    return least(WORD // divisor * divisor, low, (DIV, divisor), is_equal(WORD // divisor))


def by_square(dice, low):
    """Of a word of 16 bits."""
    value = dice.getrandbits(16)
    return most(value, low, (JGT, 0xFFFF, "no", "then"), "then", (TAX, 0), (MUL | X, 0),
                (JGT, value * value + dice.randint(0, 2 * value), "no", "yes"))


# Two words, of which the high one is tested to be a constant

def of_words(value, low, *code):
    """A number of 64 bits; the high word is tested, and in X."""
    return condition("SCMP_CMP_EQ", value, code=[(LD, low + 4), (JEQ, value >> 32, "next", "no"), "next", (TAX, 0),
                                                 (LD, low), *code])


def least_of_words(value, low, *code):
    return condition("SCMP_CMP_GE", value, code=[(LD, low + 4), (JGT, value >> 32, "yes", "next"), "next",
                                                 (JEQ, value >> 32, "then", "no"), "then", (TAX, 0), (LD, low), *code])


def by_product_of_words(dice, low):
    high, value = odd(dice), dice.getrandbits(32)
    return of_words(high << 32 | value, low, (MUL | X, 0), is_equal(value * high))


def by_quotient_of_words(dice, low):
    high = of_any_length(dice)
    value = dice.randint(0, WORD // high)
    return least_of_words(high << 32 | value * high, low, (DIV | X, 0), (JGE, value, "yes", "no"))


def by_shift_by_word(dice, low):
    by = dice.randrange(1, 31)
    code, mask = dice.choice(((LSH, WORD >> by), (RSH, WORD >> by << by)))
    value = value_in(dice, mask)
    return condition("SCMP_CMP_MASKED_EQ", WORD << 32 | mask, by << 32 | value,
                     [(LD, low + 4), (JEQ, by, "next", "no"), "next", (TAX, 0), (LD, low), (code | X, 0),
                      is_equal(value << by if code == LSH else value >> by)])


def by_sum_of_words(dice, low):
    high, value = dice.getrandbits(32), dice.getrandbits(32)
    return of_words(high << 32 | value, low, *dice.choice((
        [(ADD | X, 0), is_equal(value + high)], [(SUB | X, 0), is_equal(value - high)],
        [(XOR | X, 0), is_equal(value ^ high)], [(ADD | X, 0), (SUB | X, 0), is_equal(value)],
        [(TAX, 0), (LD, low + 4), (SUB | X, 0), is_equal(high - value)],
        [(ADD | X, 0), (ADD | X, 0), is_equal(value + 2 * high)])))


def by_order_of_sum_of_words(dice, low):
    high = of_any_length(dice)
    return least_of_words(high << 32 | high, low, *dice.choice((
        [(SUB | X, 0), (JGT, WORD - high, "no", "yes")], [(JGE | X, 0, "yes", "no")],
        [(NEG, 0), (ADD | X, 0), (JEQ, 0, "yes", "more"), "more", (JGT, high, "yes", "no")])))


# Words joined under wide masks

def wide_mask(dice):
    return dice.choice((WORD, WORD - 1, 0xFFFF00FF, dice.getrandbits(32) | dice.getrandbits(32) | 1, some_mask(dice)))


def by_three_parts_joined(dice, low):
    masks, value = [wide_mask(dice) for _ in range(3)], dice.getrandbits(64)
    high, value = value >> 32, value & WORD
    return condition("SCMP_CMP_MASKED_EQ", masks[0] << 32 | masks[1] | masks[2],
                     (high & masks[0]) << 32 | value & (masks[1] | masks[2]),
                     [(LD, low + 4), (AND, masks[0]), (XOR, high & masks[0]), (ST, 0),
                      (LD, low), (AND, masks[1]), (XOR, value & masks[1]), (ST, 1),
                      (LD, low), (AND, masks[2]), (XOR, value & masks[2]), (LDX_M, 1), (OR | X, 0), (LDX_M, 0),
                      (OR | X, 0), is_zero(dice)])


def by_and_of_words(dice, low):
    """All bits of a mask in each word."""
    high, mask = wide_mask(dice), wide_mask(dice)
    return condition("SCMP_CMP_MASKED_EQ", high << 32 | mask, high << 32 | mask,
                     [(LD, low + 4), (OR, ~high & WORD), (TAX, 0), (LD, low), (OR, ~mask & WORD), (AND | X, 0),
                      *dice.choice(([is_equal(WORD)], [(XOR, WORD), is_zero(dice)], [(JGE, WORD, "yes", "no")]))])


def by_words_side_by_side(dice, low):
    """Masks that have no bit in common."""
    mask = dice.randrange(1, WORD)
    high, value = wide_mask(dice) & ~mask, dice.getrandbits(32)
    return condition("SCMP_CMP_MASKED_EQ", high << 32 | mask, (value & high) << 32 | value & mask,
                     [(LD, low + 4), (AND, high), (TAX, 0), (LD, low), (AND, mask),
                      (dice.choice((OR, XOR, ADD)) | X, 0), is_equal(value & (high | mask))])


def by_shifted_words_joined(dice, low):
    by, value = dice.randrange(1, 32), dice.getrandbits(32)
    mask = (1 << by) - 1
    return condition("SCMP_CMP_MASKED_EQ", (WORD >> by) << 32 | mask, (value >> by) << 32 | value & mask,
                     [(LD, low + 4), (LSH, by), (TAX, 0), (LD, low), (AND, mask), (dice.choice((OR, XOR)) | X, 0),
                      is_equal(value)])


def by_some_bit_of_both(dice, low):
    masks = [wide_mask(dice) for _ in range(3)]
    return condition("SCMP_CMP_MASKED_EQ", (masks[0] & masks[2]) << 32 | masks[1] & masks[2], 0,
                     [(LD, low + 4), (AND, masks[0]), (TAX, 0), (LD, low), (AND, masks[1]), (OR | X, 0),
                      (JSET, masks[2], "no", "yes")])


# Scratch words that are stored on both ways of a branch

def stored(test, if_so, otherwise):
    """M[2], stored in one way if a test's label is `set`, and else in another, and loaded where they join."""
    return [test, "set", *if_so, (ST, 2), (JA, "join"), "clear", *otherwise, (ST, 2), "join", (LD_M, 2)]


def by_changed_way(dice, low):
    """Where a bit is set, other bits are flipped."""
    bit, value = 1 << dice.randrange(32), dice.getrandbits(32)
    flips = value_in(dice, WORD ^ bit)
    return equal(value, low, *stored((JSET, bit, "set", "clear"), [(XOR, flips)], []),
                 is_equal(value ^ flips if value & bit else value))


def by_saturation(dice, low):
    bound = dice.getrandbits(32)
    if dice.random() < 0.5:
        value = dice.randint(0, bound)
        return least(value, low, *stored((JGE, bound, "set", "clear"), [(LD_K, bound)], []), (JGE, value, "yes", "no"))
    value = dice.randint(bound, WORD)
    return most(value, low, *stored((JGE, bound, "clear", "set"), [(LD_K, bound)], []), (JGT, value, "no", "yes"))


def by_flags(dice, low):
    """A flag for each half of a word."""
    value = dice.getrandbits(32)
    return equal(value, low, (RSH, 16), *stored((JEQ, value >> 16, "set", "clear"), [(LD_K, 1)], [(LD_K, 0)]), (ST, 3),
                 (LD, low), (AND, 0xFFFF), (JEQ, value & 0xFFFF, "also", "not"), "also", (LDX, 1), (JA, "both"),
                 "not", (LDX, 0), "both", (LD_M, 3),
                 *dice.choice(([(ADD | X, 0), is_equal(2)], [(AND | X, 0), is_equal(1)], [(MUL | X, 0), is_equal(1)])))


# The constructs by their names.
CONSTRUCTS = {
    **{name: functools.partial(of_row, made, count, draw, codes)
       for made, count, tables in ((masked, 2, OF_MASK), (equal, 1, OF_VALUE), (least, 1, OF_LEAST))
       for draw, rows in tables.items() for name, codes in rows.items()},
    **{name[3:].replace("_", " "): made for name, made in list(globals().items()) if name.startswith("by_")}}
ENDS = ["no", (RET, EPERM), "yes", (RET, ALLOW)]


def is_least(value):
    return JGE, value & WORD, "yes", "no"


# Rewrites: each returns the instructions of both filters, which test the record's words at two offsets

def turned(code, mask, value_of, dice, word, other_word):
    """A sum or a product of some low bits of each."""
    value = value_of(dice.randint(0, mask), dice.randint(0, mask))
    return [[(LD, first), (AND, mask), (TAX, 0), (LD, second), (AND, mask), (code | X, 0), is_equal(value)]
            for first, second in ((word, other_word), (other_word, word))]


def tests_turned(dice, word, other_word):
    """A sum and a product of which both are tested."""
    by, factor, value = dice.getrandbits(32), odd(dice), dice.getrandbits(32)
    tests = ([(LD, word), (ADD, by), is_equal(value, "then", "no"), "then"],
             [(LD, other_word), (MUL, factor), is_equal(value, "more", "no"), "more"])
    end = [(LD_K, 0), is_equal(0)]
    return [*tests[0], *tests[1], *end], [*tests[1], *tests[0], *end]


def mask_split(dice, word, other_word):
    """A mask in two parts, which may overlap, of which both are tested."""
    mask, part_of_it = some_mask(dice), dice.getrandbits(32)
    value = dice.getrandbits(32) & mask
    first, second = mask & part_of_it, mask & ~part_of_it | mask & dice.getrandbits(32)
    return ([(LD, word), (AND, mask), is_equal(value)],
            [(LD, word), (AND, first), is_equal(value & first, "then", "no"), "then", (LD, word), (AND, second),
             is_equal(value & second)])


def product_by_shifts(dice, word, other_word):
    """A factor of two bits or three as a sum, or a difference, of shifted words."""
    shifts = sorted(dice.sample(range(12), dice.choice((2, 3))))
    code, test = dice.choice((ADD, SUB)), dice.choice((is_equal, is_least) if shifts[-1] < 5 else (is_equal,))
    factor, made = 1 << shifts[-1], [(LD, word), (LSH, shifts[-1])]
    for by in shifts[:-1]:
        factor += (1 << by) * (1 if code == ADD else -1)
        made += [(ST, 1), (LD, word), (LSH, by), (TAX, 0), (LD_M, 1), (code | X, 0)]
    value = dice.getrandbits(32) * factor if test is is_equal else dice.getrandbits(32)
    return [*made, test(value)], [(LD, word), (MUL, factor), test(value)]


def remainder_by_orders(dice, word, other_word):
    """Of a byte; a jump goes over at most 255 instructions."""
    divisor = dice.randrange(2, 256)
    value = dice.randrange(divisor)
    tests = [step for at in range(value, 256, divisor) for step in ((JEQ, at, "yes", f"t{at}"), f"t{at}")]
    return ([(LD, word), (AND, 0xFF), (ST, 0), (DIV, divisor), (MUL, divisor), (TAX, 0), (LD_M, 0), (SUB | X, 0),
             is_equal(value)], [(LD, word), (AND, 0xFF), *tests, is_equal(value)])


def difference_by_sum(dice, word, other_word):
    """An order of a difference, and of a sum or a negation."""
    by, value = dice.getrandbits(32), dice.getrandbits(32)
    return [(LD, word), (SUB, by), is_least(value)], [(LD, word), *dice.choice((
        [(ADD, -by & WORD)], [(TAX, 0), (LD_K, by), (SUB | X, 0), (NEG, 0)],
        [(XOR, WORD), (ADD, by), (XOR, WORD)])), is_least(value)]


def negation_by_complement(dice, word, other_word):
    value, test = dice.getrandbits(32), dice.choice((is_equal, is_least))
    return [(LD, word), (NEG, 0), test(value)], [(LD, word), (XOR, WORD), (ADD, 1), test(value)]


def sum_under_mask(dice, word, other_word):
    """Low bits of a sum, of the low bits."""
    mask, by = WORD >> dice.randrange(1, 32), dice.getrandbits(32)
    value = dice.getrandbits(32) & mask
    return ([(LD, word), (ADD, by), (AND, mask), is_equal(value)],
            [(LD, word), (AND, mask), (ADD, by & mask), (AND, mask), is_equal(value)])


def bits_of_sum(dice, word, other_word):
    """A bit or a run of bits of a difference, and of the same sum or a negation."""
    by, width = dice.getrandbits(32), dice.randrange(1, 33)
    mask = (1 << width) - 1 << dice.randrange(33 - width)
    return [(LD, word), (SUB, by), (JSET, mask, "yes", "no")], [(LD, word), *dice.choice((
        [(ADD, -by & WORD)], [(NEG, 0), (ADD, by), (MUL, WORD)])), (AND, mask), is_equal(0, "no", "yes")]


def xor_by_masks(dice, word, other_word):
    """The bits that word of two words has, of bytes."""
    mask = 0xFF << dice.randrange(25)
    value = dice.getrandbits(32) & mask
    return ([(LD, word), (TAX, 0), (LD, other_word), (XOR | X, 0), (AND, mask), is_equal(value)],
            [(LD, word), (AND, mask), (TAX, 0), (LD, other_word), (AND, mask), (OR | X, 0), (ST, 5), (LD, word),
             (TAX, 0), (LD, other_word), (AND | X, 0), (AND, mask), (TAX, 0), (LD_M, 5), (SUB | X, 0), is_equal(value)])


def shift_by_word(dice, word, other_word):
    """A shift by two bits of another word, and a branch for each."""
    mask, code = some_mask(dice), dice.choice((LSH, RSH))
    value = dice.getrandbits(32) & mask
    ways = [step for by in range(4) for step in (
        f"by{by}", (LD, other_word), (AND, 3), (JEQ, by, f"so{by}", f"by{by + 1}"), f"so{by}", (LD, word), (code, by),
        (AND, mask), is_equal(value))]
    return ([(LD, other_word), (AND, 3), (TAX, 0), (LD, word), (code | X, 0), (AND, mask), is_equal(value)],
            [*ways, "by4", (LD_K, 0), is_equal(1)])


def branch_by_product(dice, word, other_word):
    """A number that is added only where a bit is set."""
    bit, by, value = dice.randrange(32), dice.getrandbits(16), dice.getrandbits(32)
    return ([(LD, word), (JSET, 1 << bit, "set", "clear"), "set", (ADD, by), (ST, 2), (JA, "join"), "clear", (ST, 2),
             "join", (LD_M, 2), is_equal(value)],
            [(LD, word), (RSH, bit), (AND, 1), (MUL, by), (TAX, 0), (LD, word), (ADD | X, 0), is_equal(value)])


def steps_of_order(dice, word, other_word):
    """A product of an order that wraps, and a sum."""
    value = dice.getrandbits(32)
    return ([(LD, word), (MUL, 3), is_least(value)],
            [(LD, word), (TAX, 0), (ADD | X, 0), (ADD | X, 0), is_least(value)])


REWRITES = {
    "sum turned": functools.partial(turned, ADD, 0xFF, operator.add),
    "product turned": functools.partial(turned, MUL, 0xF, operator.mul),
    **{rewrite.__name__.replace("_", " "): rewrite for rewrite in (
        tests_turned, mask_split, product_by_shifts, remainder_by_orders, difference_by_sum, negation_by_complement,
        sum_under_mask, bits_of_sum, xor_by_masks, shift_by_word, branch_by_product, steps_of_order)}}


def placed(code):
    """Instructions with labels, placed: each is a code, two distances and a constant."""
    count, indices = 0, {}
    for step in code:
        if isinstance(step, str):
            indices[step] = count
        else:
            count += 1
    made = []
    for step in code:
        if not isinstance(step, str):
            jt, jf = (indices[label] - len(made) - 1 for label in step[2:]) if len(step) == 4 else (0, 0)
            made.append((step[0], jt, jf, indices[step[1]] - len(made) - 1 if step[0] == JA else step[1]))
    return made


def packed(program):
    return b"".join(insn(code, k, jt, jf) for code, jt, jf, k in program)


def with_changed_constant(dice, program, first=0):
    """The program with a constant of an instruction from `first` on changed, which is still accepted."""
    without_constant = {LD, RET, RET_A, NEG, TAX, TXA, ST, LD_M, LDX_M, JA}
    indices = [index for index, (code, *_) in enumerate(program)
               if index >= first and code not in without_constant and not (code & 7 in (4, 5) and code & X)]
    while True:
        changed, index = list(program), dice.choice(indices)
        code, jt, jf, k = program[index]
        new = dice.choice((k ^ 1 << dice.randrange(32), (k + 1) & WORD, (k - 1) & WORD, dice.getrandbits(32)))
        if code in (LSH, RSH):
            new %= 32
        changed[index] = code, jt, jf, new
        if new != k and MACHINE.fault(changed) is None:
            return changed


def profile_pair(dice, construct, is_changed):
    """A filter beside a profile that allows one to three numbers, the first by a condition on an argument. On request a
    constant of the filter's part behind the tests of the number is changed."""
    numbers = dice.sample(range(400), dice.randint(1, 3))
    index = dice.randrange(6)
    condition_made, test = construct(dice, ARGUMENTS + 8 * index)
    code = [(LD, ARCHITECTURE), (JEQ, X86_64, "native", "kill"), "native", (LD, NUMBER), (JGE, X32, "kill", "t0"), "t0"]
    for at, number in enumerate(numbers):
        following = f"t{at + 1}" if at + 1 < len(numbers) else "no"
        code += [(JEQ, number, "yes" if at else "asked", following), following]
    program = placed([*code[:-1], "asked", *test, *ENDS, "kill", (RET, KILL_PROCESS)])
    if is_changed:
        program = with_changed_constant(dice, program, 4 + len(numbers))
    entries = [{"names": [f"c{number}"], "action": "SCMP_ACT_ALLOW",
                "args": [] if at else [{"index": index, **condition_made}]} for at, number in enumerate(numbers)]
    profile = json.dumps({"defaultAction": "SCMP_ACT_ERRNO", "syscalls": entries})
    table = "".join(f"c{number} {number}\n" for number in numbers)
    return Pair(Stack([packed(program)]), Profile(profile, table), ())


def filter_pair(dice, rewrite, is_changed):
    """Two filters beside each other, which test two words; on request a constant of one is changed."""
    programs = [placed([*code, *ENDS]) for code in rewrite(dice, *(4 * word for word in dice.sample(range(16), 2)))]
    if is_changed:
        side = dice.randrange(2)
        programs[side] = with_changed_constant(dice, programs[side])
    return Pair(Stack([packed(programs[0])]), Stack([packed(programs[1])], "beside"), ())
