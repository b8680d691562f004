/* A plain interpreter of classic BPF over a seccomp record, to compare the speed of scf's machine with: one switch over
   the codes. Its checks are two: a division by the index register asks whether that is 0, and a code that isn't one of
   the 41 ends the process. Jump targets, scratch indices, offsets of loads, constant divisors and constant shifts are
   taken as a checker has left them, and the filter's last instruction as a return; so it is run only on filters that
   `scf check` accepts.

       interpreter TIMES <FILTER

   It prints the nanoseconds of a step by libscf and by the interpreter, which take turns in this process. Each runs the
   filter so many times on syscall 0 of x86-64, and as many times on one with number 2^32 - 1, which the filter has to
   answer at once: the difference is that of their steps, without the reading and checking that each call of scf_run
   begins with. Of nine such times the least count. */
#include <scf.h>
#include <stdint.h>
#include <stdio.h>
#include <stdlib.h>
#include <time.h>

struct insn {
    uint16_t code;
    uint8_t jt, jf;
    uint32_t k;
};

static struct insn program[4096];
static size_t length;

__attribute__((noinline)) static uint32_t run(const uint32_t *words, uint32_t *steps) {
    uint32_t a = 0, x = 0, scratch[16] = {0}, pc = 0, count = 0;
    for (;;) {
        const struct insn *i = &program[pc++];
        count++;
        switch (i->code) {
        case 0x20: a = words[i->k / 4]; break;
        case 0x80: a = 64; break;
        case 0x81: x = 64; break;
        case 0x00: a = i->k; break;
        case 0x01: x = i->k; break;
        case 0x60: a = scratch[i->k]; break;
        case 0x61: x = scratch[i->k]; break;
        case 0x02: scratch[i->k] = a; break;
        case 0x03: scratch[i->k] = x; break;
        case 0x04: a += i->k; break;
        case 0x0c: a += x; break;
        case 0x14: a -= i->k; break;
        case 0x1c: a -= x; break;
        case 0x24: a *= i->k; break;
        case 0x2c: a *= x; break;
        case 0x34: a /= i->k; break;
        case 0x3c:
            if (x == 0) { *steps = count; return 0; }
            a /= x;
            break;
        case 0x44: a |= i->k; break;
        case 0x4c: a |= x; break;
        case 0x54: a &= i->k; break;
        case 0x5c: a &= x; break;
        case 0x64: a <<= i->k; break;
        case 0x6c: a <<= x & 31; break;
        case 0x74: a >>= i->k; break;
        case 0x7c: a >>= x & 31; break;
        case 0xa4: a ^= i->k; break;
        case 0xac: a ^= x; break;
        case 0x84: a = -a; break;
        case 0x05: pc += i->k; break;
        case 0x15: pc += a == i->k ? i->jt : i->jf; break;
        case 0x1d: pc += a == x ? i->jt : i->jf; break;
        case 0x25: pc += a > i->k ? i->jt : i->jf; break;
        case 0x2d: pc += a > x ? i->jt : i->jf; break;
        case 0x35: pc += a >= i->k ? i->jt : i->jf; break;
        case 0x3d: pc += a >= x ? i->jt : i->jf; break;
        case 0x45: pc += a & i->k ? i->jt : i->jf; break;
        case 0x4d: pc += a & x ? i->jt : i->jf; break;
        case 0x06: *steps = count; return i->k;
        case 0x16: *steps = count; return a;
        case 0x07: x = a; break;
        case 0x87: a = x; break;
        default: exit(1);
        }
    }
}

static uint32_t steps_of_scf(uint32_t nr, uint64_t ip) {
    const struct scf_call call = {.nr = nr, .arch = SCF_AUDIT_X86_64, .ip = ip};
    uint32_t answer, steps;
    struct scf_fault fault;
    if (scf_run((const uint8_t *)program, length * sizeof *program, &call, &answer, &steps, &fault) != SCF_OK) exit(1);
    return steps;
}

static uint32_t steps_of_c(uint32_t nr, uint64_t ip) {
    const uint32_t words[16] = {nr, SCF_AUDIT_X86_64, (uint32_t)ip, (uint32_t)(ip >> 32)};
    uint32_t steps;
    run(words, &steps);
    return steps;
}

/* The time of so many runs, and their steps. */
static double timed(uint32_t (*steps_of)(uint32_t, uint64_t), uint32_t nr, unsigned times, uint64_t *steps) {
    struct timespec begun, ended;
    clock_gettime(CLOCK_MONOTONIC, &begun);
    *steps = 0;
    for (unsigned round = 0; round < times; round++) *steps += steps_of(nr, round);
    clock_gettime(CLOCK_MONOTONIC, &ended);
    return (double)(ended.tv_sec - begun.tv_sec) * 1e9 + (double)(ended.tv_nsec - begun.tv_nsec);
}

int main(int argc, char **argv) {
    uint32_t (*const sides[])(uint32_t, uint64_t) = {steps_of_scf, steps_of_c};
    static const uint32_t numbers[] = {0, UINT32_MAX};
    double least[2][2] = {{0}};
    uint64_t steps[2][2];
    const unsigned times = argc > 1 ? (unsigned)strtoul(argv[1], NULL, 10) : 1;
    length = fread(program, sizeof *program, 4096, stdin);
    for (int round = 0; round < 9; round++)
        for (int side = 0; side < 2; side++)
            for (int at = 0; at < 2; at++) {
                const double spent = timed(sides[side], numbers[at], times, &steps[side][at]);
                if (round == 0 || spent < least[side][at]) least[side][at] = spent;
            }
    for (int side = 0; side < 2; side++)
        printf("%.4f\n", (least[side][0] - least[side][1]) / (double)(steps[side][0] - steps[side][1]));
    return 0;
}
