static long call(long number, long a, long b, long c)
{
    long result;
    asm volatile("syscall" : "=a"(result) : "0"(number), "D"(a), "S"(b), "d"(c) : "rcx", "r11", "memory");
    return result;
}
void _start(void)
{
    struct { const char *text; unsigned long length; } part = {"begun\n", 6};
    call(20, 1, (long)&part, 1);
    call(231, 0, 0, 0);
}
