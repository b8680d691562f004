static int call(int number, int a, int b, int c)
{
    int result;
    asm volatile("int $0x80" : "=a"(result) : "0"(number), "b"(a), "c"(b), "d"(c) : "memory");
    return result;
}
static const int calls[][2] = {%s}, words[] = {2, 1, 0};
void _start(void)
{
    for (unsigned at = 0; at < sizeof calls / sizeof *calls; at++)
        call(4, 1, (int)(call(calls[at][0], calls[at][1], (int)words, 0) == -77 ? "1" : "0"), 1);
    call(1, 0, 0, 0);
}
