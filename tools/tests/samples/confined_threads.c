static void *waits(void *none) { pause(); return none; }
static void *fails(void *none) { usleep(100000); socket(16, 3, 9); return none; }
int main(int count, char **words)
{
    pthread_t thread;
    confine(41, words[1]);
    pthread_create(&thread, 0, waits, 0);
    pthread_create(&thread, 0, fails, 0);
    pthread_join(thread, 0);
    return 0;
}
