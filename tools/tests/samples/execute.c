#include <pthread.h>
#include <stdlib.h>
#include <unistd.h>
static char **words;
static void *waits(void *none) { pause(); return none; }
static void *executes(void *none) { usleep(atoi(words[2])); execv(words[0], words); return none; }
int main(int argc, char **argv)
{
    pthread_t thread;
    words = argv;
    for (int left = atoi(argv[1]); left > 0; left--)
        pthread_create(&thread, 0, waits, 0);
    pthread_create(&thread, 0, executes, 0);
    pause();
}
