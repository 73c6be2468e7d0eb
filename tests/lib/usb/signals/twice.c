/* `twice PID` sends a process SIGTERM twice in immediate succession, and once more 20 ms later, as timeout(1) and a shell do. The status is
 * 0 if the process handled all signals within 60 ms of the first, and 1 if the machine was too slow. On Linux /proc shows which signals of
 * a process are pending. */
#define _POSIX_C_SOURCE 200809L
#include <signal.h>
#include <stdbool.h>
#include <stdio.h>
#include <stdlib.h>
#include <string.h>
#include <time.h>

#define PAUSE_MS 20
#define MOST_MS 60

static long now_ms(void)
{
    struct timespec now;
    clock_gettime(CLOCK_MONOTONIC, &now);
    return now.tv_sec * 1000 + now.tv_nsec / 1000000;
}

static bool is_pending(long pid)
{
    char name[40], line[200];
    bool found = false;
    snprintf(name, sizeof name, "/proc/%ld/status", pid);
    FILE *file = fopen(name, "r");
    while (file != NULL && fgets(line, sizeof line, file) != NULL)
        if (strncmp(line, "ShdPnd:", 7) == 0)
            found = strtoull(line + 7, NULL, 16) != 0;
    if (file != NULL)
        fclose(file);
    return found;
}

int main(int count, char **words)
{
    long pid = count == 2 ? strtol(words[1], NULL, 10) : 0, from = now_ms();
    if (pid <= 1)
        return 2;
    kill((pid_t)pid, SIGTERM);
    kill((pid_t)pid, SIGTERM);
    nanosleep(&(struct timespec){0, PAUSE_MS * 1000000L}, NULL);
    kill((pid_t)pid, SIGTERM);
    while (is_pending(pid) && now_ms() - from <= MOST_MS)
        nanosleep(&(struct timespec){0, 100000}, NULL);
    return now_ms() - from > MOST_MS;
}
