/*
 * Runs a command, once or many times one after another, and writes how long that took and how much memory it had.
 *
 *   launch COUNT SCRIPT REPLIES COMMAND WORD ..
 *
 * Each run reads the file SCRIPT from its beginning, and what all of them write stands in the new file REPLIES. The
 * line that is written has the microseconds of all runs together and the greatest resident memory of one, in KiB. A run
 * that doesn't end with status 0 ends all with status 1.
 *
 * The system counts the memory of a process from before its command begins, when it is still the one of its parent. So
 * a shell can't measure a small program; this one is small itself.
 */
#define _GNU_SOURCE
#include <errno.h>
#include <fcntl.h>
#include <spawn.h>
#include <stdio.h>
#include <stdlib.h>
#include <string.h>
#include <sys/resource.h>
#include <sys/wait.h>
#include <time.h>
#include <unistd.h>

extern char **environ;

static _Noreturn void fail(const char *what, int cause)
{
    fprintf(stderr, "launch: %s: %s\n", what, strerror(cause));
    exit(1);
}

static long long microseconds(void)
{
    struct timespec now;
    clock_gettime(CLOCK_MONOTONIC, &now);
    return now.tv_sec * 1000000LL + now.tv_nsec / 1000;
}

/* Runs the command once, and answers its greatest resident memory. */
static long run_once(const posix_spawn_file_actions_t *streams, char **command)
{
    pid_t child;
    int status;
    struct rusage used;
    int cause = posix_spawnp(&child, command[0], streams, NULL, command, environ);
    if (cause != 0)
        fail(command[0], cause);
    while (wait4(child, &status, 0, &used) < 0) {
        if (errno != EINTR)
            fail("wait", errno);
    }
    if (!WIFEXITED(status) || WEXITSTATUS(status) != 0) {
        fprintf(stderr, "launch: %s ended with status %d\n", command[0],
                WIFEXITED(status) ? WEXITSTATUS(status) : 128 + WTERMSIG(status));
        exit(1);
    }
    return used.ru_maxrss;
}

int main(int argc, char **argv)
{
    if (argc < 5) {
        fputs("launch: COUNT SCRIPT REPLIES COMMAND WORD ..\n", stderr);
        return 1;
    }
    int replies = open(argv[3], O_WRONLY | O_CREAT | O_TRUNC | O_CLOEXEC, 0666);
    if (replies < 0)
        fail(argv[3], errno);
    posix_spawn_file_actions_t streams;
    if (posix_spawn_file_actions_init(&streams) != 0 ||
        posix_spawn_file_actions_addopen(&streams, STDIN_FILENO, argv[2], O_RDONLY, 0) != 0 ||
        posix_spawn_file_actions_adddup2(&streams, replies, STDOUT_FILENO) != 0)
        fail("streams", ENOMEM);
    long peak = 0;
    long long begin = microseconds();
    for (long left = atol(argv[1]); left > 0; left--) {
        long used = run_once(&streams, argv + 4);
        if (used > peak)
            peak = used;
    }
    printf("%lld %ld\n", microseconds() - begin, peak);
    return 0;
}
