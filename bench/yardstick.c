/* The two times that bench/creates.sh compares, each printed in nanoseconds.
 *
 *   yardstick create N EVERY PARENT  creates N files in a new folder below PARENT, with O_CREAT and O_EXCL, and
 *                                    in place of each EVERY-th a directory, with mkdir (0: none);
 *                                    the folder is removed again outside the timed part
 *   yardstick replay PROGRAM FILE    runs `PROGRAM replay` from start to end, its input FILE, its output dropped
 */
#include <fcntl.h>
#include <limits.h>
#include <stdio.h>
#include <stdlib.h>
#include <string.h>
#include <sys/stat.h>
#include <sys/wait.h>
#include <time.h>
#include <unistd.h>

static long long now(void) {
    struct timespec t;
    clock_gettime(CLOCK_MONOTONIC, &t);
    return t.tv_sec * 1000000000LL + t.tv_nsec;
}

static void give_up(const char *what) {
    perror(what);
    exit(1);
}

static void file_name(char *name, size_t room, long i) {
    snprintf(name, room, "f%ld", i);
}

static int is_directory(long i, long every) {
    return every > 0 && i % every == every - 1;
}

static void remove_files(int dir, long count, long every, const char *folder) {
    char name[32];
    for (long i = 0; i < count; i++) {
        file_name(name, sizeof name, i);
        unlinkat(dir, name, is_directory(i, every) ? AT_REMOVEDIR : 0);
    }
    close(dir);
    rmdir(folder);
}

static int make_file(int dir, const char *name) {
    int file = openat(dir, name, O_CREAT | O_EXCL | O_WRONLY, 0600);
    if (file < 0) return -1;
    return close(file);
}

static long long create(long count, long every, const char *parent) {
    char folder[PATH_MAX], name[32];
    snprintf(folder, sizeof folder, "%s/yardstick.XXXXXX", parent);
    if (mkdtemp(folder) == NULL) give_up(parent);
    int dir = open(folder, O_RDONLY | O_DIRECTORY);
    if (dir < 0) give_up(folder);

    long long start = now();
    for (long i = 0; i < count; i++) {
        file_name(name, sizeof name, i);
        int made = is_directory(i, every) ? mkdirat(dir, name, 0700) : make_file(dir, name);
        if (made < 0) {
            perror(name);
            remove_files(dir, i, every, folder);
            exit(1);
        }
    }
    long long end = now();

    remove_files(dir, count, every, folder);
    return end - start;
}

static long long replay(const char *program, const char *script) {
    int input = open(script, O_RDONLY);
    if (input < 0) give_up(script);
    int output = open("/dev/null", O_WRONLY);
    if (output < 0) give_up("/dev/null");

    long long start = now();
    pid_t child = fork();
    if (child < 0) give_up("fork");
    if (child == 0) {
        dup2(input, 0);
        dup2(output, 1);
        execl(program, program, "replay", (char *)NULL);
        _exit(127);
    }
    int status;
    if (waitpid(child, &status, 0) < 0) give_up("waitpid");
    long long end = now();

    if (!WIFEXITED(status) || WEXITSTATUS(status) != 0) {
        fprintf(stderr, "%s replay < %s: status %d\n", program, script,
                WIFEXITED(status) ? WEXITSTATUS(status) : 128 + WTERMSIG(status));
        exit(1);
    }
    return end - start;
}

int main(int argc, char **argv) {
    if (argc == 5 && strcmp(argv[1], "create") == 0) {
        printf("%lld\n", create(atol(argv[2]), atol(argv[3]), argv[4]));
    } else if (argc == 4 && strcmp(argv[1], "replay") == 0) {
        printf("%lld\n", replay(argv[2], argv[3]));
    } else {
        fprintf(stderr, "usage: yardstick create N EVERY PARENT | replay PROGRAM FILE\n");
        return 2;
    }
    return 0;
}
