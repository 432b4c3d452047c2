/* The command vlm: lock, who, metrics and kill are of the lock service, and done here. `vlm --proof` prints what the
 * program was proved from, ../share/vlm/proved beside its own folder. With all other words the command becomes the
 * proved program, ../libexec/vlm/vlm. */
#define _GNU_SOURCE
#include "link.h"

#include <errno.h>
#include <stdio.h>
#include <string.h>
#include <unistd.h>

enum { PATH = 4096, NAME = 32 };

static const char proof_usage[] = "vlm --proof";

/* Writes the path of a file of this installation. */
static void path_of(const char *name, char *path) {
    ssize_t len = readlink("/proc/self/exe", path, PATH);
    for (int slashes = 0; len > 0 && slashes < 2; len--)
        slashes += path[len - 1] == '/';
    snprintf(path + (len < 0 ? 0 : len + 1), NAME, "%s", name);
}

static int run_program(char **words) {
    char path[PATH + NAME];
    path_of("libexec/vlm/vlm", path);
    execv(path, words);
    fprintf(stderr, "vlm: the program %s can't be run: %s\n", path, strerror(errno));
    return NO_SERVICE;
}

static int run_proof(int count, char **words) {
    (void)words;
    char path[PATH + NAME], bytes[4096];
    size_t len = 0;
    if (count > 1)
        return wrong_words(proof_usage);
    path_of("share/vlm/proved", path);
    FILE *file = fopen(path, "re");
    if (file != NULL) {
        len = fread(bytes, 1, sizeof bytes, file);
        fclose(file);
    }
    if (len == 0) {
        fprintf(stderr, "vlm: %s can't be read\n", path);
        return NO_SERVICE;
    }
    fwrite(bytes, 1, len, stdout);
    return end_output(1);
}

static int print_usage(const char *usage) {
    printf("usage: %s\n", usage);
    return end_output(1);
}

int main(int count, char **words) {
    static const struct {
        const char *word, *usage;
        int (*run)(int count, char **words);
    } commands[] = {{"lock", lock_usage, run_lock},
                    {"who", who_usage, run_who},
                    {"metrics", metrics_usage, run_metrics},
                    {"kill", kill_usage, run_kill},
                    {"--proof", proof_usage, run_proof}};
    for (size_t at = 0; count > 1 && at < sizeof commands / sizeof *commands; at++) {
        if (strcmp(words[1], commands[at].word) != 0)
            continue;
        if (count == 3 && strcmp(words[2], "--help") == 0)
            return print_usage(commands[at].usage);
        return commands[at].run(count - 1, words + 1);
    }
    return run_program(words);
}
