#define _POSIX_C_SOURCE 200809L
#include "files.h"
#include <errno.h>
#include <fcntl.h>
#include <stdio.h>
#include <stdlib.h>
#include <string.h>
#include <sys/stat.h>
#include <unistd.h>

const char *file_words(const char *name) {
    return strcmp(name, "-") == 0 ? "standard input" : name;
}

void open_streams(void) {
    for (int fd = STDIN_FILENO; fd <= STDERR_FILENO; fd++) {
        if (fcntl(fd, F_GETFD) >= 0)
            continue;
        if (fd == STDOUT_FILENO)
            give_up("standard output is closed");
        if (open("/dev/null", fd == STDIN_FILENO ? O_WRONLY : O_RDWR) != fd)
            exit(UNUSABLE);
    }
}

/* ---- Reading ---- */

size_t read_file(const char *name, uint8_t *bytes, size_t most) {
    static bool input_was_read = false;
    bool input = strcmp(name, "-") == 0;
    if (input && input_was_read)
        give_up("standard input can be read only once");
    input_was_read = input_was_read || input;
    FILE *file = input ? stdin : fopen(name, "rb");
    if (file == NULL)
        give_up("cannot open %s: %s", name, strerror(errno));
    size_t len = fread(bytes, 1, most, file);
    if (ferror(file))
        give_up("cannot read %s: %s", file_words(name), strerror(errno));
    fclose(file);
    return len;
}

/* ---- Which files are one ---- */

typedef struct {
    bool is_file;       /* there is a regular file of that name */
    struct stat itself; /* where there is one */
    bool is_name;       /* there is nothing of that name, but its folder */
    struct stat folder;
    const char *last; /* the name within the folder */
} identity;

static identity identity_of(const char *name) {
    identity of = {0};
    if (strcmp(name, "-") == 0)
        of.is_file = fstat(STDIN_FILENO, &of.itself) == 0 && S_ISREG(of.itself.st_mode);
    else if (stat(name, &of.itself) == 0)
        of.is_file = S_ISREG(of.itself.st_mode);
    else {
        const char *slash = strrchr(name, '/');
        char *folder = slash == NULL ? strdup(".") : strndup(name, (size_t)(slash - name) + 1);
        of.last = slash == NULL ? name : slash + 1;
        of.is_name = folder != NULL && stat(folder, &of.folder) == 0;
        free(folder);
    }
    return of;
}

static identity identity_of_open(int fd) {
    identity of = {0};
    of.is_file = fstat(fd, &of.itself) == 0 && S_ISREG(of.itself.st_mode);
    return of;
}

static bool is_same_node(const struct stat *a, const struct stat *b) {
    return a->st_dev == b->st_dev && a->st_ino == b->st_ino;
}

static bool is_same(const identity *a, const identity *b) {
    if (a->is_file && b->is_file)
        return is_same_node(&a->itself, &b->itself);
    return a->is_name && b->is_name && is_same_node(&a->folder, &b->folder) &&
           strcmp(a->last, b->last) == 0;
}

void keep_apart(const char *read, const char *plan, const char *table) {
    const char *words[] = {read, "standard output", plan, table};
    identity of[4] = {identity_of(read), identity_of_open(STDOUT_FILENO)};
    for (size_t i = 2; i < 4; i++)
        if (words[i] != NULL)
            of[i] = identity_of(words[i]);
    for (size_t i = 0; i < 4; i++)
        for (size_t j = 0; j < i; j++)
            if (words[i] != NULL && words[j] != NULL && is_same(&of[i], &of[j]))
                give_up("%s is the same file as %s; nothing is written", words[i],
                        file_words(words[j]));
}

/* ---- Writing ---- */

/* A link to nothing shows only here which file it is: a second look before anything is lost. */
static void test_fresh(int fd, const char *name) {
    static identity written[2];
    static size_t count = 0;
    identity of = identity_of_open(fd);
    for (size_t i = 0; i < count; i++)
        if (is_same(&of, &written[i]))
            give_up("%s is the same file as the one written before it", name);
    if (count < 2)
        written[count++] = of;
    if (of.is_file && ftruncate(fd, 0) != 0)
        give_up("cannot write %s: %s", name, strerror(errno));
}

void write_numbers(const char *name, const uint8_t *numbers, size_t len, size_t in_a_line) {
    int fd = open(name, O_WRONLY | O_CREAT, 0666);
    if (fd < 0)
        give_up("cannot open %s for writing: %s", name, strerror(errno));
    test_fresh(fd, name);
    FILE *file = fdopen(fd, "wb");
    if (file == NULL)
        give_up("cannot write %s: %s", name, strerror(errno));
    bool whole = true;
    for (size_t i = 0; i < len; i++)
        whole =
            fprintf(file, "%d%c", numbers[i], (i + 1) % in_a_line == 0 ? '\n' : ' ') > 0 && whole;
    whole = fflush(file) == 0 && whole;
    if (fclose(file) != 0 || !whole)
        give_up("cannot write %s: %s", name, strerror(errno));
}

int finish(int status) {
    errno = 0;
    bool whole = fflush(stdout) == 0 && !ferror(stdout);
    int reason = errno;
    if (fclose(stdout) != 0 && whole) {
        reason = errno;
        whole = false;
    }
    if (whole)
        return status;
    fprintf(stderr, "towhepamu: cannot write standard output%s%s\n", reason != 0 ? ": " : "",
            reason != 0 ? strerror(reason) : "");
    return UNUSABLE;
}
