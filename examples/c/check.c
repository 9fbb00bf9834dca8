/*
 * check [FOLDER]: checks the sheet of a folder (default: the current one), as the program vexil_check does.
 *
 * It reads body.sheet and body.names, a missing file being empty, and prints a line per violation (class, E or W, offset, length), then
 * total and errors; or `refused N at I`.
 *
 *     ./archive
 *     cc -std=c11 -Iinclude -o target/check examples/c/check.c target/staticlib/libdilomevay.a
 *     target/check examples/request
 */
#include <errno.h>
#include <stdio.h>
#include <stdlib.h>
#include <string.h>

#include "vexil_check.h"

/* Reads at most `size` bytes of a folder's file, and returns how many. */
static size_t read_file(const char *folder, const char *name, uint8_t *bytes, size_t size) {
    char path[4096];
    int length = snprintf(path, sizeof path, "%s/%s", folder, name);
    if (length < 0 || (size_t)length >= sizeof path) {
        fprintf(stderr, "check: the folder's name is too long\n");
        exit(1);
    }
    FILE *file = fopen(path, "rb");
    if (file == NULL && errno == ENOENT) {
        return 0;
    }
    size_t count = file == NULL ? 0 : fread(bytes, 1, size, file);
    if (file == NULL || ferror(file)) {
        fprintf(stderr, "check: %s: %s\n", path, strerror(errno));
        exit(1);
    }
    fclose(file);
    return count;
}

static void print_violation(struct vexil_violation violation) {
    char letter = violation.severity == VEXIL_ERROR ? 'E' : 'W';
    printf("%u %c %u %u\n", (unsigned)violation.class_number, letter, (unsigned)violation.span.offset, (unsigned)violation.span.len);
}

int main(int argc, char **argv) {
    /* One byte more than is accepted, so that a longer file is refused. */
    static uint8_t sheet[VEXIL_SHEET_MAX + 1];
    static uint8_t names[VEXIL_NAMES_MAX + 1];
    static uint8_t list[VEXIL_LIST_MAX];

    if (argc > 2) {
        fprintf(stderr, "usage: check [FOLDER]\n");
        return 2;
    }
    if (vexil_version() != VEXIL_VERSION) {
        fprintf(stderr, "check: the library has version %u, the header %u\n", (unsigned)vexil_version(), (unsigned)VEXIL_VERSION);
        return 2;
    }
    const char *folder = argc == 2 ? argv[1] : ".";
    size_t sheet_len = read_file(folder, "body.sheet", sheet, sizeof sheet);
    size_t names_len = read_file(folder, "body.names", names, sizeof names);

    struct vexil_answer answer = vexil_check(sheet, sheet_len, names, names_len, list, sizeof list);
    if (answer.number != VEXIL_ACCEPTED) {
        printf("refused %u at %u\n", (unsigned)answer.number, (unsigned)answer.index);
        return 0;
    }
    for (size_t i = 0; i < vexil_written(answer, sizeof list); i++) {
        print_violation(vexil_violation_at(list, i));
    }
    printf("total %u errors %u\n", (unsigned)answer.total, (unsigned)answer.errors);
    return 0;
}
