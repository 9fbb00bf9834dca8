/*
 * entry SHEET: what include/vexil_check.h says of the call and of its helpers, tried on the library. SHEET is the file of
 * docs/FORMAT.md's worked sheet.
 */
#include <stdio.h>
#include <string.h>

#include "vexil_check.h"

static int failures = 0;

static void expect(int holds, const char *what) {
    if (!holds) {
        printf("%s\n", what);
        failures += 1;
    }
}

static int is_answer(struct vexil_answer answer, uint32_t number, uint32_t index, uint32_t total, uint32_t errors) {
    return answer.number == number && answer.index == index && answer.total == total && answer.errors == errors;
}

static int is_violation(struct vexil_violation violation, uint16_t class_number, uint8_t severity, uint32_t offset, uint32_t len) {
    return violation.class_number == class_number && violation.severity == severity && violation.span.offset == offset
        && violation.span.len == len;
}

static const char names[] = "MAX_PERIODSSlotperiodslimit";
enum { NAMES_LEN = sizeof names - 1 };

/* The worked sheet, written by the header's helper. */
static const struct vexil_record worked[] = {
    {VEXIL_KIND_DECLARATION, VEXIL_DECLARED_CONST, 11, 0, {6, 11}, {0, 0}, 0},
    {VEXIL_KIND_HEAD, VEXIL_HEAD_MESSAGE, 4, 11, {36, 4}, {0, 0}, 0},
    {VEXIL_KIND_FIELD_TOMBSTONE, 0, 0, 0, {45, 49}, {0, 0}, 1},
    {VEXIL_KIND_FIELD, 0, 7, 15, {97, 7}, {106, 1}, 1},
    {VEXIL_KIND_ANNOTATION, 0, 5, 22, {120, 9}, {0, 0}, 0},
    {VEXIL_KIND_ARGUMENT, VEXIL_ARGUMENT_INT, 0, 0, {127, 1}, {0, 0}, 0},
    {VEXIL_KIND_ARRAY, 0, 0, 0, {110, 9}, {0, 0}, 0},
    {VEXIL_KIND_PRIMITIVE, VEXIL_U8, 0, 0, {116, 2}, {0, 0}, 0},
    {VEXIL_KIND_LEN_CMP, VEXIL_LE, 0, 0, {136, 25}, {0, 0}, 0},
    {VEXIL_KIND_OPERAND, VEXIL_OPERAND_CONST_REF, 11, 0, {150, 11}, {0, 0}, 0},
};
enum { RECORDS = sizeof worked / sizeof worked[0], SHEET_LEN = RECORDS * VEXIL_RECORD_SIZE };

static struct vexil_answer check(const uint8_t *sheet, size_t sheet_len, uint8_t *list, size_t list_len) {
    return vexil_check(sheet, sheet_len, (const uint8_t *)names, NAMES_LEN, list, list_len);
}

int main(int argc, char **argv) {
    uint8_t sheet[SHEET_LEN];
    uint8_t from_file[SHEET_LEN + 1];
    uint8_t list[VEXIL_LIST_MAX];
    uint8_t old[VEXIL_LIST_MAX];

    for (size_t i = 0; i < RECORDS; i++) {
        vexil_put_record(sheet, i, worked[i]);
    }
    FILE *file = argc == 2 ? fopen(argv[1], "rb") : NULL;
    size_t length = file == NULL ? 0 : fread(from_file, 1, sizeof from_file, file);
    expect(length == SHEET_LEN && memcmp(sheet, from_file, SHEET_LEN) == 0, "vexil_put_record writes the worked sheet");

    expect(vexil_version() == VEXIL_VERSION, "the library has the header's version");

    memset(old, 0xa5, sizeof old);
    memcpy(list, old, sizeof list);
    struct vexil_answer answer = check(sheet, SHEET_LEN, list, sizeof list);
    expect(is_answer(answer, VEXIL_ACCEPTED, 0, 2, 2), "the worked sheet has two errors");
    expect(vexil_written(answer, sizeof list) == 2, "both are written");
    expect(is_violation(vexil_violation_at(list, 0), VEXIL_CLASS_ORDINAL_REUSED_AFTER_REMOVED, VEXIL_ERROR, 106, 1), "the first one");
    expect(is_violation(vexil_violation_at(list, 1), VEXIL_CLASS_LIMIT_ZERO, VEXIL_ERROR, 120, 9), "the second one");
    expect(memcmp(list + 2 * VEXIL_VIOLATION_SIZE, old + 2 * VEXIL_VIOLATION_SIZE, sizeof list - 2 * VEXIL_VIOLATION_SIZE) == 0, "the bytes after them are kept");

    memcpy(list, old, sizeof list);
    const size_t cut = 2 * VEXIL_VIOLATION_SIZE - 1;
    answer = check(sheet, SHEET_LEN, list, cut);
    expect(is_answer(answer, VEXIL_ACCEPTED, 0, 2, 2), "the total does not depend on the list's length");
    expect(vexil_written(answer, cut) == 1, "one whole violation fits a byte less than two take");
    expect(is_violation(vexil_violation_at(list, 0), VEXIL_CLASS_ORDINAL_REUSED_AFTER_REMOVED, VEXIL_ERROR, 106, 1), "it is the first");
    expect(memcmp(list + VEXIL_VIOLATION_SIZE, old + VEXIL_VIOLATION_SIZE, sizeof list - VEXIL_VIOLATION_SIZE) == 0, "what does not fit whole is not written");

    answer = check(sheet, SHEET_LEN, NULL, 0);
    expect(is_answer(answer, VEXIL_ACCEPTED, 0, 2, 2), "a list may be null with length 0");

    memcpy(list, old, sizeof list);
    answer = vexil_check(NULL, 0, NULL, 0, list, sizeof list);
    expect(is_answer(answer, VEXIL_REFUSED_OUT_OF_ORDER, 0, 0, 0), "sheet and names may be null with length 0: an empty sheet");
    answer = check(sheet, VEXIL_RECORD_SIZE - 1, list, sizeof list);
    expect(is_answer(answer, VEXIL_REFUSED_SHEET_LENGTH, 0, 0, 0), "a record less a byte is no sheet");
    answer = vexil_check(sheet, SHEET_LEN, (const uint8_t *)names, NAMES_LEN - 1, list, sizeof list);
    expect(is_answer(answer, VEXIL_REFUSED_NAME_RANGE, 4, 0, 0), "the last name is cut");
    answer = check(sheet, SHEET_LEN - VEXIL_RECORD_SIZE, list, sizeof list);
    expect(is_answer(answer, VEXIL_REFUSED_OUT_OF_ORDER, RECORDS - 1, 0, 0), "the last operand is missing");
    expect(memcmp(list, old, sizeof list) == 0, "a refused call changes no byte of the list");

    return failures == 0 ? 0 : 1;
}
