/*
 * vexil_check: lists every violation of a declaration in a Vexil schema.
 *
 * The declaration is handed over as a sheet of 32-byte records and a names text; docs/FORMAT.md says how a sheet is laid out, with a
 * sheet worked out byte by byte. `./archive` writes target/staticlib/libdilomevay.a, which has the functions; it links into x86-64
 * programs:
 *
 *     cc -std=c11 -Iinclude program.c target/staticlib/libdilomevay.a
 */
#ifndef VEXIL_CHECK_H
#define VEXIL_CHECK_H

#include <stddef.h>
#include <stdint.h>

#ifdef __cplusplus
extern "C" {
#endif

/* The version of this header. Each later change of a struct, or of a buffer that the library itself writes, raises it; nothing else does. */
#define VEXIL_VERSION 1

/*
 * The version of the library. A program that is linked with a library of another version than its header's makes no other call: the
 * library may write other bytes than the program expects.
 */
uint32_t vexil_version(void);

/* Sizes, in bytes. */
enum {
    VEXIL_RECORD_SIZE = 32,          /* a record of a sheet */
    VEXIL_SHEET_MAX = 32768,         /* the longest sheet that is accepted: 1024 records */
    VEXIL_NAMES_MAX = 16384,         /* the longest names text that is accepted */
    VEXIL_VIOLATION_SIZE = 12,       /* a violation of the list */
    VEXIL_VIOLATIONS_PER_RECORD = 3, /* no bytes: the most violations for each record of a sheet */
    /* a list of this size holds every violation of every sheet */
    VEXIL_LIST_MAX = VEXIL_SHEET_MAX / VEXIL_RECORD_SIZE * VEXIL_VIOLATIONS_PER_RECORD * VEXIL_VIOLATION_SIZE
};

/* What a call answers. */
struct vexil_answer {
    uint32_t number; /* 0 where the sheet is accepted, else one of `enum vexil_refusal` */
    uint32_t index;  /* refused: the record at which, counted from 0; accepted: 0 */
    uint32_t total;  /* accepted: how many violations there are, whatever the size of the list; refused: 0 */
    uint32_t errors; /* accepted: how many of them are errors and not warnings; refused: 0 */
};

/*
 * Checks the declaration of a sheet. The first min(total, list_len / VEXIL_VIOLATION_SIZE) violations are written to the start of the
 * list, in order; its other bytes are kept. A refused call changes no byte of it.
 *
 * Each pointer is to as many bytes as the length after it says, and may be null where that is 0. Every length and every content is
 * allowed: what is no sheet is refused. The list must not overlap the sheet or the names text, and nothing else may write to the three
 * during the call. The call allocates nothing and keeps nothing, so several threads may call at once, each with a list of its own.
 */
struct vexil_answer vexil_check(const uint8_t *sheet, size_t sheet_len, const uint8_t *names, size_t names_len, uint8_t *list,
                                size_t list_len);

/* Why a sheet is refused: `number` of the answer. The index is 0 for the first two, and the number of records where a sheet ends early. */
enum vexil_refusal {
    VEXIL_ACCEPTED = 0,
    VEXIL_REFUSED_SHEET_LENGTH = 1,       /* the sheet's length is no multiple of 32, or over VEXIL_SHEET_MAX */
    VEXIL_REFUSED_NAMES_LENGTH = 2,       /* the names text is longer than VEXIL_NAMES_MAX */
    VEXIL_REFUSED_UNKNOWN = 3,            /* there is no such kind, or no such sub of the kind, or byte 3 is not 0 */
    VEXIL_REFUSED_NAME_RANGE = 4,         /* the name ends beyond the names text */
    VEXIL_REFUSED_ORDINAL_RANGE = 5,      /* the ordinal is over 4294967295 */
    VEXIL_REFUSED_OUT_OF_ORDER = 6,       /* the record cannot follow those before it, or the sheet ends too early */
    VEXIL_REFUSED_TOO_DEEP = 7,           /* a type or a condition has a part at depth 65 */
    VEXIL_REFUSED_SECOND_DECLARATION = 8, /* a known declaration has the name of an earlier one */
    VEXIL_REFUSED_ENDLESS_CHAIN = 9       /* the newtype leads to newtypes without end: a ring */
};

/* The severity of a violation. */
enum vexil_severity {
    VEXIL_ERROR = 0,
    VEXIL_WARNING = 1
};

/* The classes of violations: the variants of `ErrorClass` in vexil's diagnostic.rs that the check gives, with their numbers. */
enum vexil_class {
    VEXIL_CLASS_FIELD_NAME_DUPLICATE = 13,              /* a field has the name of an earlier one */
    VEXIL_CLASS_ORDINAL_DUPLICATE = 14,                 /* a field has the ordinal of an earlier one */
    VEXIL_CLASS_ORDINAL_TOO_LARGE = 15,                 /* a field's ordinal is over 65535 */
    VEXIL_CLASS_ORDINAL_REUSED_AFTER_REMOVED = 16,      /* a field has an ordinal that a tombstone retired */
    VEXIL_CLASS_UNKNOWN_TYPE = 17,                      /* a named type is neither declared nor imported */
    VEXIL_CLASS_CONFIG_TYPE_AS_FIELD = 18,              /* a field's type is a config */
    VEXIL_CLASS_NEWTYPE_OVER_NEWTYPE = 19,              /* a newtype of a newtype */
    VEXIL_CLASS_NEWTYPE_OVER_CONFIG = 20,               /* a newtype of a config */
    VEXIL_CLASS_INVALID_MAP_KEY = 28,                   /* the key of a map, or what a set holds, cannot be a key */
    VEXIL_CLASS_GEOMETRIC_INVALID_ELEMENT_TYPE = 29,    /* a vector, quaternion or matrix of other than f32, f64, fixed32, fixed64 */
    VEXIL_CLASS_ENUM_ORDINAL_DUPLICATE = 34,            /* a variant of an enum has the ordinal of an earlier one or of a tombstone */
    VEXIL_CLASS_ENUM_ORDINAL_TOO_LARGE = 35,            /* a variant's ordinal is over 65535 */
    VEXIL_CLASS_ENUM_BACKING_TOO_NARROW = 36,           /* the backing does not hold the greatest ordinal */
    VEXIL_CLASS_FLAGS_BIT_TOO_HIGH = 39,                /* a bit of flags is over 63 */
    VEXIL_CLASS_BITS_INLINE_EMPTY = 40,                 /* inline bits without a bit name */
    VEXIL_CLASS_INVALID_BIT_NAME = 41,                  /* a bit name has other bytes than a bit name may have */
    VEXIL_CLASS_UNION_ORDINAL_DUPLICATE = 42,           /* a variant of a union has the ordinal of an earlier one or of a tombstone */
    VEXIL_CLASS_UNION_ORDINAL_TOO_LARGE = 43,           /* a variant's ordinal is over 65535 */
    VEXIL_CLASS_DUPLICATE_ANNOTATION = 45,              /* an annotation other than doc is repeated */
    VEXIL_CLASS_DEPRECATED_MISSING_REASON = 47,         /* an error: deprecated without a reason; a warning: deprecated with one */
    VEXIL_CLASS_LIMIT_INVALID_TARGET = 49,              /* a limit on a type that cannot have one */
    VEXIL_CLASS_LIMIT_EXCEEDS_GLOBAL = 50,              /* a limit over 16777216 */
    VEXIL_CLASS_LIMIT_ZERO = 51,                        /* a limit of 0, or a fixed array of 0 */
    VEXIL_CLASS_VARINT_INVALID_TARGET = 52,             /* varint on a type that cannot have it */
    VEXIL_CLASS_ZIGZAG_INVALID_TARGET = 53,             /* zigzag on a type that cannot have it */
    VEXIL_CLASS_VARINT_ZIGZAG_COMBINED = 54,            /* varint and zigzag on one field */
    VEXIL_CLASS_DELTA_INVALID_TARGET = 55,              /* delta on a type that is no number */
    VEXIL_CLASS_WHERE_CLAUSE_TYPE_MISMATCH = 63,        /* a literal that does not suit the field's type */
    VEXIL_CLASS_WHERE_CLAUSE_RANGE_INVALID = 64,        /* a range on a type that is no number */
    VEXIL_CLASS_WHERE_CLAUSE_LEN_ON_NON_COLLECTION = 65, /* len() of a type that has no length */
    VEXIL_CLASS_WHERE_CLAUSE_CONST_REF_NOT_FOUND = 66,  /* a constant that is neither declared nor imported */
    VEXIL_CLASS_WHERE_CLAUSE_OPERATOR_INVALID = 67,     /* a comparison by order on a type that is no number */
    VEXIL_CLASS_INVARIANT_UNSUPPORTED = 68              /* an invariant */
};

/* A part of the source text. The check copies spans from the sheet to the list and never looks into the source text. */
struct vexil_span {
    uint32_t offset;
    uint32_t len;
};

/*
 * The sheet. Numbers are little-endian:
 *
 *     0       kind             one of `enum vexil_kind`
 *     1       sub              which of the kind, for kinds that have subs
 *     2       name length      for kinds that have a name
 *     3       0                always
 *     4-7     name offset      where the name begins in the names text
 *     8-15    span             offset, length
 *     16-23   ordinal's span   offset, length: of fields and variants
 *     24-31   value            an ordinal, a fixed array's size, a literal, or a sub-byte type's width and sign
 */
struct vexil_record {
    uint8_t kind;
    uint8_t sub;
    uint8_t name_len;
    uint32_t name_offset;
    struct vexil_span span;
    struct vexil_span ordinal_span;
    uint64_t value;
};

/* The kinds of records. */
enum vexil_kind {
    VEXIL_KIND_DECLARATION = 1,      /* the context: a known declaration; sub: enum vexil_declaration. A newtype's inner type follows it */
    VEXIL_KIND_IMPORTED_NAME = 2,    /* the context: an imported name */
    VEXIL_KIND_WILDCARD = 3,         /* the context: an import of all names */
    VEXIL_KIND_HEAD = 10,            /* the declaration that is checked; sub: enum vexil_head */
    VEXIL_KIND_FIELD = 11,           /* a field; value: its ordinal; span: its name's */
    VEXIL_KIND_FIELD_TOMBSTONE = 12, /* a retired ordinal of a message, or of a union variant's fields */
    VEXIL_KIND_INVARIANT = 13,       /* an invariant, without its condition */
    VEXIL_KIND_VARIANT = 14,         /* a variant of an enum or a union, or a bit of flags; value: its ordinal */
    VEXIL_KIND_TOMBSTONE = 15,       /* a retired ordinal of an enum, flags or a union */
    VEXIL_KIND_BACKING = 16,         /* an enum's backing; sub 0 to 3: u8, u16, u32, u64 */
    VEXIL_KIND_ANNOTATION = 20,      /* an annotation of a field */
    VEXIL_KIND_ARGUMENT = 21,        /* its argument; sub: enum vexil_argument; its name is the key, of length 0 where it has none */
    VEXIL_KIND_BIT_NAME = 22,        /* a name of inline bits */
    VEXIL_KIND_PRIMITIVE = 30,       /* a type; sub: enum vexil_primitive */
    VEXIL_KIND_SUB_BYTE = 31,        /* a type; value: low byte the width in bits, bit 8 set if signed */
    VEXIL_KIND_SEMANTIC = 32,        /* a type; sub: enum vexil_semantic */
    VEXIL_KIND_NAMED = 33,           /* a type by its name */
    VEXIL_KIND_QUALIFIED = 34,       /* a type by namespace and name, with a dot between them */
    VEXIL_KIND_GENERIC = 35,         /* a type by its name, with one type argument after it */
    VEXIL_KIND_OPTIONAL = 36,        /* one type after it */
    VEXIL_KIND_ARRAY = 37,           /* one type after it */
    VEXIL_KIND_FIXED_ARRAY = 38,     /* one type after it; value: the size */
    VEXIL_KIND_SET = 39,             /* one type after it */
    VEXIL_KIND_MAP = 40,             /* the key's type and the value's after it */
    VEXIL_KIND_RESULT = 41,          /* two types after it */
    VEXIL_KIND_VEC2 = 42,            /* the element's type after it, as of the next five */
    VEXIL_KIND_VEC3 = 43,
    VEXIL_KIND_VEC4 = 44,
    VEXIL_KIND_QUAT = 45,
    VEXIL_KIND_MAT3 = 46,
    VEXIL_KIND_MAT4 = 47,
    VEXIL_KIND_BITS_INLINE = 48,     /* its bit names after it */
    VEXIL_KIND_AND = 50,             /* a condition; two conditions after it */
    VEXIL_KIND_OR = 51,              /* two conditions after it */
    VEXIL_KIND_NOT = 52,             /* one condition after it */
    VEXIL_KIND_CMP = 53,             /* one operand after it; sub: enum vexil_cmp */
    VEXIL_KIND_RANGE = 54,           /* low and high operand after it; sub: 1 if the high is excluded, else 0 */
    VEXIL_KIND_LEN_CMP = 55,         /* as VEXIL_KIND_CMP, of len() */
    VEXIL_KIND_LEN_RANGE = 56,       /* as VEXIL_KIND_RANGE, of len() */
    VEXIL_KIND_OPERAND = 60          /* an operand; sub: enum vexil_operand; value: the literal */
};

/* Subs of VEXIL_KIND_DECLARATION. */
enum vexil_declaration {
    VEXIL_DECLARED_MESSAGE = 0,
    VEXIL_DECLARED_ENUM = 1,
    VEXIL_DECLARED_FLAGS = 2,
    VEXIL_DECLARED_UNION = 3,
    VEXIL_DECLARED_NEWTYPE = 4,
    VEXIL_DECLARED_CONFIG = 5,
    VEXIL_DECLARED_ALIAS = 6,
    VEXIL_DECLARED_CONST = 7,
    VEXIL_DECLARED_TRAIT = 8,
    VEXIL_DECLARED_IMPL = 9
};

/* Subs of VEXIL_KIND_HEAD. */
enum vexil_head {
    VEXIL_HEAD_MESSAGE = 0,
    VEXIL_HEAD_ENUM = 1,
    VEXIL_HEAD_FLAGS = 2,
    VEXIL_HEAD_UNION = 3,
    VEXIL_HEAD_NEWTYPE = 4
};

/* Subs of VEXIL_KIND_ARGUMENT. */
enum vexil_argument {
    VEXIL_ARGUMENT_INT = 0,
    VEXIL_ARGUMENT_HEX = 1,
    VEXIL_ARGUMENT_STR = 2,
    VEXIL_ARGUMENT_BOOL = 3,
    VEXIL_ARGUMENT_IDENT = 4,
    VEXIL_ARGUMENT_UPPER_IDENT = 5
};

/* Subs of VEXIL_KIND_PRIMITIVE. */
enum vexil_primitive {
    VEXIL_BOOL = 0,
    VEXIL_U8 = 1,
    VEXIL_U16 = 2,
    VEXIL_U32 = 3,
    VEXIL_U64 = 4,
    VEXIL_I8 = 5,
    VEXIL_I16 = 6,
    VEXIL_I32 = 7,
    VEXIL_I64 = 8,
    VEXIL_F32 = 9,
    VEXIL_F64 = 10,
    VEXIL_FIXED32 = 11,
    VEXIL_FIXED64 = 12,
    VEXIL_VOID = 13
};

/* Subs of VEXIL_KIND_SEMANTIC. */
enum vexil_semantic {
    VEXIL_STRING = 0,
    VEXIL_BYTES = 1,
    VEXIL_RGB = 2,
    VEXIL_UUID = 3,
    VEXIL_TIMESTAMP = 4,
    VEXIL_HASH = 5
};

/* Subs of VEXIL_KIND_CMP and VEXIL_KIND_LEN_CMP. */
enum vexil_cmp {
    VEXIL_EQ = 0,
    VEXIL_NE = 1,
    VEXIL_LT = 2,
    VEXIL_GT = 3,
    VEXIL_LE = 4,
    VEXIL_GE = 5
};

/* Subs of VEXIL_KIND_OPERAND. */
enum vexil_operand {
    VEXIL_OPERAND_INT = 0,      /* in two's complement */
    VEXIL_OPERAND_FLOAT = 1,    /* by its IEEE 754 bits */
    VEXIL_OPERAND_STRING = 2,
    VEXIL_OPERAND_BOOL = 3,     /* 0 is false, all else true */
    VEXIL_OPERAND_VALUE = 4,
    VEXIL_OPERAND_CONST_REF = 5 /* a constant; it has a name */
};

/*
 * The list. A violation is 12 bytes, numbers little-endian:
 *
 *     0-1     class      one of `enum vexil_class`
 *     2       severity   one of `enum vexil_severity`
 *     3       0
 *     4-11    span       offset, length
 */
struct vexil_violation {
    uint16_t class_number;
    uint8_t severity;
    struct vexil_span span;
};

/* The number in the `bytes` bytes from `at` on. */
static inline uint64_t vexil_get(const uint8_t *at, size_t bytes) {
    uint64_t number = 0;
    while (bytes > 0) {
        bytes -= 1;
        number = number << 8 | at[bytes];
    }
    return number;
}

/* Writes a number to the `bytes` bytes from `at` on. */
static inline void vexil_put(uint8_t *at, size_t bytes, uint64_t number) {
    for (size_t i = 0; i < bytes; i++) {
        at[i] = (uint8_t)(number >> 8 * i);
    }
}

/* How many violations a call wrote to its list of list_len bytes. */
static inline size_t vexil_written(struct vexil_answer answer, size_t list_len) {
    size_t room = list_len / VEXIL_VIOLATION_SIZE;
    return answer.total < room ? answer.total : room;
}

/* Violation i of a list, counted from 0; i is below vexil_written. */
static inline struct vexil_violation vexil_violation_at(const uint8_t *list, size_t i) {
    const uint8_t *at = list + VEXIL_VIOLATION_SIZE * i;
    struct vexil_violation violation;
    violation.class_number = (uint16_t)vexil_get(at, 2);
    violation.severity = at[2];
    violation.span.offset = (uint32_t)vexil_get(at + 4, 4);
    violation.span.len = (uint32_t)vexil_get(at + 8, 4);
    return violation;
}

/* Writes record i of a sheet, counted from 0. The sheet has room for it. */
static inline void vexil_put_record(uint8_t *sheet, size_t i, struct vexil_record record) {
    uint8_t *at = sheet + VEXIL_RECORD_SIZE * i;
    at[0] = record.kind;
    at[1] = record.sub;
    at[2] = record.name_len;
    at[3] = 0;
    vexil_put(at + 4, 4, record.name_offset);
    vexil_put(at + 8, 4, record.span.offset);
    vexil_put(at + 12, 4, record.span.len);
    vexil_put(at + 16, 4, record.ordinal_span.offset);
    vexil_put(at + 20, 4, record.ordinal_span.len);
    vexil_put(at + 24, 8, record.value);
}

#ifdef __cplusplus
}
#endif

#endif
