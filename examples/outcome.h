/* The record of an outcome as a classifier sees it, and the helper functions that it may call. A
   classifier is one function: it takes a pointer to the record and answers a verdict. Its program is
   the section .text of what Clang makes of it; the script `compile` prints that in hexadecimal. */
#ifndef OUTCOME_H
#define OUTCOME_H

#include <stdint.h>

/* The layout of the record, 1 or 2: how much of the body's front the context has. Define it before the
   file is included, and name the same layout where the classifier is verified and installed. */
#ifndef OUTCOME_LAYOUT
#define OUTCOME_LAYOUT 1
#endif

enum {
    FRONT_BYTES = OUTCOME_LAYOUT == 2 ? 128 : 64,
};

enum verdict {
    VERDICT_SUCCESS = 0,
    VERDICT_FAILURE = 1,
    VERDICT_IGNORED = 2,
};

enum kind {
    KIND_RESPONSE = 0,
    KIND_TIMEOUT = 1,
    KIND_REFUSED = 2,
    KIND_RESET = 3,
    KIND_ERROR = 4,
};

enum method {
    METHOD_OTHER = 0,
    METHOD_GET = 1,
    METHOD_HEAD = 2,
    METHOD_POST = 3,
    METHOD_PUT = 4,
    METHOD_DELETE = 5,
    METHOD_CONNECT = 6,
    METHOD_OPTIONS = 7,
    METHOD_TRACE = 8,
    METHOD_PATCH = 9,
};

/* The context: 128 bytes in layout 1, 192 in layout 2, which are read only. A load has to be aligned to its size. */
struct outcome {
    uint32_t kind;           /* offset 0: one of enum kind */
    uint32_t status;         /* offset 4: the status of a response */
    uint64_t duration_ms;    /* offset 8: how long the call took, in milliseconds */
    uint64_t request_bytes;  /* offset 16 */
    uint64_t response_bytes; /* offset 24 */
    uint32_t attempt;        /* offset 32: the number of the attempt */
    uint32_t method;         /* offset 36: one of enum method */
    uint64_t flags;          /* offset 40 */
    uint64_t body_length;    /* offset 48: the length of the whole body, in bytes */
    uint64_t zero;           /* offset 56 */
    union {                  /* offset 64: the front of the body, filled up with zeros */
        uint8_t bytes[FRONT_BYTES];
        uint64_t words[FRONT_BYTES / 8]; /* the lowest byte of a word stands first */
    } body_front;
};

_Static_assert(OUTCOME_LAYOUT == 1 || OUTCOME_LAYOUT == 2, "the layout is 1 or 2");
_Static_assert(sizeof(struct outcome) == 64 + FRONT_BYTES, "the context ends with the body's front");
_Static_assert(__builtin_offsetof(struct outcome, method) == 36, "the method is at 36");
_Static_assert(__builtin_offsetof(struct outcome, body_front) == 64, "the body's front is at 64");

/* A helper function is called by its number. */

/* The fact of an index from 0 to 15. */
static uint64_t (*const fact)(uint64_t index) = (uint64_t (*)(uint64_t))1;

/* The byte of the body's front at an index from 0 to 63 in layout 1, from 0 to 127 in layout 2. */
static uint64_t (*const front_byte)(uint64_t index) = (uint64_t (*)(uint64_t))2;

/* Writes the first bytes of the tag, 1 to 32, to a place on the stack, with zeros past the tag's end,
   and answers the tag's length. */
static uint64_t (*const copy_tag)(uint8_t *place, uint64_t count) = (uint64_t (*)(uint8_t *, uint64_t))3;

/* Whether the tag begins with the bytes, 1 to 32, at a place on the stack: 1 or 0. */
static uint64_t (*const tag_starts)(const uint8_t *place, uint64_t count) = (uint64_t (*)(const uint8_t *, uint64_t))4;

#endif
