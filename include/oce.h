/* The checker of CDL control models: a call for one image and a call for a batch of images, over
 * bytes that the caller lends.
 *
 * Link target/staticlib/liboce_capi.a (x86-64 Linux; built by tools/library). Of the C
 * library it needs memset, memcpy and memmove at most. docs/FORMAT.md tells what an image, a report
 * and a rule are.
 */
#ifndef OCE_H
#define OCE_H

#include <stddef.h>
#include <stdint.h>

#ifdef __cplusplus
extern "C" {
#endif

/* The answer of a call. Either it is refused: `refusal` is 1 to 10, `at` the offset of the first
 * field at fault (0 for OCE_REFUSED_SIZE; the bytes needed for the two buffer refusals), `errors`
 * and `warnings` are 0. Or it is checked: `refusal` and `at` are 0, `errors` and `warnings` count
 * the diagnostics of the report. A model may be loaded if `refusal` and `errors` are both 0.
 */
typedef struct oce_answer {
    uint32_t refusal;
    uint32_t at;
    uint32_t errors;
    uint32_t warnings;
} oce_answer;

/* Checks the model image of `n` bytes at `image`.
 *
 * Checked: the first `n` bytes of `filled` are the image, with its attributes filled if there is no
 * error; the first OCE_DIAGNOSTIC_SIZE * (errors + warnings) bytes of `report` are the diagnostics,
 * in order. Refused: both buffers keep all their bytes. Bytes behind the results are never changed,
 * and the image never is.
 *
 * - Any bytes may be handed in, and any lengths. `m >= n` and `k` large enough avoid the two buffer
 *   refusals; a call with `k` 0 tells the bytes that the report needs.
 * - The caller owes what the types say and nothing tests: each pointer points to as many bytes as
 *   its length says, `filled` and `report` to bytes that may be written; the three ranges must not
 *   overlap; nothing else changes them during the call.
 * - A pointer may be null where its length is 0: nothing is then read or written through it.
 * - Nothing is allocated and there is no state between calls: calls from several threads at once
 *   are fine, as long as they share no buffer that is written.
 * - A call takes less than OCE_STACK_SIZE bytes of stack: tools/guarded measures it (docs/BENCH.md).
 */
oce_answer oce_check(const uint8_t *image, size_t n, uint8_t *filled, size_t m, uint8_t *report,
                     size_t k);

/* The answer of a call for a batch. Either it is refused: `refusal` is 11 or 12, `at` the offset
 * of the first field at fault (OCE_REFUSED_BATCH_FIELD) or the bytes needed
 * (OCE_REFUSED_OUTPUT_SHORT), `written` is 0. Or the output is written: `refusal` and `at` are 0,
 * `written` is its length in bytes.
 */
typedef struct oce_batch_answer {
    uint64_t refusal;
    uint64_t at;
    uint64_t written;
} oce_batch_answer;

/* Checks the batch of `n` bytes at `batch`: a row of at most OCE_BATCH_IMAGES_MOST fields, each
 * with a model image in it (OCE_BATCH_.. below).
 *
 * Written: `output` starts with the results, one for each image in the batch's order: a field of
 * OCE_SUMMARY_SIZE bytes (OCE_SUMMARY_.. below), then the image's report, OCE_DIAGNOSTIC_SIZE *
 * (errors + warnings) bytes. They are what oce_check gives for that image alone with the room that
 * it needs; filled images aren't given. Refused: `output` keeps all its bytes. Bytes behind the
 * results are never changed, and the batch never is.
 *
 * - An image that is refused doesn't refuse the batch: its field has the refusal, 1 to 8, and the
 *   offset, which counts from that image's own first byte.
 * - Any bytes may be handed in, and any lengths. A batch may be longer than OCE_IMAGE_MOST bytes;
 *   an image may have no bytes (it is refused for its size); an empty batch has an empty output.
 * - A call with `k` 0 tells the bytes that the output needs: `at` of OCE_REFUSED_OUTPUT_SHORT, or
 *   none, where `written` is 0 without a refusal. It checks every image on the way. An output may
 *   be longer than its batch.
 * - The caller owes what the types say and nothing tests: each pointer points to as many bytes as
 *   its length says, `output` to bytes that may be written; the two ranges must not overlap;
 *   nothing else changes them during the call.
 * - A pointer may be null where its length is 0: nothing is then read or written through it.
 * - Nothing is allocated and there is no state between calls: calls from several threads at once
 *   are fine, as long as they share no buffer that is written.
 * - A call takes less than OCE_BATCH_STACK_SIZE bytes of stack: tools/guarded measures it.
 */
oce_batch_answer oce_check_batch(const uint8_t *batch, size_t n, uint8_t *output, size_t k);

/* Sizes in bytes. An image has OCE_IMAGE_LEAST to OCE_IMAGE_MOST bytes. */
#define OCE_IMAGE_LEAST 23
#define OCE_IMAGE_MOST 65535
#define OCE_DIAGNOSTIC_SIZE 19
#define OCE_SUMMARY_SIZE 16
#define OCE_STACK_SIZE 262144
#define OCE_BATCH_STACK_SIZE 524288

/* A batch has no more images. */
#define OCE_BATCH_IMAGES_MOST 4096

/* Refusals, by `refusal`. The lowest number that applies anywhere in the image is given. */
#define OCE_CHECKED 0              /* not refused */
#define OCE_REFUSED_SIZE 1         /* the image is too short or too long */
#define OCE_REFUSED_CUT 2          /* a field runs past the image's end */
#define OCE_REFUSED_TAG 3          /* a tag is unknown, out of order, or a second head */
#define OCE_REFUSED_LENGTH 4       /* a field's length isn't its kind's */
#define OCE_REFUSED_COUNT 5        /* too many records of a kind */
#define OCE_REFUSED_VALUE 6        /* version, direction, type, class or attributes */
#define OCE_REFUSED_TEXT_BYTE 7    /* a text has a byte outside 0x20 to 0x7E */
#define OCE_REFUSED_TEXT_NUMBER 8  /* a text number that is in use has no text */
#define OCE_REFUSED_FILLED_SHORT 9 /* the filled buffer is too short; `at`: bytes needed */
#define OCE_REFUSED_REPORT_SHORT 10 /* the report buffer is too short; `at`: bytes needed */

/* Refusals of a batch. The first is asked of the whole batch before the second. */
#define OCE_REFUSED_BATCH_FIELD 11  /* a field is cut short, has another tag, or is one too many */
#define OCE_REFUSED_OUTPUT_SHORT 12 /* the output buffer is too short; `at`: bytes needed */

/* Where the parts of a diagnostic stand in its OCE_DIAGNOSTIC_SIZE bytes. Numbers of more than one
 * byte have the low byte first and aren't aligned.
 */
#define OCE_DIAGNOSTIC_TAG_AT 0            /* 1 byte: OCE_DIAGNOSTIC_TAG */
#define OCE_DIAGNOSTIC_LENGTH_AT 1         /* 2 bytes: OCE_DIAGNOSTIC_LENGTH, the bytes behind */
#define OCE_DIAGNOSTIC_SEVERITY_AT 3       /* 1 byte */
#define OCE_DIAGNOSTIC_CODE_AT 4           /* 1 byte */
#define OCE_DIAGNOSTIC_RULE_AT 5           /* 1 byte: 1 to 6 */
#define OCE_DIAGNOSTIC_DETAIL_AT 6         /* 1 byte: which fault of the rule, from 1 */
#define OCE_DIAGNOSTIC_SUBJECT_KIND_AT 7   /* 1 byte, then three zero bytes */
#define OCE_DIAGNOSTIC_SUBJECT_NUMBER_AT 11 /* 4 bytes: text number or id, by the subject kind */
#define OCE_DIAGNOSTIC_PLACE_AT 15         /* 4 bytes: a record's number unless the rule says else */

#define OCE_DIAGNOSTIC_TAG 0x20
#define OCE_DIAGNOSTIC_LENGTH 16

/* Where the parts of a batch's field stand. */
#define OCE_BATCH_TAG_AT 0    /* 1 byte: OCE_BATCH_TAG */
#define OCE_BATCH_LENGTH_AT 1 /* 2 bytes: the image's length */
#define OCE_BATCH_IMAGE_AT 3  /* the image; the next field stands behind it */

#define OCE_BATCH_TAG 0x30

/* Where the parts of the field that sums up an image's check stand in its OCE_SUMMARY_SIZE bytes.
 * The image's report stands behind it.
 */
#define OCE_SUMMARY_TAG_AT 0       /* 1 byte: OCE_SUMMARY_TAG */
#define OCE_SUMMARY_LENGTH_AT 1    /* 2 bytes: OCE_SUMMARY_LENGTH, the bytes behind */
#define OCE_SUMMARY_REFUSAL_AT 3   /* 1 byte: OCE_CHECKED, or 1 to 8 */
#define OCE_SUMMARY_OFFSET_AT 4    /* 4 bytes: the refusal's offset in the image; 0 if checked */
#define OCE_SUMMARY_ERRORS_AT 8    /* 4 bytes: 0 if refused */
#define OCE_SUMMARY_WARNINGS_AT 12 /* 4 bytes: 0 if refused */

#define OCE_SUMMARY_TAG 0x31
#define OCE_SUMMARY_LENGTH 13

/* Severities. */
#define OCE_SEVERITY_ERROR 0
#define OCE_SEVERITY_WARNING 1

/* Codes. */
#define OCE_CODE_MALFORMED_DOCUMENT 1
#define OCE_CODE_DIRECTION_MISMATCH 2
#define OCE_CODE_SINGLE_ASSIGNMENT 3
#define OCE_CODE_TYPE_MISMATCH 4
#define OCE_CODE_UNIT_QUANTITY_MISMATCH 5
#define OCE_CODE_BOUND_MISMATCH 6
#define OCE_CODE_CROSSED_BOUNDS 7
#define OCE_CODE_DISPLAY_UNIT_DIVERGENCE 8

/* Subject kinds. */
#define OCE_SUBJECT_NONE 0      /* the number is 0 */
#define OCE_SUBJECT_TEXT 1      /* the image's text with that number, from 0 */
#define OCE_SUBJECT_CONNECTOR 2 /* the connector with that id */
#define OCE_SUBJECT_BLOCK 3     /* the block with that id */

#ifdef __cplusplus
}
#endif

#endif
