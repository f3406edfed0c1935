/* AHB conditions: reading, presence and verdicts, for C. Link with libahb.a, which `tools/make ahb` writes.
 *
 * Each function answers with one number. A refusal is its own number, 1 to 17 (enum ahb_refusal), and then every
 * lent byte keeps its former content. ahb_is_accepted and the functions below it take an answer apart.
 *
 * Memory. A byte string is a pointer and a length. What is lent for writing must not overlap what else is lent in
 * the same call, and nothing else may write to lent memory until the call returns. A length must be that of memory
 * that is there, and its pointer not NULL. Where a length is 0 the functions at the end of this header take any
 * pointer, NULL too, and put another in its place: call those. The three functions of the library itself,
 * ahb_read, ahb_presence and ahb_verdicts, want a pointer that is not NULL also there.
 * Nothing is allocated, kept after the call, or shared between calls. A call takes at most some 126 KiB of stack
 * (docs/BENCHMARK.md), for the deepest parentheses; usual status lines take up to 19 KiB. */
#ifndef AHB_H
#define AHB_H

#include <stddef.h>
#include <stdint.h>

#ifdef __cplusplus
extern "C" {
#endif

/* Limits, in bytes unless said. */
#define AHB_TEXT_LIMIT 4400     /* the longest text */
#define AHB_VALUE_LIMIT 1024    /* the longest value */
#define AHB_CITATION_LIMIT 256  /* most citations of a tree (a count) */
#define AHB_CITED_LIMIT 2048    /* most bytes in the citations of a tree */

/* Buffers that hold every result. */
#define AHB_TREE_SIZE 6150      /* a tree */
#define AHB_VIOLATIONS_SIZE 512 /* the numbers of all citations, 2 bytes each, the low one first */

/* Why an input is turned back. */
enum ahb_refusal {
    AHB_STRAY = 1,               /* a character that is no citation, operator, parenthesis or white space */
    AHB_UNTERMINATED = 2,        /* a `[` without its `]` */
    AHB_EMPTY_CONDITION = 3,     /* a citation of white space only */
    AHB_MISSING_OPERAND = 4,     /* an operand is due, and neither a citation nor `(` follows */
    AHB_PARENTHESES = 5,         /* a `)` is missing or left over */
    AHB_EMPTY = 6,               /* no expression */
    AHB_CHOICE_OVER_NEUTRAL = 7, /* a choice between what gates a place and what does not */
    AHB_FAILED_ANSWER = 8,       /* the answer to an evaluated citation failed */
    AHB_NO_STATUS_WORD = 9,      /* the text does not begin with a status word */
    AHB_TOO_LONG = 10,           /* the text or the value is too long */
    AHB_NOT_UTF8 = 11,           /* the text or the value is not UTF-8 */
    AHB_TOO_MANY_CITATIONS = 12, /* too many citations, or too many bytes in them */
    AHB_TOO_DEEP = 13,           /* over 256 parentheses are open at a time */
    AHB_NO_ROOM = 14,            /* the lent buffer is shorter than the result */
    AHB_NOT_A_TREE = 15,         /* the bytes are not a tree */
    AHB_WRONG_ANSWERS = 16,      /* the answers do not fit the citations */
    AHB_NOT_A_PAKET = 17         /* the text is not a Paket citation (none of these functions says so) */
};

/* What was read: the status word, or an expression. */
enum ahb_kind {
    AHB_MUSS = 0,
    AHB_SOLL = 1,
    AHB_KANN = 2,
    AHB_X = 3,
    AHB_M = 4,
    AHB_S = 5,
    AHB_K = 6,
    AHB_EXPRESSION = 7
};

/* A presence or a format truth. Format truth is never AHB_NEUTRAL. */
enum ahb_truth {
    AHB_FALSE = 0,
    AHB_UNKNOWN = 1,
    AHB_TRUE = 2,
    AHB_NEUTRAL = 3
};

/* The answer byte of a citation whose evaluation failed; the others are those of enum ahb_truth. */
#define AHB_FAILED 4

/* The modes of ahb_read; any mode but 0 means 1. */
#define AHB_READ_EXPRESSION 0
#define AHB_READ_STATUS 1

/* The least accepted answers. */
#define AHB_ACCEPTED UINT64_C(4294967296)
#define AHB_PRESENT UINT32_C(256)

/* The functions of the library. No pointer may be NULL, also where its length is 0. */
uint64_t ahb_read(const uint8_t *text, size_t text_length, uint8_t mode, uint8_t *out, size_t out_length);
uint32_t ahb_presence(const uint8_t *tree, size_t tree_length, const uint8_t *answers, size_t answers_length);
uint64_t ahb_verdicts(const uint8_t *tree, size_t tree_length, const uint8_t *value, size_t value_length,
                      uint8_t *list, size_t list_length);

/* A pointer that may be handed on with a length: an empty byte string needs no memory, but an address. */
static inline const uint8_t *ahb_lent(const uint8_t *bytes, size_t length) {
    static const uint8_t none[1] = {0};
    return length == 0 ? none : bytes;
}

static inline uint8_t *ahb_lent_mut(uint8_t *bytes, size_t length, uint8_t *none) {
    return length == 0 ? none : bytes;
}

/* Reads a text, as an expression or as a status. The tree is written to the beginning of out. */
static inline uint64_t ahb_read_text(const uint8_t *text, size_t text_length, uint8_t mode, uint8_t *out,
                                     size_t out_length) {
    uint8_t none = 0;
    return ahb_read(ahb_lent(text, text_length), text_length, mode, ahb_lent_mut(out, out_length, &none), out_length);
}

static inline uint64_t ahb_read_expression(const uint8_t *text, size_t text_length, uint8_t *out,
                                           size_t out_length) {
    return ahb_read_text(text, text_length, AHB_READ_EXPRESSION, out, out_length);
}

static inline uint64_t ahb_read_status(const uint8_t *text, size_t text_length, uint8_t *out, size_t out_length) {
    return ahb_read_text(text, text_length, AHB_READ_STATUS, out, out_length);
}

/* The presence of a tree, by one answer byte a citation. */
static inline uint32_t ahb_eval(const uint8_t *tree, size_t tree_length, const uint8_t *answers,
                                size_t answers_length) {
    return ahb_presence(ahb_lent(tree, tree_length), tree_length, ahb_lent(answers, answers_length), answers_length);
}

/* The format truth of a tree for a value, and its violations: the citations that it violates, but for those in a group
 * that is True or Unknown. Their numbers are written to the beginning of list. If list is too short for them, the
 * answer is AHB_NO_ROOM alone and list keeps its bytes; AHB_VIOLATIONS_SIZE bytes are always enough. */
static inline uint64_t ahb_format_verdicts(const uint8_t *tree, size_t tree_length, const uint8_t *value,
                                           size_t value_length, uint8_t *list, size_t list_length) {
    uint8_t none = 0;
    return ahb_verdicts(ahb_lent(tree, tree_length), tree_length, ahb_lent(value, value_length), value_length,
                        ahb_lent_mut(list, list_length, &none), list_length);
}

/* Whether an answer of ahb_read or ahb_verdicts is accepted; if not, it is an enum ahb_refusal. */
static inline int ahb_is_accepted(uint64_t answer) { return answer >= AHB_ACCEPTED; }

/* Of an accepted answer of ahb_read: what was read, and the length of the tree, 0 for a status word alone. */
static inline enum ahb_kind ahb_kind_of(uint64_t answer) {
    return (enum ahb_kind)((answer - AHB_ACCEPTED) >> 16);
}
static inline size_t ahb_length_of(uint64_t answer) { return (size_t)(answer & 0xFFFF); }

/* Of an accepted answer of ahb_verdicts: the format truth, and the count of violations. */
static inline enum ahb_truth ahb_truth_of(uint64_t answer) {
    return (enum ahb_truth)((answer - AHB_ACCEPTED) >> 16);
}
static inline size_t ahb_count_of(uint64_t answer) { return (size_t)(answer & 0xFFFF); }

/* Whether an answer of ahb_presence is accepted; if not, it is an enum ahb_refusal. */
static inline int ahb_is_present(uint32_t answer) { return answer >= AHB_PRESENT; }

/* Of an accepted answer of ahb_presence: the presence. */
static inline enum ahb_truth ahb_presence_of(uint32_t answer) { return (enum ahb_truth)(answer - AHB_PRESENT); }

/* The number at a place of a list of violations, the first place being 0. */
static inline unsigned ahb_violation_at(const uint8_t *list, size_t place) {
    return (unsigned)list[2 * place] | (unsigned)list[2 * place + 1] << 8;
}

#ifdef __cplusplus
}
#endif

#endif
