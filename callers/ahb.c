/* Calls the three functions from C: what is accepted, every refusal that they can give, empty byte strings and NULL
 * with length 0. It stops at an answer or a lent byte that is not as it should be, and prints a line for each call. */
#undef NDEBUG
#include "ahb.h"

#include <assert.h>
#include <stdio.h>
#include <string.h>

#define PATTERN 0xA5

static uint8_t out[AHB_TREE_SIZE + 16];
static uint8_t list[AHB_VIOLATIONS_SIZE + 16];

/* The first `length` bytes may have been written; the others must be as they were. */
static void kept(const uint8_t *bytes, size_t length, size_t size) {
    for (size_t i = length; i < size; i++)
        assert(bytes[i] == PATTERN);
}

static const uint8_t *bytes_of(const char *text) { return (const uint8_t *)text; }

static const char *const kinds[8] = {"Muss", "Soll", "Kann", "X", "M", "S", "K", "expression"};
static const char *const truths[4] = {"False", "Unknown", "True", "Neutral"};

/* Reads into a buffer of `room` bytes, and prints and returns the answer. */
static uint64_t read_bytes(const char *name, uint8_t mode, const uint8_t *text, size_t length, size_t room) {
    memset(out, PATTERN, sizeof out);
    uint8_t *lent = room == 0 ? NULL : out;
    uint64_t answer = mode == AHB_READ_EXPRESSION ? ahb_read_expression(text, length, lent, room)
                                                  : ahb_read_status(text, length, lent, room);
    if (ahb_is_accepted(answer)) {
        assert(ahb_length_of(answer) <= room);
        kept(out, ahb_length_of(answer), sizeof out);
        printf("%s: %s, %zu bytes\n", name, kinds[ahb_kind_of(answer)], ahb_length_of(answer));
    } else {
        assert(answer >= 1 && answer <= 17);
        kept(out, 0, sizeof out);
        printf("%s: refused %u\n", name, (unsigned)answer);
    }
    return answer;
}

static void refused_expression(const char *name, const char *text, size_t length, unsigned number) {
    assert(read_bytes(name, AHB_READ_EXPRESSION, bytes_of(text), length, AHB_TREE_SIZE) == number);
}

static uint32_t eval(const char *name, const uint8_t *tree, size_t length, const uint8_t *answers, size_t count) {
    uint32_t answer = ahb_eval(tree, length, answers, count);
    if (ahb_is_present(answer))
        printf("%s: %s\n", name, truths[ahb_presence_of(answer)]);
    else
        printf("%s: refused %u\n", name, (unsigned)answer);
    return answer;
}

static uint64_t verdicts(const char *name, const uint8_t *tree, size_t length, const uint8_t *value, size_t size,
                         size_t room) {
    memset(list, PATTERN, sizeof list);
    uint64_t answer = ahb_format_verdicts(tree, length, value, size, room == 0 ? NULL : list, room);
    if (ahb_is_accepted(answer)) {
        assert(2 * ahb_count_of(answer) <= room);
        kept(list, 2 * ahb_count_of(answer), sizeof list);
        printf("%s: %s, %zu", name, truths[ahb_truth_of(answer)], ahb_count_of(answer));
        for (size_t i = 0; i < ahb_count_of(answer); i++)
            printf(" %u", ahb_violation_at(list, i));
        printf("\n");
    } else {
        kept(list, 0, sizeof list);
        printf("%s: refused %u\n", name, (unsigned)answer);
    }
    return answer;
}

/* An accepted answer of ahb_verdicts. */
static uint64_t judged(enum ahb_truth truth, unsigned count) {
    return AHB_ACCEPTED + 65536 * (uint64_t)truth + count;
}

static void reading(void) {
    static const uint8_t one[23] = {1, 0, 1, 0, 12, 0, 18, 0, 22, 0, 23, 0, 0, 0, 0, 0, 1, 0, 0, 0, 1, 0, '1'};
    static const uint8_t not_utf8[1] = {0xFF};
    static char text[AHB_TEXT_LIMIT + 1];

    assert(read_bytes("exact", AHB_READ_EXPRESSION, bytes_of("[1]"), 3, 23) == AHB_ACCEPTED + 7 * 65536 + 23);
    assert(memcmp(out, one, 23) == 0);
    assert(read_bytes("one short", AHB_READ_EXPRESSION, bytes_of("[1]"), 3, 22) == AHB_NO_ROOM);
    assert(read_bytes("no room", AHB_READ_EXPRESSION, bytes_of("[1]"), 3, 0) == AHB_NO_ROOM);
    assert(read_bytes("word alone", AHB_READ_STATUS, bytes_of("Kann"), 4, 0) == AHB_ACCEPTED + 2 * 65536);
    assert(read_bytes("word and tree", AHB_READ_STATUS, bytes_of("K [1]"), 5, 23) == AHB_ACCEPTED + 6 * 65536 + 23);
    assert(read_bytes("no status word", AHB_READ_STATUS, bytes_of("muss [1]"), 8, 23) == AHB_NO_STATUS_WORD);
    assert(read_bytes("NULL expression", AHB_READ_EXPRESSION, NULL, 0, 0) == AHB_EMPTY);
    assert(read_bytes("NULL status", AHB_READ_STATUS, NULL, 0, 0) == AHB_NO_STATUS_WORD);

    /* Any mode but 0 reads a status. */
    assert(ahb_read_text(bytes_of("K [1]"), 5, 255, out, 23) == AHB_ACCEPTED + AHB_K * 65536 + 23);

    refused_expression("stray", "[1] + [2]", 9, AHB_STRAY);
    refused_expression("unterminated", "[1", 2, AHB_UNTERMINATED);
    refused_expression("empty citation", "[ ]", 3, AHB_EMPTY_CONDITION);
    refused_expression("missing operand", "([1] [2]) (", 11, AHB_MISSING_OPERAND);
    refused_expression("parentheses", "([1]", 4, AHB_PARENTHESES);
    refused_expression("blank", "   ", 3, AHB_EMPTY);
    refused_expression("not UTF-8", (const char *)not_utf8, 1, AHB_NOT_UTF8);

    memset(text, ' ', sizeof text);
    refused_expression("4,400 spaces", text, AHB_TEXT_LIMIT, AHB_EMPTY);
    refused_expression("4,401 spaces", text, AHB_TEXT_LIMIT + 1, AHB_TOO_LONG);
    memset(text, '(', 257);
    refused_expression("257 parentheses", text, 257, AHB_TOO_DEEP);
    for (size_t i = 0; i < 257; i++)
        memcpy(text + 3 * i, "[1]", 3);
    assert(read_bytes("256 citations", AHB_READ_EXPRESSION, bytes_of(text), 3 * 256, AHB_TREE_SIZE) ==
           AHB_ACCEPTED + 7 * 65536 + 2834);
    refused_expression("257 citations", text, 3 * 257, AHB_TOO_MANY_CITATIONS);
}

static void judging(void) {
    static const char status[] = "Muss ([902] \xE2\x88\xA8 [903]) [1] \xE2\x88\xA7 [914]";
    static const uint8_t answers[4] = {3, 3, 2, 3}, five[5] = {3, 3, 2, 3, 3}, over[4] = {3, 3, 5, 3};
    static const uint8_t failed[4] = {3, 3, AHB_FAILED, 3}, not_utf8[1] = {0xFF};
    static uint8_t tree[AHB_TREE_SIZE], value[AHB_VALUE_LIMIT + 1];

    uint64_t answer = read_bytes("status", AHB_READ_STATUS, bytes_of(status), sizeof status - 1, AHB_TREE_SIZE);
    size_t n = ahb_length_of(answer);
    memcpy(tree, out, n);

    assert(eval("presence", tree, n, answers, 4) == AHB_PRESENT + AHB_TRUE);
    assert(eval("failed answer", tree, n, failed, 4) == AHB_FAILED_ANSWER);
    assert(eval("no answers", tree, n, NULL, 0) == AHB_WRONG_ANSWERS);
    assert(eval("five answers", tree, n, five, 5) == AHB_WRONG_ANSWERS);
    assert(eval("answer over 4", tree, n, over, 4) == AHB_WRONG_ANSWERS);
    assert(eval("tree one short", tree, n - 1, answers, 4) == AHB_NOT_A_TREE);
    assert(eval("NULL tree", NULL, 0, NULL, 0) == AHB_NOT_A_TREE);

    memset(value, '0', sizeof value);
    assert(verdicts("verdicts on 0", tree, n, bytes_of("0"), 1, 2) == judged(AHB_FALSE, 1));
    assert(verdicts("verdicts on 0, one short", tree, n, bytes_of("0"), 1, 1) == AHB_NO_ROOM);
    assert(verdicts("verdicts on 0, no room", tree, n, bytes_of("0"), 1, 0) == AHB_NO_ROOM);
    assert(verdicts("verdicts on 1, no room", tree, n, bytes_of("1"), 1, 0) == judged(AHB_TRUE, 0));
    assert(verdicts("verdicts on nothing", tree, n, NULL, 0, AHB_VIOLATIONS_SIZE) == judged(AHB_FALSE, 3));
    assert(verdicts("verdicts on 1,024 zeros", tree, n, value, AHB_VALUE_LIMIT, 3) == judged(AHB_FALSE, 1));
    assert(verdicts("verdicts on 1,025 zeros", tree, n, value, AHB_VALUE_LIMIT + 1, 4) == AHB_TOO_LONG);
    assert(verdicts("verdicts on no UTF-8", tree, n, not_utf8, 1, 4) == AHB_NOT_UTF8);
    assert(verdicts("verdicts without a tree", NULL, 0, NULL, 0, 0) == AHB_NOT_A_TREE);
}

static void choosing(void) {
    static const char choice[] = "[1] \xE2\x88\xA8 [931]", unregistered[] = "[922]", hint[] = "[500]";
    static const uint8_t answers[2] = {2, 3}, unknown[1] = {1}, neutral[1] = {3};

    uint64_t answer = read_bytes("choice", AHB_READ_EXPRESSION, bytes_of(choice), sizeof choice - 1, AHB_TREE_SIZE);
    assert(eval("mixed choice", out, ahb_length_of(answer), answers, 2) == AHB_CHOICE_OVER_NEUTRAL);
    answer = read_bytes("unregistered", AHB_READ_EXPRESSION, bytes_of(unregistered), 5, AHB_TREE_SIZE);
    assert(eval("unknown", out, ahb_length_of(answer), unknown, 1) == AHB_PRESENT + AHB_UNKNOWN);
    assert(verdicts("verdicts unknown", out, ahb_length_of(answer), NULL, 0, 0) == judged(AHB_UNKNOWN, 0));
    answer = read_bytes("hint", AHB_READ_EXPRESSION, bytes_of(hint), 5, AHB_TREE_SIZE);
    assert(eval("neutral", out, ahb_length_of(answer), neutral, 1) == AHB_PRESENT + AHB_NEUTRAL);
}

/* The largest results just fit the buffers that the header names. */
static void largest(void) {
    static char text[AHB_TEXT_LIMIT];
    static uint8_t tree[AHB_TREE_SIZE];
    size_t n = AHB_CITATION_LIMIT - 2;

    memset(text, '(', n);
    for (size_t i = 0; i < AHB_CITATION_LIMIT; i++) {
        if (i > 0) {
            memcpy(text + n, i % 2 == 0 ? "\xE2\x88\xA7" : "\xE2\x88\xA8", 3);
            n += 3;
        }
        memcpy(text + n, "[12345678]", 10);
        n += 10;
        if (i > 0 && i + 1 < AHB_CITATION_LIMIT)
            text[n++] = ')';
    }
    assert(read_bytes("largest tree", AHB_READ_EXPRESSION, bytes_of(text), n, AHB_TREE_SIZE) ==
           AHB_ACCEPTED + 7 * 65536 + AHB_TREE_SIZE);
    assert(read_bytes("largest tree, one short", AHB_READ_EXPRESSION, bytes_of(text), n, AHB_TREE_SIZE - 1) ==
           AHB_NO_ROOM);

    for (size_t i = 0; i < AHB_CITATION_LIMIT; i++)
        memcpy(text + 5 * i, "[902]", 5);
    n = ahb_length_of(read_bytes("256 times [902]", AHB_READ_EXPRESSION, bytes_of(text), 5 * AHB_CITATION_LIMIT,
                                 AHB_TREE_SIZE));
    memcpy(tree, out, n);
    assert(verdicts("all violated", tree, n, NULL, 0, AHB_VIOLATIONS_SIZE) == judged(AHB_FALSE, AHB_CITATION_LIMIT));
    assert(verdicts("all violated, one short", tree, n, NULL, 0, AHB_VIOLATIONS_SIZE - 1) == AHB_NO_ROOM);
}

int main(void) {
    reading();
    judging();
    choosing();
    largest();
    return 0;
}
