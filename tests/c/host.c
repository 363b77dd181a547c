/* A console host in C: the review trigger on plain numbers, register sheets as bytes, pages for the wall. Exits 0 where all is as the papers say. */
#include "host.h"
#include <stdio.h>
#include <string.h>

static int wrong;

static void same(const char *what, unsigned got, unsigned want) {
    if (got != want) {
        printf("%s: got %u, want %u\n", what, got, want);
        wrong = 1;
    }
}

/* The trigger by a wider product, for comparison. */
static bool review_wide(uint64_t cover, uint64_t target) {
    return (unsigned __int128)100 * cover > (unsigned __int128)80 * target;
}

static void review(void) {
    const uint64_t top = UINT64_MAX;
    const uint64_t at[] = {0, 1, 4, 5, 79, 80, 81, 99, 100, 101, 125, top / 5, top / 5 * 4 - 1, top / 5 * 4, top / 5 * 4 + 1, top / 4 * 3, top - 1, top};
    const size_t n = sizeof at / sizeof *at;
    for (size_t i = 0; i < n; i++)
        for (size_t j = 0; j < n; j++)
            same("review", review_due(at[i], at[j]), review_wide(at[i], at[j]));
    for (uint64_t a = 0; a < 2000; a++)
        for (uint64_t c = a * 4 / 5; c < a * 4 / 5 + 3; c++) {
            same("review", review_due(c, a), review_wide(c, a));
            same("review near the top", review_due(top / 5 * 4 - c, top - a), review_wide(top / 5 * 4 - c, top - a));
        }
    same("C = 100, A = 125", review_due(100, 125), 0);
    same("C = 101, A = 125", review_due(101, 125), 1);
}

static void put(uint8_t *at, uint8_t member, uint32_t margin, uint32_t contribution, uint32_t cap) {
    const uint32_t v[3] = {margin, contribution, cap};
    memset(at, 0, 16);
    at[0] = member;
    for (int i = 0; i < 12; i++) at[4 + i] = (uint8_t)(v[i / 4] >> (8 * (i % 4)));
}

#define MISSING 0xFFFFFFFFu
#define SUM 25600000000u

/* A sheet of two records, the first in order, with a fault in the second. */
static unsigned second(uint8_t member, uint32_t margin, uint32_t contribution, uint32_t cap, uint8_t zero) {
    uint8_t s[32];
    put(s, 3, 100, 10000, 0);
    put(s + 16, member, margin, contribution, cap);
    s[17] = zero;
    return register_refusal(s, 32, 22);
}

static void size(void) {
    uint8_t s[1040];
    for (unsigned i = 0; i < 65; i++) put(s + 16 * i, (uint8_t)(i + 1), 0, 10000, 0);
    same("empty", register_refusal(s, 0, 0), 1);
    same("null", register_refusal(NULL, 0, 0), 1);
    same("null, and 2 would apply", register_refusal(NULL, 0, SUM + 1), 1);
    same("one record", register_refusal(s, 16, 0), 0);
    same("cut", register_refusal(s, 31, 0), 1);
    same("64 records", register_refusal(s, 1024, 0), 0);
    same("65 records", register_refusal(s, 1040, 0), 1);
    same("largest own contribution", register_refusal(s, 16, SUM), 0);
    same("own contribution above the limit", register_refusal(s, 16, SUM + 1), 2);
    same("the largest number", register_refusal(s, 16, UINT64_MAX), 2);
    same("empty, and 2 would apply", register_refusal(s, 0, SUM + 1), 1);
    s[0] = 0;
    same("2 before 4", register_refusal(s, 16, SUM + 1), 2);
    same("member 0", register_refusal(s, 16, 0), 4);
}

static void records(void) {
    same("in order", second(7, 5, 400000000, 9, 0), 0);
    same("member 64", second(64, 0, 10000, 0, 0), 0);
    same("member 65", second(65, 0, 10000, 0, 0), 4);
    same("a byte that is not zero", second(7, 0, 10000, 0, 1), 4);
    same("a missing margin", second(7, MISSING, 10000, 9, 0), 5);
    same("a missing contribution", second(7, 0, MISSING, 9, 0), 5);
    same("a missing cap", second(7, 0, 10000, MISSING, 0), 5);
    same("a cap of 400,000,000", second(7, 0, 10000, 400000000, 0), 0);
    same("a cap of 400,000,001", second(7, 0, 10000, 400000001, 0), 6);
    same("a margin above the limit", second(7, 400000001, 10000, 0, 0), 6);
    same("a contribution of 9,999", second(7, 0, 9999, 0, 0), 6);
    same("a contribution of 0", second(7, 0, 0, 0, 0), 6);
    same("the same member again", second(3, 0, 10000, 0, 0), 7);
    same("a lesser member", second(2, 0, 10000, 0, 0), 7);
    same("4 before 5", second(65, MISSING, 10000, 0, 0), 4);
    same("4 before 7", second(0, 0, 10000, 0, 0), 4);
    same("5 before 6", second(7, MISSING, 9999, 0, 0), 5);
    same("5 before 7", second(3, 0, MISSING, 0, 0), 5);
    same("6 before 7", second(3, 0, 9999, 0, 0), 6);
    uint8_t s[48];
    put(s, 3, 0, 9999, 0), put(s + 16, 0, 0, 10000, 0), put(s + 32, 1, 0, 10000, 0);
    same("the first record decides", register_refusal(s, 48, 0), 6);
}

#define PRINTED 26000000000u
#define LENT 400
#define UNWRITTEN 0xA5

/* A page lent in the front of a buffer, with `length` bytes said to be there: the answer, and what stands in all of the buffer then. */
static uint8_t lent[LENT];
static unsigned printed(default_answer answer, size_t length) {
    memset(lent, UNWRITTEN, LENT);
    return print_page(answer, lent, length);
}

/* Whether every byte from a place on is as it was. */
static unsigned untouched(size_t from) {
    for (; from < LENT; from++)
        if (lent[from] != UNWRITTEN) return 0;
    return 1;
}

/* An amount that is looked for in each of the seven places. */
static default_answer with(unsigned place, uint64_t amount) {
    uint64_t v[7] = {0};
    v[place] = amount;
    return (default_answer){v[0], v[1], v[2], v[3], v[4], v[5], v[6]};
}

/* Document 01's first default, then the amounts at which the digits or the commas get one more. */
static void pages(void) {
    static const char first[] =
        "LAYER                        Rs THOUSAND\n"
        "MARGIN                            50,000\n"
        "OWN FUND                          20,000\n"
        "TRANCHE 1                         13,200\n"
        "MEMBERS                           16,800\n"
        "TRANCHE 2                              0\n"
        "CALLS                                  0\n"
        "SHORT                                  0\n";
    static const char steps[] =
        "LAYER                        Rs THOUSAND\n"
        "MARGIN                               999\n"
        "OWN FUND                           1,000\n"
        "TRANCHE 1                         99,999\n"
        "MEMBERS                         1,00,000\n"
        "TRANCHE 2                       2,55,000\n"
        "CALLS                    25,99,99,99,999\n"
        "SHORT                    26,00,00,00,000\n";
    const default_answer one = {50000, 20000, 13200, 16800, 0, 0, 0};
    const default_answer two = {999, 1000, 99999, 100000, 255000, PRINTED - 1, PRINTED};
    const size_t lengths[] = {PAGE_BYTES, PAGE_BYTES + 1, LENT};
    for (size_t i = 0; i < sizeof lengths / sizeof *lengths; i++) {
        same("the first default", printed(one, lengths[i]), 0);
        same("its page", memcmp(lent, first, PAGE_BYTES), 0);
        same("bytes after its page", untouched(PAGE_BYTES), 1);
        same("other amounts", printed(two, lengths[i]), 0);
        same("their page", memcmp(lent, steps, PAGE_BYTES), 0);
        same("bytes after their page", untouched(PAGE_BYTES), 1);
    }
}

static void refused_pages(void) {
    const size_t shorter[] = {0, 1, 40, 41, 287, PAGE_BYTES - 1};
    for (size_t i = 0; i < sizeof shorter / sizeof *shorter; i++) {
        same("a page that is too short", printed(with(0, 5), shorter[i]), 20);
        same("and is not written", untouched(0), 1);
    }
    same("a null page", print_page(with(0, 5), NULL, 0), 20);
    for (unsigned place = 0; place < 7; place++) {
        const uint64_t above[] = {PRINTED + 1, UINT64_MAX};
        same("the largest amount", printed(with(place, PRINTED), PAGE_BYTES), 0);
        for (size_t i = 0; i < 2; i++) {
            same("an amount above the limit", printed(with(place, above[i]), LENT), 20);
            same("and nothing is written", untouched(0), 1);
        }
    }
}

int main(void) {
    review();
    size();
    records();
    pages();
    refused_pages();
    if (!wrong) puts("host: all as the papers say");
    return wrong;
}
