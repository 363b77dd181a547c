/* What the engine gives a console host in C: link target/staticlib/libhost.a, which tools/archive writes. */
#ifndef DRILL_HOST_H
#define DRILL_HOST_H

#include <stdbool.h>
#include <stddef.h>
#include <stdint.h>

/* Whether a review is triggered: 100 * cover is more than 80 * target, exactly, for any two numbers. */
bool review_due(uint64_t cover, uint64_t target);

/* The refusal number of a register sheet with our own contribution, in thousands of rupees; 0 if accepted.
   An empty sheet is refused with 1: where `length` is 0 nothing is read, and `sheet` may be null. */
uint8_t register_refusal(const uint8_t *sheet, size_t length, uint64_t own);

/* The six layers of a default's answer and its shortfall, in thousands of rupees. */
typedef struct {
    uint64_t margin;
    uint64_t contribution;
    uint64_t tranche1;
    uint64_t members;
    uint64_t tranche2;
    uint64_t calls;
    uint64_t shortfall;
} default_answer;

/* A page for the wall has this many bytes: eight lines of 40, and a newline behind each. */
#define PAGE_BYTES 328

/* Prints the answer on the page, in its first PAGE_BYTES bytes; bytes after them stay. Answers 0, or 20 where `length` is below PAGE_BYTES or an
   amount is above 26,000,000,000: nothing is written then, and where `length` is 0 `page` may be null. */
uint8_t print_page(default_answer answer, uint8_t *page, size_t length);

#endif
