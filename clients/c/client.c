/* A first program against include/stitchbarrow.h: one field, a batch taken in turns, and a mistyped IBAN repaired. */
#include <inttypes.h>
#include <stdio.h>
#include <string.h>

#include "stitchbarrow.h"

static uint64_t number(const uint8_t *bytes, size_t count) {
    uint64_t n = 0;
    while (count-- > 0) {
        n = n << 8 | bytes[count];
    }
    return n;
}

/* Prints an answer's number, place and value. */
static void print_answer(const uint8_t *answer) {
    printf("%u %" PRIu64 " %" PRIu64 "\n", answer[0], number(answer + 2, 2), number(answer + 4, 8));
}

static void check(uint16_t kind, const char *field) {
    uint8_t answer[STITCHBARROW_ANSWER_SIZE];
    stitchbarrow_check(kind, (const uint8_t *)field, strlen(field), answer, sizeof answer);
    printf("check %u %s: ", kind, field);
    print_answer(answer);
}

/* Room for two verdicts at a time, so that the call stops for room and goes on. */
static void run(const uint8_t *batch, size_t length) {
    uint8_t out[2 * STITCHBARROW_VERDICT_SIZE];
    uint64_t counts[3];
    uint64_t offset = 0;
    uint8_t stop;
    do {
        stop = stitchbarrow_run(batch + offset, length - offset, offset, out, sizeof out, 100, counts, 3);
        for (const uint8_t *verdict = out; verdict < out + counts[2]; verdict += STITCHBARROW_VERDICT_SIZE) {
            printf("record %" PRIu64 " kind %" PRIu64 ": ", number(verdict + 4, 8), number(verdict + 2, 2));
            print_answer(verdict + 12);
        }
        offset += counts[1];
        printf("stop %u judged %" PRIu64 " read %" PRIu64 "\n", stop, counts[0], counts[1]);
    } while (stop == 31 || stop == 32);
}

/* Prints what a call on a sheet returned, its answer and the text that the sheet holds. */
static void print_sheet(const char *call, uint8_t code, const uint8_t *sheet, const uint8_t *answer) {
    printf("%s %u, %.*s remainder %" PRIu64 ": ", call, code, (int)number(sheet + 2, 2), (const char *)sheet + 12, number(sheet + 4, 8));
    print_answer(answer);
}

static void repair(void) {
    static const char mistyped[] = "GB82 WEST 1234 5698 7654 33";
    uint8_t sheet[STITCHBARROW_SHEET_SIZE] = {0};
    uint8_t answer[STITCHBARROW_ANSWER_SIZE] = {0};
    size_t last = 21;
    uint8_t code = stitchbarrow_load(1, (const uint8_t *)mistyped, strlen(mistyped), sheet, sizeof sheet, answer, sizeof answer);
    print_sheet("load", code, sheet, answer);
    for (int times = 0; times < 2; times++) {
        code = stitchbarrow_exchange(sheet, sizeof sheet, last - 2, last, answer, sizeof answer);
        print_sheet("exchange", code, sheet, answer);
    }
    code = stitchbarrow_replace(sheet, sizeof sheet, last, '-', answer, sizeof answer);
    print_sheet("replace", code, sheet, answer);
    code = stitchbarrow_replace(sheet, sizeof sheet, last, '2', answer, sizeof answer);
    print_sheet("replace", code, sheet, answer);
    code = stitchbarrow_replace(sheet, sizeof sheet, 4, 'B', answer, sizeof answer);
    print_sheet("replace", code, sheet, answer);
    code = stitchbarrow_fill(sheet, sizeof sheet, answer, sizeof answer);
    print_sheet("fill", code, sheet, answer);
    sheet[4] ^= 1;
    code = stitchbarrow_fill(sheet, sizeof sheet, answer, sizeof answer);
    print_sheet("fill of a forged sheet", code, sheet, answer);
    code = stitchbarrow_fill(sheet, sizeof sheet - 1, answer, sizeof answer);
    print_sheet("fill of a short sheet", code, sheet, answer);
}

int main(void) {
    static const char batch[] = "\026\000\001\000GB82WEST12345698765432"
                                "\012\000\004\0002024-13-01"
                                "\002\000\007\000GB"
                                "\007\000\011\0001000.50"
                                "\003\000\010\000EU";
    check(1, "GB82 WEST 1234 5698 7654 32");
    check(3, "DEU1DEFF");
    run((const uint8_t *)batch, sizeof batch - 1);
    repair();
    return 0;
}
