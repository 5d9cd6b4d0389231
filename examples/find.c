/* Finds the tables of case A: the arbiter of two clients, with two states. Then
 * lets judge check them, steps them on a desk, and joins another maker's rule. */
#include <stdio.h>

#include "soclethyme.h"

static const uint8_t sheet[60] = {
    0x41, 0x52, 0x04, 0x02, 0x00, 0x50, 0x52, 0x03, 0x0C, 0x02,
    0x41, 0x55, 0x04, 0x00, 0x0E, 0x00,
    0x45, 0x44, 0x00, 0x00, 0x00, 0x00, 0x45, 0x44, 0x00, 0x03, 0x0C, 0x00,
    0x45, 0x44, 0x00, 0x01, 0x01, 0x00, 0x45, 0x44, 0x00, 0x02, 0x02, 0x00,
    0x45, 0x44, 0x01, 0x01, 0x00, 0x04, 0x45, 0x44, 0x02, 0x02, 0x00, 0x08,
    0x45, 0x44, 0x03, 0x03, 0x00, 0x00, 0x45, 0x4E,
};

/* The same machines, and the rule that client 1 is not served at the start. */
static const uint8_t other[30] = {
    0x41, 0x52, 0x04, 0x02, 0x00, 0x50, 0x52, 0x03, 0x0C, 0x02,
    0x41, 0x55, 0x02, 0x00, 0x02, 0x00,
    0x45, 0x44, 0x00, 0x01, 0x04, 0x00, 0x45, 0x44, 0x01, 0x01, 0x00, 0x00,
    0x45, 0x4E,
};

/* One process with two states and four next states: records of 9 bytes. */
static void print_rows(const uint8_t *book) {
    for (int x = 0; x < 2; x++) {
        const uint8_t *row = book + 9 * x;
        printf("state %u: outputs %02X, next %u %u %u %u\n", row[3], row[4],
               row[5], row[6], row[7], row[8]);
    }
}

int main(void) {
    /* The largest that any sheet needs: 338 bytes and 4096 numbers. */
    static uint8_t book[338];
    static uint16_t annotation[4096];
    uint32_t answer = soclethyme_find(sheet, sizeof sheet, book, sizeof book,
                                      annotation, 4096);
    if (answer == 256) {
        puts("none");
        return 0;
    }
    if (answer != 0) {
        printf("refused %u\n", (unsigned)answer);
        return 0;
    }
    print_rows(book);
    /* The book and its annotation, as anybody may check them. */
    answer = soclethyme_judge(sheet, sizeof sheet, book, 20, annotation, 4096);
    puts(answer == 0 ? "judged: yes" : "judged: no");
    /* On a desk, by three directions. The second one has a bit outside the
     * environment variables: the desk stays where it was. */
    static const uint8_t directions[3] = {1, 4, 2};
    uint8_t desk[5] = {0};
    soclethyme_fresh(sheet, sizeof sheet, desk);
    for (int i = 0; i < 3; i++) {
        answer = soclethyme_step(sheet, sizeof sheet, book, 20, desk,
                                 directions[i]);
        printf("direction %02X: ", directions[i]);
        if (answer < 65536) {
            printf("refused %u\n", (unsigned)answer);
        } else {
            printf("label %02X, state %u\n", (unsigned)answer - 65536, desk[0]);
        }
    }
    /* Both sheets as one: the first tables that keep both. */
    static uint8_t joined[433];
    answer = soclethyme_join(sheet, sizeof sheet, other, sizeof other, joined,
                             sizeof joined);
    if (answer < 65536) {
        printf("refused %u\n", (unsigned)answer);
        return 0;
    }
    size_t length = answer - 65536;
    printf("joined: %u bytes\n", (unsigned)length);
    if (soclethyme_find(joined, length, book, sizeof book, annotation, 4096) ==
        0) {
        print_rows(book);
    }
    return 0;
}
