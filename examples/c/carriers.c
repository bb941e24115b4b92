/* Opens the carriers of a message, which stand there twice, tells their entries and codes, and removes the first ones. */
#include <stdio.h>

#include "tsurakemobu.h"

/* Forward: the originating carrier with its code and its POI's stage, and the selected transit carrier; then a carrier on the route. */
static uint8_t message[] = {0x01, 0x01, 0x06, 0x11, 0xC5, 0x1F, 0xCC, 0x13, 0x01, 0xFB, 0x08, 0xFE, 0x03,
                            0x00, 0x00, 0x77, 0xFC, 0x01, 0x02, 0xFD, 0x06, 0xFE, 0x04, 0x80, 0x00, 0x88,
                            0x01, 0xCC, 0x08, 0x00, 0xFE, 0x05, 0xFE, 0x03, 0x00, 0x00, 0x33, 0x00};

/* The name of the carriers: the lower six bits of their header CC. */
enum { CARRIERS = 0x0C };

/* A number of two octets, least first. */
static size_t number(const uint8_t *octets) { return octets[0] + ((size_t)octets[1] << 8); }

/* Tells the digits of a code, or the octets that a dependent entry holds; what an entry holds stands behind its length octet. */
static void tell_dependent(size_t len, size_t which, size_t index, const uint8_t *row) {
    const size_t offset = number(row + 2), count = number(row + 4);
    if (row[1] != TK_DEPENDENT_CODE) {
        printf("    %02X at %zu:", row[1], offset);
        for (size_t k = 0; k < count; k++) printf(" %02X", message[offset + 2 + k]);
        printf("\n");
        return;
    }
    uint8_t digits[TK_CARRIER_DIGITS_MAX];
    const uint64_t answer = tk_carrier_digits(message, len, which, index, digits, sizeof digits);
    printf("    code at %zu: ", offset);
    for (size_t k = 0; k < tk_value_of(answer); k++) printf("%u", digits[k]);
    printf("\n");
}

/* Tells one of the carriers of the message in the first `len` octets; 0 if there are not so many. */
static int tell(size_t len, size_t which) {
    static const char *const directions[] = {"none", "forward", "backward", "both ways"};
    uint8_t table[TK_CARRIER_ROWS_MAX * TK_CARRIER_ROW_LEN];
    const uint64_t answer = tk_carriers(message, len, which, table, sizeof table);
    if (tk_number_of(answer) != TK_ACCEPTED) return 0;
    printf("direction: %s\n", directions[table[1]]);
    for (size_t i = 1; i < tk_value_of(answer); i++) {
        const uint8_t *row = table + i * TK_CARRIER_ROW_LEN;
        if (row[0] == TK_LEVEL_CARRIER)
            printf("  carrier %02X at %zu\n", row[1], number(row + 2));
        else
            tell_dependent(len, which, i, row);
    }
    return 1;
}

int main(void) {
    size_t len = sizeof message;
    for (size_t which = 0; tell(len, which); which++) {}

    uint64_t answer = tk_remove(message, sizeof message, len, CARRIERS, 0);
    if (tk_number_of(answer) != TK_ACCEPTED) return 1;
    len = tk_value_of(answer);
    printf("removed, %zu octets are left\n", len);
    tell(len, 0);
    answer = tk_remove(message, sizeof message, len, CARRIERS, 1);
    printf("refused %d at %zu\n", tk_number_of(answer), tk_place_of(answer));
    return tk_number_of(answer) != TK_ABSENT;
}
