/* Opens the connection order of a message, tells its form and parameters, and meets a header that cannot stand under its form. */
#include <stdio.h>

#include "tsurakemobu.h"

/* Form 31: ARE control while the call waits, 90 seconds at most, and when waiting times out; a trunk. */
static uint8_t message[] = {0x01, 0x01, 0x06, 0x12, 0xC5, 0x15, 0xE0, 0x13, 0x31, 0xC9, 0x05, 0x11, 0x00, '1',
                            '2',  0x03, 0xCD, 0x03, 0x12, 0x02, 0x03, 0x41, 0x01, 0xD2, '1',  '8',  '0',  0x00};

/* A number of two octets, least first. */
static size_t number(const uint8_t *octets) { return octets[0] + ((size_t)octets[1] << 8); }

/* Tells the parameter of a row: its header, offset and octets, or the waiting time. */
static void tell(const uint8_t *row) {
    const size_t offset = number(row), count = number(row + 3);
    const uint8_t *own = message + offset + 1;
    if (row[2] == TK_ORDER_WAITING_TIME) {
        printf("waiting time %d half seconds\n", (own[0] - '0') * 100 + (own[1] - '0') * 10 + (own[2] - '0'));
        return;
    }
    printf("%02X at %zu:", row[2], offset);
    for (size_t k = 0; k < count; k++) printf(" %02X", own[k]);
    printf("\n");
}

int main(void) {
    uint8_t table[TK_ORDER_ROWS_MAX * TK_ROW_LEN];
    uint64_t answer = tk_order(message, sizeof message, table, sizeof table);
    if (tk_number_of(answer) != TK_ACCEPTED) return 1;
    printf("form %02X\n", table[2]);
    for (size_t i = 1; i < tk_value_of(answer); i++) tell(table + i * TK_ROW_LEN);

    const uint8_t stranger[] = {0xE0, 0x03, 0x28, TK_ORDER_TRUNK, 0x01};
    answer = tk_replace(message, sizeof message, sizeof message, stranger, sizeof stranger, 0);
    printf("refused %d at %zu\n", tk_number_of(answer), tk_place_of(answer));
    return tk_number_of(answer) != TK_CONNECTION_ORDER;
}
