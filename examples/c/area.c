/* Reads a message, tells the calling area, replaces the dialled digits, and meets a refusal. */
#include <stdio.h>

#include "tsurakemobu.h"

/* Own call 12345, area 1203, dialled digits 120. */
static uint8_t message[] = {0x01, 0x01, 0x83, 0x39, 0x30, 0x00, 0x04, 0x01, 0x06, 0x11, 0xC5, 0x0A,
                            0x90, 0x04, 0x21, 0x3A, 0x52, 0x81, 0x98, 0x03, 0x21, 0x0A, 0x00};

/* The names of the originating area and the dialled digits: the lower six bits of the headers 90 and 98. */
enum { AREA = 0x10, DIALLED = 0x18 };

/* The values of a transfer parameter in a record's image, and their count; null if the record has none of this name. */
static const uint8_t *values_of(const uint8_t *image, int name, size_t *count) {
    const uint8_t *at = image + 1;
    for (int commons = image[0]; commons > 0; commons--) {
        int transfers = at[0] == 0xC5 ? at[6] : 0;
        for (at += 7; transfers > 0; transfers--) {
            *count = at[9] + ((size_t)at[10] << 8);
            if ((at[0] & 0x3F) == name) return at + 11;
            at += 11 + *count;
        }
    }
    return NULL;
}

static void print_octets(const char *what, const uint8_t *octets, size_t len) {
    printf("%s", what);
    for (size_t i = 0; i < len; i++) printf(" %02X", octets[i]);
    printf("\n");
}

int main(void) {
    uint8_t image[TK_IMAGE_MAX];
    uint64_t answer = tk_read(message, sizeof message, image, sizeof image);
    if (tk_number_of(answer) != TK_ACCEPTED) return 1;
    size_t count = 0;
    const uint8_t *digits = values_of(image, AREA, &count);
    printf("area ");
    for (size_t i = 0; digits && i < count; i++) printf("%c", "0123456789*#"[digits[i]]);
    printf("\n");

    const uint8_t shorter[] = {0x98, 0x02, 0x21};
    answer = tk_replace(message, sizeof message, sizeof message, shorter, sizeof shorter, 0);
    if (tk_number_of(answer) != TK_ACCEPTED) return 1;
    size_t len = tk_value_of(answer);
    print_octets("message", message, len);

    answer = tk_find_transfer(message, len, DIALLED, 0);
    if (tk_number_of(answer) != TK_ACCEPTED) return 1;
    print_octets("dialled", message + tk_place_of(answer), tk_value_of(answer));

    answer = tk_remove(message, sizeof message, len, 0x17, 0);
    printf("refused %d at %zu\n", tk_number_of(answer), tk_place_of(answer));
    return 0;
}
