/* Reads a call enquiry by the mobile call profile, tells the network and the added classes, writes the record back, and meets a message
 * that is not in the profile. */
#include <stdio.h>
#include <string.h>

#include "tsurakemobu.h"

/* Dialled digits 120, from a mobile network; the added classes tell a mobile telephone, by PDC at 800 MHz. */
static uint8_t message[] = {0x01, 0x01, 0x06, 0x11, 0xC5, 0x11, 0x98, 0x03, 0x21, 0x0A, 0x7E, 0x03,
                            0xD6, 0x04, 0xFD, 0x01, 0xFC, 0x03, 0xFD, 0x03, 0x04, 0x21, 0x43, 0x00};

/* The names of the network and the originating region: the lower six bits of the headers 7E and FD. */
enum { NETWORK = 0x3E, ORIGINATING_REGION = 0x3D };

static const char *text(uint8_t name) {
    switch (name) {
    case TK_ADDED_LONG_DISTANCE_1: return "long-distance 1";
    case TK_ADDED_LONG_DISTANCE_2: return "long-distance 2";
    case TK_ADDED_MOBILE_3: return "mobile 3";
    case TK_ADDED_MOBILE_2: return "mobile 2";
    case TK_ADDED_MOBILE_1: return "mobile 1";
    default: return "fixed 1";
    }
}

int main(void) {
    uint8_t image[TK_IMAGE_MAX], written[TK_MESSAGE_MAX], added[TK_ADDED_MAX];
    uint64_t answer = tk_profile_read(message, sizeof message, image, sizeof image);
    if (tk_number_of(answer) != TK_ACCEPTED) return 1;
    answer = tk_profile_write(image, tk_value_of(answer), written, sizeof written);
    if (answer != sizeof message || memcmp(written, message, sizeof message) != 0) return 1;

    answer = tk_find_transfer(message, sizeof message, NETWORK, 0);
    printf("network %s\n", message[tk_place_of(answer)] == TK_NETWORK_PHS ? "PHS" : "mobile");
    answer = tk_added_classes(message, sizeof message, added, sizeof added);
    if (tk_number_of(answer) != TK_ACCEPTED) return 1;
    for (size_t i = 0; i < tk_value_of(answer); i += 2) printf("%s %02X\n", text(added[i]), added[i + 1]);

    answer = tk_remove(message, sizeof message, sizeof message, ORIGINATING_REGION, 0);
    answer = tk_profile_read(message, tk_value_of(answer), image, sizeof image);
    printf("refused %d at %zu\n", tk_number_of(answer), tk_place_of(answer));
    return tk_number_of(answer) != TK_PROFILE;
}
