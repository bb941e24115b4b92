/*
 * Tsurakemobu: the proved codec for service control messages, for C.
 *
 * Link with crates/boundary/out/libboundary.a, which `rt lib` writes in crates/boundary. The archive is for x86-64 and needs nothing
 * but memset and memcpy. The functions keep no state and allocate nothing; any thread may call any of them at any time.
 * An edit takes at most 1024 octets of stack, any other call at most 2048, beside what memset and memcpy take for themselves.
 *
 * A stretch of octets is handed in as a pointer and a length. The pointer must not be null, also where the length is 0. What is
 * handed in as const is only read. What is lent without const is written only as each function tells, never past its length, and
 * not at all where the call is refused; it must not overlap the other argument. Whatever the octets are, no call is undefined.
 */
#ifndef TSURAKEMOBU_H
#define TSURAKEMOBU_H

#include <stddef.h>
#include <stdint.h>

#ifdef __cplusplus
extern "C" {
#endif

/* The most octets of a message. */
#define TK_MESSAGE_MAX 272
/* The most rows of a message, and the octets of one row. */
#define TK_ROWS_MAX 61
#define TK_ROW_LEN 5
/* Room for the image of any record that is read: the count, 6 common and 54 transfer parameters, two values to an octet of C5. */
#define TK_IMAGE_MAX (1 + 6 * 7 + 54 * 11 + 2 * 255)
/* The octets of the opened charging information. */
#define TK_CHARGING_LEN 23
/* The most rows of an opened connection order: its form, and as many parameters as can stand under one form. */
#define TK_ORDER_ROWS_MAX 5
/* The most octets of the added classes of D6 in the mobile call profile: a name and a value for each of six names. */
#define TK_ADDED_MAX 12
/* How often the carriers, CC, may stand in a message. */
#define TK_CARRIERS_MAX 3
/* The most rows of one opened CC, its direction and the entries of two octets that a message has room for; and the octets of one row. */
#define TK_CARRIER_ROWS_MAX 127
#define TK_CARRIER_ROW_LEN 8
/* The most digits of a carrier's code: two to an octet, where it is all that a message has room for. */
#define TK_CARRIER_DIGITS_MAX (2 * 247)

/* Why a call was refused. */
enum tk_number {
    TK_ACCEPTED = 0,          /* not refused */
    TK_OVER_LIMITS = 1,       /* a message without octets or with more than 272, or a record beyond what a record may hold */
    TK_UNLISTED = 2,          /* a common header that is not in the list */
    TK_REPEATED = 3,          /* a common parameter for the second time */
    TK_CUT_SHORT = 4,         /* no end mark, or a common parameter runs past the message's end */
    TK_NOT_ALLOWED = 5,       /* a user class or signal kind that is not among those allowed, or a sequence with another number than 1 */
    TK_MISSING = 6,           /* the end mark comes without user class or signal kind before it */
    TK_LEFT_OVER = 7,         /* something follows the end mark */
    TK_UNUSED_NAME = 8,       /* a transfer name that is not in use */
    TK_OTHER_PLI = 9,         /* a transfer name under a PLI that it does not have */
    TK_REPEATED_NAME = 10,    /* a transfer name for the second time, CC for the fourth */
    TK_CUT_CONTENTS = 11,     /* contents that run past their end, or are not as long as their PLI says */
    TK_BAD_FORM = 12,         /* a bit that must be 0 is not, contents of the wrong form, or a value too large for its bits */
    TK_BAD_DIGIT = 13,        /* a digit code without a meaning, a character that may not be there, or a half left over that is not 0 */
    TK_TRANSFER_OVER = 14,    /* transfer data longer than 255 octets */
    TK_NO_ROOM = 15,          /* what is lent is too short */
    TK_ABSENT = 16,           /* the parameter, that one of several, the code of a row, or the transfer data is not there */
    TK_NO_CLASS_LIST = 17,    /* the header's code values have no classes */
    TK_CHECK_DIGIT = 18,      /* the check digit of the charging information is wrong */
    TK_CONNECTION_ORDER = 19, /* a form or header of the connection order is not listed, not under that form, or repeated */
    TK_PROFILE = 20           /* a rule of the mobile call profile is not kept */
};

/* The class of a code value. */
enum tk_class_value { TK_NAMED = 0, TK_HELD_BACK = 1, TK_SPARE = 2 };

/* The headers of a connection order's parameters. They are of their own: 41 to 43, 91 and CC to CF are not the transfer parameters
 * of those numbers here. */
enum tk_order_header {
    TK_ORDER_TRUNK = 0x41,            /* trunk in the exchange: one octet */
    TK_ORDER_RELEASE = 0x42,          /* kind of release: a length octet, which is 1, and one octet */
    TK_ORDER_REDIRECT_REASON = 0x43,  /* reason of the redirection: one octet with bit 7 set */
    TK_ORDER_SENT_DIGITS = 0x91,      /* digits sent on the outgoing line: a count of half-octets in a whole octet, digits as in PLI 10 */
    TK_ORDER_FORWARD_NUMBER = 0x92,   /* number to which the call is forwarded: a length octet, then as D7 with digits 0 to 9 alone */
    TK_ORDER_CALLING_ARE = 0xC9,      /* ARE control on the calling side: a length octet, code, repeat count up to 3, characters */
    TK_ORDER_CALLED_ARE = 0xCA,       /* ARE control on the called side: the same */
    TK_ORDER_CALLING_GUIDANCE = 0xCB, /* guidance on the calling side: a length octet and carried octets */
    TK_ORDER_CALLED_ARE_LOGIC = 0xCC, /* ARE logic control on the called side: a length octet, conversion kind, repeat count up to 3, key */
    TK_ORDER_TIMEOUT_ARE = 0xCD,      /* ARE control when waiting times out: as on the calling side */
    TK_ORDER_CALLED_GUIDANCE = 0xCE,  /* guidance on the called side: a length octet and carried octets */
    TK_ORDER_TIMEOUT_GUIDANCE = 0xCF, /* guidance when waiting times out: the same */
    TK_ORDER_WAITING_TIME = 0xD2      /* waiting time: three IA5 digits, in half seconds */
};

/* The network that a call comes from: the octet of 7E in the mobile call profile. */
enum tk_network {
    TK_NETWORK_PHS = 0x02,   /* a PHS network */
    TK_NETWORK_MOBILE = 0x03 /* a mobile network */
};

/* The names of the added classes of D6. */
enum tk_added_name {
    TK_ADDED_LONG_DISTANCE_1 = 0x01, /* NTT long-distance added class 1: authentication */
    TK_ADDED_LONG_DISTANCE_2 = 0x02, /* NTT long-distance added class 2: service */
    TK_ADDED_MOBILE_3 = 0xFB,        /* mobile added class 3: charging method */
    TK_ADDED_MOBILE_2 = 0xFC,        /* mobile added class 2: communication system */
    TK_ADDED_MOBILE_1 = 0xFD,        /* mobile added class 1: service */
    TK_ADDED_FIXED_1 = 0xFE          /* fixed added class 1 */
};

/* Which way the route of carriers is told: the direction octet of CC. */
enum tk_direction {
    TK_DIRECTION_NONE = 0x00,     /* it is not told */
    TK_DIRECTION_FORWARD = 0x01,  /* forward */
    TK_DIRECTION_BACKWARD = 0x02, /* backward */
    TK_DIRECTION_BOTH = 0x03      /* both ways */
};

/* The level of a row of an opened CC. */
enum tk_level {
    TK_LEVEL_DIRECTION = 0x00, /* the direction */
    TK_LEVEL_CARRIER = 0x01,   /* a carrier entry */
    TK_LEVEL_DEPENDENT = 0x02  /* a dependent entry, in the carrier entry before it */
};

/* The tags of carrier entries in CC: what the carrier is to the call. */
enum tk_carrier {
    TK_CARRIER_SCP_BEFORE = 0xF8,       /* that of the SCP before a move */
    TK_CARRIER_SCP_AFTER = 0xF9,        /* that of the SCP after it */
    TK_CARRIER_SCP = 0xFA,              /* that of the SCP */
    TK_CARRIER_ORIGINATING = 0xFB,      /* the originating one */
    TK_CARRIER_TERMINATING = 0xFC,      /* the terminating one */
    TK_CARRIER_SELECTED_TRANSIT = 0xFD, /* the selected transit carrier */
    TK_CARRIER_ROUTE = 0xFE             /* one on the route */
};

/* The tags of dependent entries in a carrier entry. */
enum tk_dependent {
    TK_DEPENDENT_POI_STAGE = 0xFC, /* POI, its stage: carried octets */
    TK_DEPENDENT_POI_AREA = 0xFD,  /* POI, its charging area: carried octets */
    TK_DEPENDENT_CODE = 0xFE       /* the carrier's code: digits */
};

/*
 * Every function answers with one number: tk_number * 2^32 + place * 2^16 + value. Where the call is refused, the place says where
 * in the message (0 where the refusal has no place) and the value is 0. Where it is accepted, the functions below say what
 * place and value are; a place that they do not mention is 0.
 */
static inline int tk_number_of(uint64_t answer) { return (int)(answer >> 32); }
static inline size_t tk_place_of(uint64_t answer) { return (size_t)(answer >> 16 & 0xFFFF); }
static inline size_t tk_value_of(uint64_t answer) { return (size_t)(answer & 0xFFFF); }

/*
 * A record's image is the record as a row of octets; numbers of more than one octet have the least octet first.
 *
 *   1  count of common parameters, then for each of them
 *      1  header
 *      4  value: the call number of 82 and 83, the number of 04 (bits 6-0 of its octet), which is 1, the octet of 01 and 06; C5 has none
 *      1  more-data mark of 04 (bit 7 of its octet); the others have none
 *      1  count of transfer parameters of a C5; the others have none. Right after a C5, for each of these
 *         1  header
 *         1  notification    (90, 91, 95)
 *         1  verification    (91)
 *         1  dialling type   (98)
 *         1  number type     (D7, DC, DA with 06, as the four below)
 *         1  incomplete mark
 *         1  plan
 *         1  presentation
 *         1  screening
 *         2  count of values
 *         .. values: digits or the contents
 *
 * Values are digits, the first digit first, 0 to 9, 10 for *, 11 for #, under PLI 10 (the upper two bits of the header) but for the
 * names 07, 24, 30, 31 and 3B (the lower six bits), and under D7 and DC. Under DA with 06 they are 06, then digits. All other values
 * are the contents: the octets after the header, and after the length octet under PLI 11.
 *
 * What a parameter does not have is 0 in an image that is handed out, and is not looked at in one that is handed in.
 */

/*
 * A message is read from left to right. "Reading's" refusals are 1 at 0; for each common parameter 2, 3, 4, 5 at its header, and for
 * each transfer parameter of C5 8 to 12, 18 and 19 at its own, and 13 at the octet that holds the first bad digit or character, the low
 * half of an octet coming before the high one and a half left over last; 4 at the message's length if there is no end mark; 6 at the
 * end mark; 7 at the octet behind it. The first that applies is the answer, here and below. In a connection order, E0, that is the
 * first fault from left to right: of the form, then of each parameter 19, 12 or 13. In the carriers, CC, 12 comes before 13.
 */

/* The record of a message. Value: the length of its image, at the front of `image`; the octets behind it stay.
 * Refused: reading's; 15 at 0 if `image` is too short. */
uint64_t tk_read(const uint8_t *message, size_t message_len, uint8_t *image, size_t image_len);

/* The message of a record. Value: the message's length; it stands at the front of `room`, and the octets behind it stay.
 * Refused: 1 at 0, also for an image that ends too early or too late; where the headers would stand, 2, 3, 5, 12 (call number or
 * more-data mark too large) and 8 to 13, 18 and 19; 14 at C5 after its last parameter; 6 where the end mark would stand; 15 at 0 if
 * `room` is too short. */
uint64_t tk_write(const uint8_t *image, size_t image_len, uint8_t *room, size_t room_len);

/* A row for each parameter, in the order of the message, the end mark last. Value: the count of rows, at the front of `table`;
 * the octets behind them stay. A row is the header's offset (2, least first), the header, the length of the contents (2, least first).
 * Refused: reading's; 15 at 0 if `table` is too short. */
uint64_t tk_rows(const uint8_t *message, size_t message_len, uint8_t *table, size_t table_len);

/* The contents of a common parameter; those of C5 are the whole transfer data. Place: their offset in `message`. Value: their length.
 * Refused: reading's; 16 at 0 if there is no such parameter, and for 00. */
uint64_t tk_find_common(const uint8_t *message, size_t message_len, uint8_t header);

/* The contents of a transfer parameter by its name, the lower six bits of its header, and by which of that name it is: `which` counts
 * from 0 in the order of the message, here and below. All names but CC's stand once, so that it is 0 for them. Place and value as above.
 * Refused: reading's; 16 at 0 if there is no such parameter, if there are not so many of its name, and for a name over 63. */
uint64_t tk_find_transfer(const uint8_t *message, size_t message_len, uint8_t name, size_t which);

/* The class of an octet under a transfer header; under D7 and DC bit 7 is not looked at. Value: a tk_class_value.
 * Refused: 17 at 0; 12 at 0 if a bit is set that must be 0. */
uint64_t tk_class(uint8_t header, uint8_t octet);

/* The charging information, F7, opened. Value: TK_CHARGING_LEN; so many octets stand at the front of `out`; those behind them stay.
 * They are the rate kind, then eleven numbers with the least octet first; what the kind does not have is 0.
 *
 *   1  rate kind
 *   2  unit fee              yen
 *   2  initial units         a count
 *   2  day                   half seconds that a unit lasts, for 10 yen (kind 1) or the unit fee (kinds 8 to 10), as the three below
 *   2  night
 *   2  late night 1
 *   2  late night 2
 *   2  MBI                   two digits, as a number
 *   2  information interval  half seconds for 10 yen
 *   2  information units     a count
 *   2  free time             half seconds
 *   2  check digit
 *
 * Refused: reading's; 16 at 0 if there is no F7; 15 at 0 if `out` is too short. */
uint64_t tk_charging(const uint8_t *message, size_t message_len, uint8_t *out, size_t out_len);

/* The connection order, E0, opened. Value: the count of rows, at the front of `table`; the octets behind them stay. Rows are as in
 * tk_rows. The first is of the form: where the contents of E0 start, the form (C0, C1), and 0. Then each parameter has one, in their
 * order: the offset of its header, the header (a tk_order_header), and how many octets behind the header are its own, a length or
 * count octet among them. The rows' counts, and 1 for each row, add up to the contents of E0.
 * Refused: reading's; 16 at 0 if there is no E0; 15 at 0 if `table` is too short. */
uint64_t tk_order(const uint8_t *message, size_t message_len, uint8_t *table, size_t table_len);

/*
 * The mobile call profile asks more of a message, or of a record, than reading and writing do: the signal kind (06) is 11; 7E is
 * there, and is a tk_network; FD is there, with any contents; and so is D6, where 7E is TK_NETWORK_MOBILE. A D6, under either network,
 * is pairs of a name, which is a tk_added_name, and a value, which is any octet; the names stand in any order, each at most once; D6
 * may be empty. TK_PROFILE, 20, says that one of these rules is not kept, and not which.
 */

/* The record of a message in the profile. Value and image as in tk_read; 7E and D6 are held in it as their contents.
 * Refused: reading's; 20 at the end mark; 15 at 0 if `image` is too short. */
uint64_t tk_profile_read(const uint8_t *message, size_t message_len, uint8_t *image, size_t image_len);

/* The message of a record in the profile. Value and room as in tk_write.
 * Refused: tk_write's, and before 15 comes 20 where the end mark would stand. */
uint64_t tk_profile_write(const uint8_t *image, size_t image_len, uint8_t *room, size_t room_len);

/* The added classes, D6, of a message in the profile. Value: how many octets they take, at most TK_ADDED_MAX, at the front of `out`;
 * those behind them stay. They are a name (a tk_added_name) and a value for each class, in the order of D6; none if D6 is empty.
 * Refused: tk_profile_read's but for 15; 16 at 0 if there is no D6; 15 at 0 if `out` is too short. */
uint64_t tk_added_classes(const uint8_t *message, size_t message_len, uint8_t *out, size_t out_len);

/*
 * The carriers, CC, are a direction octet, at most 3, and then carrier entries to the end: each a tag (a tk_carrier), a length octet, and
 * as many octets, which are dependent entries, one behind the other: each a tag (a tk_dependent), a length octet, and as many octets.
 * Entries of both kinds may repeat, and may be empty, but for a code, TK_DEPENDENT_CODE: its first octet is 80 if its count of digits is
 * odd, else 00, and its digits follow as in D7, but 0 to 9 alone; an odd count has a digit octet. What breaks this is 12 wherever it
 * stands; only then come bad digits and fillers, 13. A record holds CC as its contents.
 */

/* One of the carriers, CC, opened; `which` counts from 0. Value: the count of rows, at the front of `table`; the octets behind them stay.
 * The first row is of the direction. Then each carrier entry has one, and right behind it each of its dependent entries.
 *
 *   1  level, a tk_level
 *   1  tag; of the direction its octet, a tk_direction
 *   2  offset of the tag, or of the direction, in the message, least first
 *   2  length of what the entry holds, all behind its length octet, least first; of the direction 0
 *   2  count of digits of a code, least first; of all else 0
 *
 * Refused: reading's; 16 at 0 if there are not so many CC; 15 at 0 if `table` is too short. */
uint64_t tk_carriers(const uint8_t *message, size_t message_len, size_t which, uint8_t *table, size_t table_len);

/* The digits of a code in one of the carriers, CC; `row` counts from 0 as the rows of tk_carriers stand. Value: the count of digits, 0 to
 * 9 in an octet each, the first digit first, at the front of `out`; those behind them stay.
 * Refused: reading's; 16 at 0 if there are not so many CC or rows, or if the row is no code; 15 at 0 if `out` is too short. */
uint64_t tk_carrier_digits(const uint8_t *message, size_t message_len, size_t which, size_t row, uint8_t *out, size_t out_len);

/*
 * Edits of the message in the first `n` octets of `buffer`. Value: the message's new length. Octets between the new end and a later
 * old one become 0; those behind both stay. `new_octets` is a whole transfer parameter, header first. An `n` beyond the buffer is
 * TK_NO_ROOM, 15 at 0, before all else; then come reading's refusals with their places; all that come after reading are at 0.
 */

/* Puts the new parameter in the place of the one with its name; `which` of them, counted from 0.
 * Refused: 15 (n); reading's; then at 0: 16 (no transfer data), 11 (no new octets), 8, 9, 16 (not so many of the name), 11 (new octets
 * too few or left over), what is wrong with the new contents (12, 13, 18 or 19), 14, 15 (`buffer` too short). */
uint64_t tk_replace(uint8_t *buffer, size_t buffer_len, size_t n, const uint8_t *new_octets, size_t new_len, size_t which);

/* Puts the new parameter behind the last one of the transfer data.
 * Refused: as tk_replace, but 10 (name present, or CC three times) where that has 16 (not so many of the name). */
uint64_t tk_append(uint8_t *buffer, size_t buffer_len, size_t n, const uint8_t *new_octets, size_t new_len);

/* Takes the parameter of this name out; `which` of them, counted from 0.
 * Refused: 15 (n); reading's; then at 0: 16 (no transfer data; not so many of the name; name over 63). */
uint64_t tk_remove(uint8_t *buffer, size_t buffer_len, size_t n, uint8_t name, size_t which);

#ifdef __cplusplus
}
#endif

#endif
