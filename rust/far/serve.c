/*
 * serve: the codec's static library as a program of its own, for machines that cannot link it.
 *
 * It reads requests on standard input and answers each on standard output, until the input ends. A request is a head of six
 * words, the octets that the call reads, and the octets that are lent to it; an answer is two words and the lent octets after
 * the call. A word is 8 octets, least first. No C library is linked: the system is called directly.
 */
#include "tsurakemobu.h"

enum { READ, WRITE, ROWS, FIND_COMMON, FIND_TRANSFER, CLASS, REPLACE, APPEND, REMOVE, CHARGING, ORDER, PROFILE_READ, PROFILE_WRITE,
       ADDED_CLASSES, CARRIERS, CARRIER_DIGITS };

/* What comes first in a request. */
struct head {
    uint64_t function;  /* one of the above */
    uint64_t first;     /* the header, the name, the n of an edit, or which carriers are to be opened */
    uint64_t second;    /* which one is to be found or replaced, the octet to be classed, the name to be removed, or the row of a code */
    uint64_t third;     /* which one is to be removed */
    uint64_t fixed_len; /* how many octets the call reads */
    uint64_t lent_len;  /* how many octets are lent to it */
};

/* What comes first in an answer; the lent octets stand right after it. */
struct answer {
    uint64_t packed;  /* what the function returned */
    uint64_t outside; /* how much was written that was not lent; it must be 0 */
};

/* The system's numbers, of x86-64. */
enum { SYS_READ = 0, SYS_WRITE = 1, SYS_MMAP = 9, SYS_MUNMAP = 11, SYS_EXIT = 60 };

static long call_system(long number, long a, long b, long c, long d) {
    register long flags __asm__("r10") = d;
    register long descriptor __asm__("r8") = -1;
    register long offset __asm__("r9") = 0;
    long result;
    __asm__ volatile("syscall"
                     : "=a"(result)
                     : "a"(number), "D"(a), "S"(b), "d"(c), "r"(flags), "r"(descriptor), "r"(offset)
                     : "rcx", "r11", "memory");
    return result;
}

static _Noreturn void leave(int status) {
    for (;;) call_system(SYS_EXIT, status, 0, 0, 0);
}

/* What compiled code takes from the C library. */
void *memset(void *to, int octet, size_t len) {
    uint8_t *octets = to;
    for (size_t i = 0; i < len; i++) octets[i] = (uint8_t)octet;
    return to;
}

void *memmove(void *to, const void *from, size_t len) {
    uint8_t *d = to;
    const uint8_t *s = from;
    if (d < s)
        for (size_t i = 0; i < len; i++) d[i] = s[i];
    else
        for (size_t i = len; i > 0; i--) d[i - 1] = s[i - 1];
    return to;
}

void *memcpy(void *to, const void *from, size_t len) { return memmove(to, from, len); }

/* Reads or writes all of the octets; 0 where the input ends before the first of them. */
static int move_octets(long number, void *octets, size_t len) {
    const long descriptor = number == SYS_READ ? 0 : 1;
    size_t done = 0;
    while (done < len) {
        long moved = call_system(number, descriptor, (long)((uint8_t *)octets + done), (long)(len - done), 0);
        if (moved == 0 && done == 0) return 0;
        if (moved <= 0) leave(1);
        done += (size_t)moved;
    }
    return 1;
}

/* Octets that nothing may write: so many before and behind what a call reads and what is lent to it. */
enum { GUARD = 64 };

static uint8_t guard_octet(size_t i) { return (uint8_t)(0xA5 ^ i * 7); }

static void put_guard(uint8_t *at) {
    for (size_t i = 0; i < GUARD; i++) at[i] = guard_octet(i);
}

static uint64_t changed_in_guard(const uint8_t *at) {
    uint64_t changed = 0;
    for (size_t i = 0; i < GUARD; i++) changed += at[i] != guard_octet(i);
    return changed;
}

/* A number by which changed octets are noticed. */
static uint64_t digest(const uint8_t *octets, size_t len) {
    uint64_t digest = 0;
    for (size_t i = 0; i < len; i++) digest = digest * 0x100000001B3 + octets[i] + 1;
    return digest;
}

/* Memory for at least so many octets, kept from one request to the next. */
static uint8_t *memory_for(size_t len) {
    static uint8_t *memory;
    static size_t size;
    const long read_and_write = 3, private_and_anonymous = 0x22;
    if (len <= size) return memory;
    if (size > 0) call_system(SYS_MUNMAP, (long)memory, (long)size, 0, 0);
    size = (len + 0xFFFFF) & ~(size_t)0xFFFFF;
    long at = call_system(SYS_MMAP, 0, (long)size, read_and_write, private_and_anonymous);
    if (at < 0) leave(1);
    memory = (uint8_t *)at;
    return memory;
}

static uint64_t call(const struct head *h, const uint8_t *fixed, uint8_t *lent) {
    switch (h->function) {
    case READ: return tk_read(fixed, h->fixed_len, lent, h->lent_len);
    case WRITE: return tk_write(fixed, h->fixed_len, lent, h->lent_len);
    case ROWS: return tk_rows(fixed, h->fixed_len, lent, h->lent_len);
    case FIND_COMMON: return tk_find_common(fixed, h->fixed_len, (uint8_t)h->first);
    case FIND_TRANSFER: return tk_find_transfer(fixed, h->fixed_len, (uint8_t)h->first, h->second);
    case CLASS: return tk_class((uint8_t)h->first, (uint8_t)h->second);
    case REPLACE: return tk_replace(lent, h->lent_len, h->first, fixed, h->fixed_len, h->second);
    case APPEND: return tk_append(lent, h->lent_len, h->first, fixed, h->fixed_len);
    case REMOVE: return tk_remove(lent, h->lent_len, h->first, (uint8_t)h->second, h->third);
    case CHARGING: return tk_charging(fixed, h->fixed_len, lent, h->lent_len);
    case ORDER: return tk_order(fixed, h->fixed_len, lent, h->lent_len);
    case PROFILE_READ: return tk_profile_read(fixed, h->fixed_len, lent, h->lent_len);
    case PROFILE_WRITE: return tk_profile_write(fixed, h->fixed_len, lent, h->lent_len);
    case ADDED_CLASSES: return tk_added_classes(fixed, h->fixed_len, lent, h->lent_len);
    case CARRIERS: return tk_carriers(fixed, h->fixed_len, h->first, lent, h->lent_len);
    case CARRIER_DIGITS: return tk_carrier_digits(fixed, h->fixed_len, h->first, h->second, lent, h->lent_len);
    default: leave(1);
    }
}

/* In memory: guard, what the call reads, guard, lent octets, guard. The answer's head takes the place of the middle guard. */
static void answer_one(const struct head *h) {
    uint8_t *front = memory_for(3 * GUARD + h->fixed_len + h->lent_len);
    uint8_t *fixed = front + GUARD;
    uint8_t *middle = fixed + h->fixed_len;
    uint8_t *lent = middle + GUARD;
    uint8_t *behind = lent + h->lent_len;
    put_guard(front);
    put_guard(middle);
    put_guard(behind);
    if (!move_octets(SYS_READ, fixed, h->fixed_len) || !move_octets(SYS_READ, lent, h->lent_len)) leave(1);
    const uint64_t before = digest(fixed, h->fixed_len);
    struct answer answer;
    answer.packed = call(h, fixed, lent);
    answer.outside = changed_in_guard(front) + changed_in_guard(middle) + changed_in_guard(behind);
    answer.outside += digest(fixed, h->fixed_len) != before;
    uint8_t *out = memcpy(lent - sizeof answer, &answer, sizeof answer);
    move_octets(SYS_WRITE, out, sizeof answer + h->lent_len);
}

/* Entered with the stack as the system leaves it, which is aligned for a jump and not for a call. */
__attribute__((force_align_arg_pointer)) _Noreturn void _start(void) {
    struct head head;
    while (move_octets(SYS_READ, &head, sizeof head)) answer_one(&head);
    leave(0);
}
