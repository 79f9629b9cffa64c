/* Reads an Intel update file in pieces of 65,536 bytes, keeps none of them, and sums its words. `sum FILE` prints the sum;
   `list FILE` keeps 32 bytes of each update and prints the list of them, composed by hand. It checks nothing: it does what
   no reader of such a file can leave out. */
#include <fcntl.h>
#include <stdint.h>
#include <stdio.h>
#include <stdlib.h>
#include <string.h>
#include <unistd.h>

enum { PIECE = 65536, HEADER = 48 };

struct update { uint32_t start, len, rev, date, sig, flags, min; };

static uint32_t word(const unsigned char *at) {
    uint32_t value;
    memcpy(&value, at, 4);
    return value;
}

static uint32_t sum_of(const unsigned char *bytes, size_t length) {
    uint32_t sum = 0;
    for (size_t i = 0; i + 4 <= length; i += 4)
        sum += word(bytes + i);
    return sum;
}

static char out[PIECE + 256];
static size_t held;

static void hand_on(size_t least) {
    while (held >= least && held > 0) {
        ssize_t n = write(1, out, held);
        if (n <= 0)
            exit(5);
        memmove(out, out + n, held - n);
        held -= n;
    }
}

static char *put(char *at, const char *text, size_t length) {
    memcpy(at, text, length);
    return at + length;
}

static char *put_hex(char *at, uint32_t value) {
    *at++ = '0';
    *at++ = 'x';
    for (int shift = 28; shift >= 0; shift -= 4)
        *at++ = "0123456789abcdef"[value >> shift & 15];
    return at;
}

static char *put_dec(char *at, uint32_t value) {
    char digits[10];
    int n = 0;
    do
        digits[n++] = '0' + value % 10;
    while (value /= 10);
    while (n > 0)
        *at++ = digits[--n];
    return at;
}

static char *put_date(char *at, uint32_t date) {
    static const int shifts[8] = {12, 8, 4, 0, 28, 24, 20, 16};
    for (int i = 0; i < 8; i++) {
        if (i == 4 || i == 6)
            *at++ = '-';
        *at++ = '0' + (date >> shifts[i] & 15);
    }
    return at;
}

#define PUT(text) (at = put(at, text, sizeof(text) - 1))

static void put_update(uint32_t number, const struct update *u) {
    char *at = put_dec(out + held, number);
    PUT(" at "), at = put_dec(at, u->start);
    PUT(" len "), at = put_dec(at, u->len);
    PUT(" rev "), at = put_hex(at, u->rev);
    PUT(" date "), at = put_date(at, u->date);
    PUT(" sig "), at = put_hex(at, u->sig);
    PUT(" flags "), at = put_hex(at, u->flags);
    if (u->min != 0)
        PUT(" min "), at = put_hex(at, u->min);
    *at++ = '\n';
    held = at - out;
    hand_on(PIECE);
}

int main(int argc, char **argv) {
    static unsigned char piece[PIECE], header[HEADER];
    static struct update updates[65536];
    uint64_t at = 0, next = 0;
    uint32_t sum = 0, count = 0;
    size_t have = 0;
    int file = argc == 3 ? open(argv[2], O_RDONLY) : -1;
    if (file < 0)
        return 1;
    for (ssize_t n; (n = read(file, piece, PIECE)) > 0; at += n) {
        sum += sum_of(piece, n);
        while (next + have < at + n && count < 65536) {
            size_t from = next + have - at, take = HEADER - have;
            if (take > n - from)
                take = n - from;
            memcpy(header + have, piece + from, take);
            have += take;
            if (have < HEADER)
                break;
            struct update u = {next,              word(header + 32), word(header + 4), word(header + 8),
                               word(header + 12), word(header + 24), word(header + 40)};
            updates[count++] = u;
            next += u.len;
            have = 0;
        }
    }
    if (strcmp(argv[1], "list") != 0) {
        printf("0x%08x\n", sum);
        return 0;
    }
    held = sprintf(out, "file 0 %s intel %u\n", argv[2], count);
    for (uint32_t i = 0; i < count; i++)
        put_update(i, &updates[i]);
    hand_on(0);
    return sum != 0;
}
