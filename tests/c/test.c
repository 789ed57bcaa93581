/* The two functions that C calls, over include/ppproto.h and the static library. Each check is one line of what is promised. */
#include "ppproto.h"

#include <stdio.h>
#include <string.h>

static int passed, failed;

static void check(const char *what, int holds)
{
    if (holds) {
        passed++;
    } else {
        failed++;
        printf("FAILED: %s\n", what);
    }
}

#define ROOM 64
#define FILL 0xEE

static uint8_t buf[ROOM];

/* Encodes into `room` bytes of a buffer full of FILL, and says whether the answer is `count` and the buffer starts with `want`, with
 * FILL in every byte behind it. */
static int encodes(size_t room, uint32_t map, const uint8_t *src, size_t src_len, size_t count, const uint8_t *want, size_t want_len)
{
    size_t i;

    memset(buf, FILL, sizeof buf);
    if (ppp_encode(buf, room, map, src, src_len) != count || memcmp(buf, want, want_len) != 0)
        return 0;
    for (i = want_len; i < sizeof buf; i++)
        if (buf[i] != FILL)
            return 0;
    return 1;
}

static void check_values(void)
{
    static const uint8_t digits[] = {'1', '2', '3', '4', '5', '6', '7', '8', '9'};
    static const uint8_t body[] = {0xFF, 0x03, 0x1C, 0xC2};

    check("the check value of 123456789, inverted, is 906E", ppp_crc16(PPP_CRC16_START, digits, 9) == (0x906E ^ 0xFFFF));
    check("FF takes FFFF to 00FF", ppp_crc16(PPP_CRC16_START, body, 1) == 0x00FF);
    check("FF 03 takes FFFF to 3DE3", ppp_crc16(PPP_CRC16_START, body, 2) == 0x3DE3);
    check("right check bytes take it to F0B8", ppp_crc16(PPP_CRC16_START, body, 4) == PPP_CRC16_GOOD);
    check("part by part it is the same", ppp_crc16(ppp_crc16(PPP_CRC16_START, digits, 4), digits + 4, 5) == ppp_crc16(PPP_CRC16_START, digits, 9));
    check("no bytes leave the seed", ppp_crc16(0x1234, digits, 0) == 0x1234);
    check("no bytes may be NULL", ppp_crc16(0x1234, NULL, 0) == 0x1234);
}

/* RFC 1662, Appendix C.2, as the paper prints it: `run` takes its rows from the comment above the library's own table. */
static const uint16_t fcstab[256] = {
#include "fcstab.h"
};

static void check_table(void)
{
    unsigned n;

    for (n = 0; n < 256; n++) {
        uint8_t byte = (uint8_t)n;

        check("entry n of the paper's table is the check value of the byte n from seed 0", ppp_crc16(0, &byte, 1) == fcstab[n]);
    }
}

static void check_frames(void)
{
    static const uint8_t plain[] = {0x7E, 0xFF, 0x03, 0x1C, 0xC2, 0x7E};
    static const uint8_t escaped[] = {0x7E, 0xFF, 0x7D, 0x23, 0x7D, 0x3C, 0xC2, 0x7E};
    static const uint8_t packet[] = {0x7D, 0x11, 0x7E, 0x41};
    /* The map has the bit of 11 hex alone, so 03 goes plain. */
    static const uint8_t start[] = {0x7E, 0xFF, 0x03, 0x7D, 0x5D, 0x7D, 0x31, 0x7D, 0x5E, 0x41};
    static const uint8_t one[] = {0};
    size_t room, whole;

    check("an empty packet, map 0", encodes(ROOM, 0, one, 0, 6, plain, 6));
    check("an empty packet, every byte below 20 escaped", encodes(ROOM, PPP_ASYNCMAP_ALL, one, 0, 8, escaped, 8));
    check("an empty packet may be NULL", encodes(ROOM, 0, NULL, 0, 6, plain, 6));
    check("exact room", encodes(6, 0, NULL, 0, 6, plain, 6));
    check("exact room, escaped", encodes(8, PPP_ASYNCMAP_ALL, NULL, 0, 8, escaped, 8));

    check("one byte too few: 0, and the units that fitted stay", encodes(5, 0, NULL, 0, 0, plain, 5));
    check("one byte too few, escaped", encodes(7, PPP_ASYNCMAP_ALL, NULL, 0, 0, escaped, 7));
    check("an escaped byte is one unit: half of it does not go", encodes(5, PPP_ASYNCMAP_ALL, NULL, 0, 0, escaped, 4));
    check("7E FF is one unit", encodes(1, 0, NULL, 0, 0, plain, 0));
    check("room for 7E FF alone", encodes(2, 0, NULL, 0, 0, plain, 2));
    check("no room", encodes(0, 0, NULL, 0, 0, plain, 0));
    check("a buffer of no bytes may be NULL", ppp_encode(NULL, 0, 0, NULL, 0) == 0);
    check("also with a packet", ppp_encode(NULL, 0, 0, packet, sizeof packet) == 0);

    memset(buf, FILL, sizeof buf);
    whole = ppp_encode(buf, ROOM, (uint32_t)1 << 0x11, packet, sizeof packet);
    check("a packet of escapes: its front", whole > sizeof start && memcmp(buf, start, sizeof start) == 0);
    check("its end", whole > 0 && whole < ROOM && buf[whole - 1] == 0x7E && buf[whole] == FILL);
    for (room = 0; room < whole; room++)
        check("every room below it is refused", ppp_encode(buf, room, (uint32_t)1 << 0x11, packet, sizeof packet) == 0);
    check("its own length is enough", ppp_encode(buf, whole, (uint32_t)1 << 0x11, packet, sizeof packet) == whole);
}

int main(void)
{
    check_values();
    check_table();
    check_frames();
    printf("%d passed, %d failed\n", passed, failed);
    return failed != 0;
}
