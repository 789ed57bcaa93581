/*
 * PPP in HDLC-like framing (RFC 1662): the check value, and the frame of one packet.
 *
 * The functions are in the static library that `tests/c/library` makes, target/staticlib/libframing.a (x86-64). They allocate
 * nothing and keep nothing between calls, so calls on different buffers may run at the same time.
 *
 * Bytes are passed as a pointer and then their count. A count of 0 goes with any pointer, also NULL: nothing is read or written
 * there. Otherwise the pointer is to that many bytes, and the bytes of `buf` overlap those of `src` nowhere.
 */
#ifndef PPPROTO_H
#define PPPROTO_H

#include <stddef.h>
#include <stdint.h>

#ifdef __cplusplus
extern "C" {
#endif

/* What the check value starts from, and what it is behind a frame's bytes from the address to the check bytes, if they are right. */
#define PPP_CRC16_START 0xFFFFu
#define PPP_CRC16_GOOD 0xF0B8u

/* Where a link has not agreed on a map yet, every byte below 20 hex is escaped. */
#define PPP_ASYNCMAP_ALL 0xFFFFFFFFu

/*
 * The FCS-16 of the `src_len` bytes at `src`, going on from `seed`.
 *
 * A value over several parts is made part by part, each answer being the next seed. A frame carries the last answer inverted, low
 * byte first.
 */
uint16_t ppp_crc16(uint16_t seed, const uint8_t *src, size_t src_len);

/*
 * The whole frame of the packet `src`, from its first flag to its last, at the front of `buf`; the answer is its length.
 *
 * The frame is 7E FF, then the control byte 03, the packet and the two check bytes, then 7E. In the part between, 7D, 7E and each
 * byte below 20 hex whose bit is set in `asyncmap` (bit 0 for the byte 00) are sent as 7D and the byte xor 20 hex.
 *
 * The answer 0 is a refusal (its number is 1): the frame does not fit into `buf_len` bytes. `buf` then starts with the units of the
 * frame that fitted, each whole: 7E FF is one unit, and so is every byte behind it, with its 7D if it is escaped. The longest frame
 * of n bytes takes 2 n + 9.
 *
 * Bytes of `buf` behind the frame, or behind the units that fitted, stay as they were.
 */
size_t ppp_encode(uint8_t *buf, size_t buf_len, uint32_t asyncmap, const uint8_t *src, size_t src_len);

#ifdef __cplusplus
}
#endif

#endif
