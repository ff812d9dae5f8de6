/* A sender with room for one packet: plans a unit once, then writes packet after packet into one buffer and sends it.
 *
 *     live_sender < examples/clip.in
 *
 * The input is that of `pack`: 01, mtu and first number in two bytes each, or 02, mtu in four bytes and first number in two; then units,
 * each behind its length in four bytes. To send a packet is here to print its number and its payload, a line each. */
#include "av1rtp.h"

#include <stdio.h>

#define RECORDS 4096

/* All that the sender has: a unit, the two lists, and one packet. A sender that knows its mtu has room for a packet of that length. */
static uint8_t unit[AV1RTP_UNIT_LIMIT];
static uint32_t obus[RECORDS * AV1RTP_OBU_NUMBERS], plan[RECORDS * AV1RTP_PLAN_NUMBERS];
static uint8_t packet[AV1RTP_MTU_LIMIT];

static void send_packet(uint16_t number, size_t length) {
    printf("%u ", (unsigned)number);
    for (size_t i = 0; i < length; i++) {
        printf("%02X", packet[i]);
    }
    printf("\n");
}

/* Sends a unit, and returns 0 or the number of the refusal. An mtu over its limit is refused, so the buffer holds any packet. */
static uint32_t send_unit(size_t mtu, size_t length, uint16_t *number) {
    size_t answer[AV1RTP_ANSWER_WORDS];
    uint32_t refusal = av1rtp_plan(mtu, unit, length, obus, RECORDS * AV1RTP_OBU_NUMBERS, plan, RECORDS * AV1RTP_PLAN_NUMBERS, answer);
    size_t listed = answer[1] * AV1RTP_OBU_NUMBERS, recorded = answer[2] * AV1RTP_PLAN_NUMBERS, packets = answer[2];
    for (size_t k = 0; refusal == 0 && k < packets; k++) {
        refusal = av1rtp_write_packet(mtu, unit, length, obus, listed, plan, recorded, k, packet, sizeof packet, answer);
        if (refusal == 0) {
            send_packet((*number)++, answer[1]);
        }
    }
    return refusal;
}

/* A number of so many bytes from the input, the highest first; -1 at its end. */
static long read_number(int bytes) {
    long value = 0;
    while (bytes-- > 0) {
        int byte = getchar();
        if (byte == EOF) {
            return -1;
        }
        value = value << 8 | byte;
    }
    return value;
}

int main(void) {
    long version = read_number(1), mtu = read_number(version == 2 ? 4 : 2), first = read_number(2);
    if ((version != 1 && version != 2) || mtu < 0 || first < 0) {
        fprintf(stderr, "input: no head\n");
        return 1;
    }
    uint16_t number = (uint16_t)first;
    for (int k = 0, byte; (byte = getchar()) != EOF; k++) {
        ungetc(byte, stdin);
        long length = read_number(4);
        if (length < 0 || length > AV1RTP_UNIT_LIMIT || fread(unit, 1, (size_t)length, stdin) != (size_t)length) {
            fprintf(stderr, "unit %d: cut\n", k);
            return 1;
        }
        uint32_t refusal = send_unit((size_t)mtu, (size_t)length, &number);
        if (refusal != 0) {
            fprintf(stderr, "unit %d: %u\n", k, (unsigned)refusal);
            return 1;
        }
    }
    if (fflush(stdout) != 0 || ferror(stdout) || ferror(stdin)) {
        fprintf(stderr, "read or write failed\n");
        return 1;
    }
    return 0;
}
