/* Calls every export through include/av1rtp.h: rows of docs/RULES.md, and the refusals of each call. */
#include "av1rtp.h"

#include <stdio.h>
#include <string.h>

static int failed;

#define EXPECT(test)                                                                                                                 \
    do {                                                                                                                             \
        if (!(test)) {                                                                                                               \
            printf("header.c:%d: %s\n", __LINE__, #test);                                                                            \
            failed = 1;                                                                                                              \
        }                                                                                                                            \
    } while (0)

static int words(const size_t answer[4], size_t offset, size_t a, size_t b, size_t c) {
    return answer[0] == offset && answer[1] == a && answer[2] == b && answer[3] == c;
}

static const uint8_t unit[] = {0x0A, 0x01, 0x7F, 0x32, 0x00};
static const uint8_t broken[] = {0x32, 0x00, 0x32, 0x02, 0xA1};
static const uint8_t payloads[] = {0x10, 0x08, 0x7F, 0x10, 0x30};
static const uint32_t records[] = {10, 0, 2, 1, 2, 50, 0, 5, 0, 1};
static const uint32_t packets[] = {0, 1, 0, 2, 2, 0, 1, 1, 0, 1, 1, 3};

static void lists_and_headers(void) {
    static const uint8_t key[] = {0x0A, 0x01, 0x00, 0x32, 0x01, 0x10};
    static const uint32_t at_limit[] = {0, 1, 0, 2, 2, 4294967292}, over_limit[] = {0, 1, 0, 2, 2, 4294967293};
    uint32_t obus[10], plan[12];
    size_t answer[AV1RTP_ANSWER_WORDS];

    EXPECT(av1rtp_list(unit, sizeof unit, obus, 10, answer) == 0 && words(answer, 0, 2, 0, 0));
    EXPECT(memcmp(obus, records, sizeof records) == 0);
    EXPECT(av1rtp_list(broken, sizeof broken, obus, 10, answer) == AV1RTP_PAYLOAD_PAST_UNIT && words(answer, 2, 0, 0, 0));
    EXPECT(av1rtp_plan(5, unit, sizeof unit, obus, 10, plan, 12, answer) == 0 && words(answer, 0, 2, 2, 0));
    EXPECT(memcmp(plan, packets, sizeof packets) == 0);
    EXPECT(av1rtp_plan(1048577, unit, sizeof unit, obus, 10, plan, 12, answer) == AV1RTP_MTU_OVER_LIMIT);
    EXPECT(av1rtp_plan(SIZE_MAX, unit, sizeof unit, obus, 10, plan, 12, answer) == AV1RTP_MTU_OVER_LIMIT);
    EXPECT(av1rtp_plan(1048576, unit, sizeof unit, obus, 10, plan, 12, answer) == 0 && words(answer, 0, 2, 1, 0));
    EXPECT(av1rtp_plan(65534, unit, sizeof unit, obus, 10, plan, 12, answer) == 0 && words(answer, 0, 2, 1, 0));
    EXPECT(av1rtp_plan(5, unit, sizeof unit, obus, 9, plan, 12, answer) == AV1RTP_OBU_LIST_FULL && words(answer, 3, 0, 0, 0));
    EXPECT(av1rtp_plan(5, unit, sizeof unit, obus, 10, plan, 11, answer) == AV1RTP_PLAN_LIST_FULL && words(answer, 0, 0, 0, 0));
    EXPECT(av1rtp_plan(5, unit, sizeof unit, obus, 10, plan, 12, answer) == 0 && words(answer, 0, 2, 2, 0));
    EXPECT(av1rtp_header(unit, sizeof unit, obus, 10, plan, 12, 1, answer) == 0 && words(answer, 0, 0x10, 0, 0));
    EXPECT(av1rtp_header(unit, sizeof unit, obus, 10, plan, 12, 2, answer) == AV1RTP_NO_USABLE_PACKET);
    EXPECT(av1rtp_header(unit, sizeof unit, obus, 10, at_limit, 6, 0, answer) == 0 && words(answer, 0, 0x10, 0, 0));
    EXPECT(av1rtp_header(unit, sizeof unit, obus, 10, over_limit, 6, 0, answer) == AV1RTP_NO_USABLE_PACKET);
    EXPECT(words(answer, 0, 0, 0, 0));
    EXPECT(av1rtp_header(unit, 4, obus, 10, plan, 12, 0, answer) == AV1RTP_NO_USABLE_PACKET && words(answer, 0, 0, 0, 0));
    EXPECT(av1rtp_plan(20, key, sizeof key, obus, 10, plan, 12, answer) == 0 && words(answer, 0, 2, 1, 0));
    EXPECT(av1rtp_header(key, sizeof key, obus, 10, plan, 6, 0, answer) == 0 && words(answer, 0, 0x28, 0, 0));
}

/* ---- the writing calls */

/* What both are given, but for the packets asked for. */
struct wanted {
    size_t mtu;
    const uint8_t *unit;
    size_t unit_length;
    const uint32_t *obus;
    size_t obus_length;
    const uint32_t *plan;
    size_t plan_length;
    size_t out_length;
};

#define OLD 0xA5
#define STORE 64

static uint8_t out[STORE];
static size_t answer[AV1RTP_ANSWER_WORDS];

/* The number that a call returns; behind what it answers that it wrote, `out` is as it was before, and on a refusal everywhere. */
static uint32_t checked(uint32_t number, size_t lent) {
    EXPECT(number != 0 || words(answer, 0, answer[1], 0, 0));
    EXPECT(number == 0 || words(answer, answer[0], 0, 0, 0));
    EXPECT(answer[1] <= lent);
    for (size_t i = answer[1]; i < STORE; i++) {
        EXPECT(out[i] == OLD);
    }
    return number;
}

static uint32_t one(struct wanted w, size_t k) {
    memset(out, OLD, STORE);
    memset(answer, OLD, sizeof answer);
    return checked(av1rtp_write_packet(w.mtu, w.unit, w.unit_length, w.obus, w.obus_length, w.plan, w.plan_length, k, out, w.out_length,
                                       answer), w.out_length);
}

static uint32_t run(struct wanted w, size_t first, size_t count) {
    memset(out, OLD, STORE);
    memset(answer, OLD, sizeof answer);
    return checked(av1rtp_write_packets(w.mtu, w.unit, w.unit_length, w.obus, w.obus_length, w.plan, w.plan_length, first, count, out,
                                        w.out_length, answer), w.out_length);
}

/* Both calls refuse so, whichever packet is asked for, and whether or not it would fit. */
static int both_refuse(struct wanted w, uint32_t number, size_t offset) {
    static const size_t ks[] = {0, 1, 2, SIZE_MAX};
    static const size_t lengths[] = {0, 1, STORE};
    for (size_t i = 0; i < 4; i++) {
        for (size_t j = 0; j < 3; j++) {
            w.out_length = lengths[j];
            if (one(w, ks[i]) != number || answer[0] != offset) {
                return 0;
            }
            for (size_t count = 0; count < 4; count++) {
                if (run(w, ks[i], count) != number || answer[0] != offset) {
                    return 0;
                }
            }
        }
    }
    return 1;
}

static const struct wanted good = {5, unit, sizeof unit, records, 10, packets, 12, STORE};

/* 1 to 7, which come first, so that lists of nothing do. */
static void refusals_of_the_unit(void) {
    static uint8_t long_unit[AV1RTP_UNIT_LIMIT + 1];
    static const struct { uint8_t bytes[12]; size_t length; uint32_t number; size_t offset; } rows[] = {
        {{0x32, 0x00, 0x34}, 3, AV1RTP_EXTENSION_MISSING, 2},
        {{0x32, 0x00, 0x32}, 3, AV1RTP_SIZE_MISSING, 2},
        {{0x32, 0x00, 0x32, 0x80}, 4, AV1RTP_SIZE_UNFINISHED, 2},
        {{0x32, 0x00, 0x32, 0x80, 0x80, 0x80, 0x80, 0x80, 0x80, 0x80, 0x80}, 11, AV1RTP_SIZE_TOO_LARGE, 2},
        {{0x32, 0x00, 0x32, 0x80, 0x80, 0x80, 0x80, 0x10}, 8, AV1RTP_SIZE_TOO_LARGE, 2},
        {{0x32, 0x00, 0x32, 0x02, 0xA1}, 5, AV1RTP_PAYLOAD_PAST_UNIT, 2},
    };
    struct wanted w = good;
    w.unit = long_unit;
    w.unit_length = sizeof long_unit;
    EXPECT(both_refuse(w, AV1RTP_UNIT_OVER_LIMIT, 0));
    w.mtu = AV1RTP_MTU_LIMIT + 1;
    EXPECT(both_refuse(w, AV1RTP_MTU_OVER_LIMIT, 0));
    for (size_t i = 0; i < sizeof rows / sizeof rows[0]; i++) {
        w = good;
        w.unit = rows[i].bytes;
        w.unit_length = rows[i].length;
        EXPECT(both_refuse(w, rows[i].number, rows[i].offset));
        w.obus_length = w.plan_length = 0;
        EXPECT(both_refuse(w, rows[i].number, rows[i].offset));
        w.mtu = AV1RTP_MTU_LIMIT + 1;
        EXPECT(both_refuse(w, AV1RTP_MTU_OVER_LIMIT, 0));
    }
}

/* 31: list or plan of something else, before 11 and 10. */
static void lists_that_differ(void) {
    struct wanted w;
    uint32_t obus[10], plan[12];
    for (size_t i = 0; i < 10; i++) {
        for (unsigned bit = 0; bit < 32; bit++) {
            w = good;
            memcpy(obus, records, sizeof obus);
            obus[i] ^= (uint32_t)1 << bit;
            w.obus = obus;
            EXPECT(both_refuse(w, AV1RTP_LISTS_DIFFER, 0));
        }
    }
    for (size_t i = 0; i < 12; i++) {
        for (unsigned bit = 0; bit < 32; bit++) {
            w = good;
            memcpy(plan, packets, sizeof plan);
            plan[i] ^= (uint32_t)1 << bit;
            w.plan = plan;
            EXPECT(both_refuse(w, AV1RTP_LISTS_DIFFER, 0));
        }
    }
    for (size_t length = 0; length < 10; length++) {
        w = good;
        w.obus_length = length;
        EXPECT(both_refuse(w, AV1RTP_LISTS_DIFFER, 0));
    }
    for (size_t length = 0; length < 12; length++) {
        w = good;
        w.plan_length = length;
        EXPECT(both_refuse(w, AV1RTP_LISTS_DIFFER, 0));
    }
    /* the plan of another mtu, both ways; the list of another unit */
    static const uint8_t other[] = {0x32, 0x00, 0x0A, 0x01, 0x7F};
    w = good;
    w.mtu = 20;
    EXPECT(both_refuse(w, AV1RTP_LISTS_DIFFER, 0));
    w.mtu = 3;
    EXPECT(both_refuse(w, AV1RTP_LISTS_DIFFER, 0));
    EXPECT(av1rtp_plan(20, unit, sizeof unit, obus, 10, plan, 12, answer) == 0 && words(answer, 0, 2, 1, 0));
    w = good;
    w.plan = plan;
    EXPECT(both_refuse(w, AV1RTP_LISTS_DIFFER, 0));
    w = good;
    w.unit = other;
    EXPECT(both_refuse(w, AV1RTP_LISTS_DIFFER, 0));
}

/* 11 before 10, and 10 by what is asked for alone. */
static void packets_and_room(void) {
    struct wanted w = good;
    for (size_t length = 0; length <= 6; length++) {
        w.out_length = length;
        EXPECT(one(w, 0) == (length < 3 ? AV1RTP_NO_ROOM_FOR_PAYLOADS : 0));
        EXPECT(length < 3 || (words(answer, 0, 3, 0, 0) && memcmp(out, payloads, 3) == 0));
        EXPECT(one(w, 1) == (length < 2 ? AV1RTP_NO_ROOM_FOR_PAYLOADS : 0));
        EXPECT(length < 2 || (words(answer, 0, 2, 0, 0) && memcmp(out, payloads + 3, 2) == 0));
        EXPECT(run(w, 0, 2) == (length < 5 ? AV1RTP_NO_ROOM_FOR_PAYLOADS : 0));
        EXPECT(length < 5 || (words(answer, 0, 5, 0, 0) && memcmp(out, payloads, 5) == 0));
        EXPECT(run(w, 1, 1) == (length < 2 ? AV1RTP_NO_ROOM_FOR_PAYLOADS : 0));
        EXPECT(length < 2 || (words(answer, 0, 2, 0, 0) && memcmp(out, payloads + 3, 2) == 0));
        EXPECT(one(w, 2) == AV1RTP_NO_USABLE_PACKET && words(answer, 0, 0, 0, 0));
        EXPECT(one(w, SIZE_MAX) == AV1RTP_NO_USABLE_PACKET && words(answer, 0, 0, 0, 0));
        EXPECT(run(w, 0, 3) == AV1RTP_NO_USABLE_PACKET && words(answer, 0, 0, 0, 0));
        EXPECT(run(w, 1, 2) == AV1RTP_NO_USABLE_PACKET && run(w, 2, 1) == AV1RTP_NO_USABLE_PACKET);
        EXPECT(run(w, 1, SIZE_MAX) == AV1RTP_NO_USABLE_PACKET && run(w, SIZE_MAX, 1) == AV1RTP_NO_USABLE_PACKET);
        EXPECT(run(w, SIZE_MAX, SIZE_MAX) == AV1RTP_NO_USABLE_PACKET);
        EXPECT(run(w, 0, 0) == 0 && words(answer, 0, 0, 0, 0));
        EXPECT(run(w, 2, 0) == 0 && run(w, 3, 0) == 0 && run(w, SIZE_MAX, 0) == 0 && words(answer, 0, 0, 0, 0));
    }
    /* an mtu below 3 and a unit of nothing have no packets */
    w = good;
    for (w.mtu = 0; w.mtu < 3; w.mtu++) {
        for (w.plan_length = 0; w.plan_length <= 12; w.plan_length++) {
            EXPECT(one(w, 0) == AV1RTP_NO_USABLE_PACKET && run(w, 0, 1) == AV1RTP_NO_USABLE_PACKET && run(w, 7, 0) == 0);
        }
        w.plan_length = 12;
        w.obus_length = 9;
        EXPECT(both_refuse(w, AV1RTP_LISTS_DIFFER, 0));
        w.obus_length = 10;
    }
    w = good;
    w.unit_length = w.obus_length = w.plan_length = 0;
    EXPECT(one(w, 0) == AV1RTP_NO_USABLE_PACKET && run(w, 0, 1) == AV1RTP_NO_USABLE_PACKET && run(w, 0, 0) == 0);
}

/* Lists longer than their filled part, whatever stands behind; the packets in reverse order, each into a buffer that just holds it. */
static void packets_in_reverse(void) {
    static const uint8_t long_unit[] = {0x0A, 0x01, 0x00, 0x32, 0x08, 0x10, 1, 2, 3, 4, 5, 6, 7, 0x12, 0x00, 0x3A, 0x01, 9};
    uint32_t obus[40], plan[60];
    uint8_t all[STORE];
    memset(obus, OLD, sizeof obus);
    memset(plan, OLD, sizeof plan);
    EXPECT(av1rtp_plan(6, long_unit, sizeof long_unit, obus, 40, plan, 60, answer) == 0 && answer[1] == 3);
    size_t count = answer[2];
    EXPECT(count >= 3 && count < 10);
    struct wanted w = {6, long_unit, sizeof long_unit, obus, 40, plan, 60, STORE};
    EXPECT(run(w, 0, count) == 0);
    size_t bytes = answer[1];
    memcpy(all, out, STORE);
    for (size_t k = count; k-- > 0;) {
        const uint32_t *record = plan + AV1RTP_PLAN_NUMBERS * k;
        w.out_length = record[4];
        EXPECT(one(w, k) == AV1RTP_NO_ROOM_FOR_PAYLOADS && w.out_length + 1 <= w.mtu && w.out_length + 1 < bytes);
        w.out_length = record[4] + 1;
        EXPECT(one(w, k) == 0 && words(answer, 0, w.out_length, 0, 0));
        EXPECT(memcmp(out, all + record[5], w.out_length) == 0);
        EXPECT(k + 1 < count || record[5] + w.out_length == bytes);
        /* and the run from here to the end */
        w.out_length = bytes - record[5];
        EXPECT(run(w, k, count - k) == 0 && words(answer, 0, w.out_length, 0, 0));
        EXPECT(memcmp(out, all + record[5], w.out_length) == 0);
        w.out_length--;
        EXPECT(run(w, k, count - k) == AV1RTP_NO_ROOM_FOR_PAYLOADS);
    }
    w.out_length = STORE;
    EXPECT(one(w, count) == AV1RTP_NO_USABLE_PACKET && run(w, 0, count + 1) == AV1RTP_NO_USABLE_PACKET);
    for (size_t i = 15; i < 40; i++) {
        EXPECT(obus[i] == 0xA5A5A5A5);
    }
}

/* ---- receiving, trains, size fields */

static void receiving(void) {
    static const uint8_t first[] = {0x58, 0x08}, last[] = {0x90, 0x7F}, two[] = {0x28, 0x02, 0x08, 0x7F, 0x30};
    static const uint8_t obu[] = {0x0A, 0x01, 0x7F};
    uint8_t store[4];
    size_t state[AV1RTP_STATE_WORDS] = {0, 0, 0};
    EXPECT(av1rtp_receive(state, 65535, first, 2, store, 4, out, 8, answer) == 0 && words(answer, 0, 0, 0, 0));
    EXPECT(state[0] == 1 && state[1] == 65535 && state[2] == 1);
    EXPECT(av1rtp_receive(state, 65535, first, 2, store, 4, out, 8, answer) == AV1RTP_NOT_AHEAD);
    EXPECT(state[0] == 1 && state[1] == 65535 && state[2] == 1);
    EXPECT(av1rtp_receive(state, 0, last, 2, store, 4, out, 8, answer) == 0 && words(answer, 0, 3, 0, 0));
    EXPECT(memcmp(out, obu, sizeof obu) == 0 && state[0] == 1 && state[1] == 0 && state[2] == 0);
    EXPECT(av1rtp_element(two, sizeof two, 1, answer) == 0 && words(answer, 0, 2, 4, 1));
    EXPECT(av1rtp_element(two, sizeof two, 2, answer) == 0 && words(answer, 0, 2, 0, 0));
    EXPECT(av1rtp_element(two, 0, 0, answer) == AV1RTP_PAYLOAD_LENGTH && words(answer, 0, 0, 0, 0));
}

/* A payload of the greatest length and one byte more. */
static void longest_payload(void) {
    static uint8_t payload[AV1RTP_PAYLOAD_LIMIT + 1], obus[AV1RTP_PAYLOAD_LIMIT + 3];
    size_t state[AV1RTP_STATE_WORDS] = {0, 0, 0};
    uint8_t store[1];
    payload[0] = 0x10;
    payload[1] = 0x30;
    EXPECT(av1rtp_element(payload, sizeof payload, 0, answer) == AV1RTP_PAYLOAD_LENGTH && words(answer, 0, 0, 0, 0));
    EXPECT(av1rtp_element(payload, 1048576, 0, answer) == 0 && words(answer, 0, 1, 1, 1048575));
    EXPECT(av1rtp_receive(state, 7, payload, sizeof payload, store, 1, obus, sizeof obus, answer) == AV1RTP_PAYLOAD_LENGTH);
    EXPECT(words(answer, 0, 0, 0, 0) && state[0] == 0 && state[1] == 0 && state[2] == 0);
    EXPECT(av1rtp_receive(state, 7, payload, 1048576, store, 1, obus, 1048577, answer) == AV1RTP_NO_ROOM_FOR_OBUS);
    EXPECT(av1rtp_receive(state, 7, payload, 1048576, store, 1, obus, 1048578, answer) == 0 && words(answer, 0, 1048578, 0, 0));
    EXPECT(obus[0] == 0x32 && obus[1] == 0xFE && obus[2] == 0xFF && obus[3] == 0x3F && state[0] == 1 && state[1] == 7 && state[2] == 0);
}

/* Every width but 4 counts as 2. */
static const size_t widths[] = {2, 4, 0, 1, 3, 5, 6, 8, 65536, 65540, SIZE_MAX};

static size_t counted(size_t width) {
    return width == 4 ? 4 : 2;
}

static void heads(void) {
    static const uint8_t versions[] = {1, 2, 0, 3, 4, 255};
    for (size_t i = 0; i < sizeof versions; i++) {
        uint8_t train[] = {versions[i], 0, 0};
        for (size_t length = 1; length <= sizeof train; length++) {
            if (i < 2) {
                EXPECT(av1rtp_train_head(train, length, answer) == 0 && words(answer, 0, versions[i], i == 0 ? 2 : 4, 0));
            } else {
                EXPECT(av1rtp_train_head(train, length, answer) == AV1RTP_TRAIN_VERSION && words(answer, 0, 0, 0, 0));
            }
        }
        EXPECT(av1rtp_train_head(train, 0, answer) == AV1RTP_TRAIN_VERSION && words(answer, 0, 0, 0, 0));
    }
}

/* A good record and then one whose length is too small, in both widths: each cut everywhere, and asked for past the end. */
static void records_of_trains(void) {
    static const uint8_t two[] = {1, 0, 4, 0xFF, 0xFE, 0x10, 0x30, 0, 2, 0, 0};
    static const uint8_t four[] = {2, 0, 0, 0, 4, 0xFF, 0xFE, 0x10, 0x30, 0, 0, 0, 2, 0, 0};
    for (size_t i = 0; i < sizeof widths / sizeof widths[0]; i++) {
        size_t width = widths[i], start = 1 + counted(width) + 2, end = start + 2;
        const uint8_t *train = width == 4 ? four : two;
        size_t length = width == 4 ? sizeof four : sizeof two;
        for (size_t cut = 0; cut <= length; cut++) {
            uint32_t number = av1rtp_train_record(train, cut, width, 1, answer);
            if (cut <= 1) {
                EXPECT(number == 0 && words(answer, 0, 0, 0, 0));
            } else if (cut < end) {
                EXPECT(number == AV1RTP_TRAIN_CUT && words(answer, 0, 0, 0, 0));
            } else {
                EXPECT(number == 0 && words(answer, 0, 65534, start, 2));
            }
            number = av1rtp_train_record(train, cut, width, end, answer);
            EXPECT(number == (cut <= end ? 0 : cut < end + counted(width) ? AV1RTP_TRAIN_CUT : AV1RTP_RECORD_TOO_SHORT));
            EXPECT(words(answer, 0, 0, 0, 0));
            for (size_t past = 0; past < 3; past++) {
                EXPECT(av1rtp_train_record(train, cut, width, cut + past, answer) == 0 && words(answer, 0, 0, 0, 0));
            }
            EXPECT(av1rtp_train_record(train, cut, width, SIZE_MAX, answer) == 0 && words(answer, 0, 0, 0, 0));
        }
    }
    /* the greatest length stated, and one with high bytes set */
    static const uint8_t greatest[] = {2, 0xFF, 0xFF, 0xFF, 0xFF, 0, 0, 0x10, 0x30}, high[] = {2, 1, 0, 0, 4, 0, 0, 0x10, 0x30};
    EXPECT(av1rtp_train_record(greatest, sizeof greatest, 4, 1, answer) == AV1RTP_TRAIN_CUT);
    EXPECT(av1rtp_train_record(high, sizeof high, 4, 1, answer) == AV1RTP_TRAIN_CUT);
    /* a payload that version 1 has no room for */
    static uint8_t record[7 + AV1RTP_SHORT_PAYLOAD + 1] = {2};
    av1rtp_train_record_head(AV1RTP_SHORT_PAYLOAD + 3, 9, 4, record + 1);
    EXPECT(av1rtp_train_record(record, sizeof record, 4, 1, answer) == 0 && words(answer, 0, 9, 7, AV1RTP_SHORT_PAYLOAD + 1));
    EXPECT(av1rtp_train_record(record, sizeof record - 1, 4, 1, answer) == AV1RTP_TRAIN_CUT);
}

/* The bytes of both fields, and those behind them, which stay. */
static void record_heads(void) {
    static const uint32_t stateds[] = {0, 1, 2, 3, 4, 0x1234, 0xFFFF, 0x10000, 0x12345678, 0xFFFFFFFF};
    for (size_t i = 0; i < sizeof stateds / sizeof stateds[0]; i++) {
        for (size_t j = 0; j < sizeof widths / sizeof widths[0]; j++) {
            uint8_t head[] = {OLD, OLD, OLD, OLD, OLD, OLD}, wanted[] = {OLD, OLD, OLD, OLD, OLD, OLD};
            size_t at = 0, width = counted(widths[j]);
            for (size_t k = width; k-- > 0;) {
                wanted[at++] = (uint8_t)(stateds[i] >> 8 * k);
            }
            wanted[at++] = 0xAB;
            wanted[at++] = 0xCD;
            av1rtp_train_record_head(stateds[i], 0xABCD, widths[j], head);
            EXPECT(at == width + 2 && memcmp(head, wanted, sizeof head) == 0);
        }
    }
}

static void size_fields(void) {
    static const uint8_t field[] = {0xAC, 0x02}, padded[] = {0x80, 0x00}, longest[] = {0xFF, 0xFF, 0xFF, 0xFF, 0x8F, 0x80, 0x80, 0x00};
    EXPECT(av1rtp_size_field(field, 2, answer) == 0 && words(answer, 0, 300, 2, 1));
    EXPECT(av1rtp_size_field(field, 1, answer) == AV1RTP_SIZE_UNFINISHED && words(answer, 0, 0, 0, 0));
    EXPECT(av1rtp_size_field(padded, 2, answer) == 0 && words(answer, 0, 0, 2, 0));
    EXPECT(av1rtp_size_field(padded + 1, 1, answer) == 0 && words(answer, 0, 0, 1, 1));
    EXPECT(av1rtp_size_field(longest, 8, answer) == 0 && words(answer, 0, 4294967295, 8, 0));
    EXPECT(av1rtp_size_field(longest, 7, answer) == AV1RTP_SIZE_UNFINISHED && words(answer, 0, 0, 0, 0));
}

/* ---- padded fields: of a unit, and of packets */

static void padded_units(void) {
    static const struct { uint8_t bytes[16]; size_t length, obus, padded; } rows[] = {
        {{0x32, 0x80, 0x00, 0x12, 0x81, 0x00, 0x01}, 7, 1, 2},
        {{0x32, 0x00, 0x12, 0x00}, 4, 1, 0},
        {{0x12, 0x80, 0x80, 0x00}, 4, 0, 1},
        {{0x36, 0x80, 0x00, 0x36, 0x80, 0x80, 0x00}, 7, 2, 1},           /* extension bytes that look so */
        {{0x32, 0x02, 0x80, 0x00, 0x30, 0x80, 0x00}, 7, 2, 0},           /* payloads that look so */
        {{0x32, 0x80, 0x80, 0x80, 0x80, 0x80, 0x80, 0x80, 0x00}, 9, 1, 1},
        {{0}, 0, 0, 0},
    };
    uint32_t obus[10];
    for (size_t i = 0; i < sizeof rows / sizeof rows[0]; i++) {
        EXPECT(av1rtp_list(rows[i].bytes, rows[i].length, obus, 10, answer) == 0);
        EXPECT(words(answer, 0, rows[i].obus, rows[i].padded, 0));
    }
    /* a refusal carries no count, and the plan call has none */
    EXPECT(av1rtp_list(rows[0].bytes, 6, obus, 10, answer) == AV1RTP_PAYLOAD_PAST_UNIT && words(answer, 3, 0, 0, 0));
    EXPECT(av1rtp_list(rows[0].bytes, 7, obus, 4, answer) == AV1RTP_OBU_LIST_FULL && words(answer, 0, 0, 0, 0));
    uint32_t plan[12];
    EXPECT(av1rtp_plan(5, rows[0].bytes, 7, obus, 10, plan, 12, answer) == 0 && words(answer, 0, 1, 1, 0));
}

static void padded_packets(void) {
    /* one run of packets: what each hands out, and its padded fields */
    static const struct { uint16_t number; uint8_t bytes[16]; size_t length, handed, padded; } rows[] = {
        {7, {0x30, 0x81, 0x00, 0x30, 0x81, 0x00, 0x30, 0x32, 0x80, 0x00}, 10, 6, 3},
        {8, {0xA0, 0x81, 0x00, 0xA1, 0x30}, 5, 2, 1},                                       /* in an element thrown away */
        {9, {0x00, 0x83, 0x00, 0x12, 0x80, 0x00, 0x03, 0x7A, 0x80, 0x00}, 10, 0, 3},        /* dropped types */
        {10, {0x50, 0x32, 0x82}, 3, 0, 0},                                                  /* a size field over three packets */
        {11, {0xC0, 0x81, 0x00, 0x00}, 4, 0, 1},
        {12, {0x90, 0xA1, 0xA2}, 3, 4, 1},
        {13, {0x10, 0x80, 0x00}, 3, 3, 0},                                                  /* no field */
        {15, {0x90, 0x32, 0x80, 0x00}, 4, 0, 0},
    };
    static const uint8_t broken_size[] = {0x20, 0x83, 0x00, 0x32, 0x80, 0x00, 0x32};
    size_t state[AV1RTP_STATE_WORDS] = {0, 0, 0};
    uint8_t store[4];
    for (size_t i = 0; i < sizeof rows / sizeof rows[0]; i++) {
        EXPECT(av1rtp_receive(state, rows[i].number, rows[i].bytes, rows[i].length, store, 4, out, 16, answer) == 0);
        EXPECT(words(answer, 0, rows[i].handed, rows[i].padded, 0));
    }
    EXPECT(av1rtp_receive(state, 16, broken_size, sizeof broken_size, store, 4, out, 16, answer) == AV1RTP_OBU_BROKEN);
    EXPECT(words(answer, 0, 0, 0, 0));
}

int main(void) {
    lists_and_headers();
    refusals_of_the_unit();
    lists_that_differ();
    packets_and_room();
    packets_in_reverse();
    receiving();
    longest_payload();
    heads();
    records_of_trains();
    record_heads();
    size_fields();
    padded_units();
    padded_packets();
    if (!failed) {
        printf("header.c: ok\n");
    }
    return failed;
}
