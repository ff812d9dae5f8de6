/* av1rtp.h: AV1 video in RTP payloads, a sender and a receiver, for C and for whatever calls C.
 *
 * Every function here is proved (crates/av1rtp): it returns on all input, reaches outside no lent buffer, and what it answers and
 * writes equals the definitions that its contract cites. docs/RULES.md has the rules; R1, C5 and the like are its names.
 * Build the library by `rust/archive` and link libav1rtp.a of the folder that it prints; it needs nothing but the C library.
 *
 * WHAT THE CALLER MUST ENSURE. Nothing can check it here, and the proofs take it for granted:
 *   - A pointer is not NULL, is aligned for its type, and points to as many values as the length after it says, or as the size
 *     in brackets says; also where the length is 0. Lengths count values (bytes, numbers), not bytes.
 *   - What is lent may be read, and, where the pointer is not const, written, for the time of the call, and holds values.
 *   - No two buffers of one call overlap, and nobody else touches them during the call.
 * Nothing else is asked. Any bytes, any numbers and any lengths may be given, and no call keeps a pointer.
 *
 * ONE TRAIN, ONE FRESH RECEIVER. A packet number counts within one train only. Packet 41 of one train and packet 42 of another look
 * like neighbours, and a receiver that gets both closes the open fragment of one work with the bytes of the other: it hands out an
 * OBU that is in neither. No receiver can tell. So each train is given to a state of its own, fresh at its start, and trains are
 * never joined, neither as files nor packet by packet.
 *
 * FOR INSPECTION ONLY. The OBU list and the plan say where things stand in one unit and in its payloads. They are there for the calls
 * that write its packets, and to be looked at and checked; no position from them goes into an export. What leaves the house is trains.
 *
 * ANSWERS. A call returns 0, or the number of a refusal, and fills four words:
 *   answer[0]       the offset that a refusal carries (R2 to R8: of the OBU's header byte in the unit), else 0
 *   answer[1..3]    what was asked for, as said at each call; all 0 on a refusal
 *
 * PADDED FIELDS. A size field may have more bytes than its value needs, as 80 00 has for 0: it is padded. av1rtp_size_field says so of
 * the field that it reads, av1rtp_list and av1rtp_receive say how many they met. No call refuses a field for it, and none writes one.
 */
#ifndef AV1RTP_H
#define AV1RTP_H

#include <stddef.h>
#include <stdint.h>

#ifdef __cplusplus
extern "C" {
#endif

/* Limits (L1 to L4, L18). mtu and payload are counted without the RTP header. */
#define AV1RTP_UNIT_LIMIT 1048576     /* bytes of a unit, 0 to this */
#define AV1RTP_MTU_LIMIT 1048576      /* mtu, 0 to this; below 3 there are no packets */
#define AV1RTP_PAYLOAD_LIMIT 1048576  /* bytes of a payload that is received, 1 to this */
#define AV1RTP_FRAGMENT_LIMIT 1048576 /* bytes of an open fragment */
#define AV1RTP_SHORT_PAYLOAD 65533    /* bytes of a payload in a train of version 1; see trains */

#define AV1RTP_OBU_NUMBERS 5   /* numbers of a record in an OBU list: header, extension byte or 0, payload start, payload length, size */
#define AV1RTP_PLAN_NUMBERS 6  /* of a record in a plan: first OBU, elements, first offset, last size, packet size, payload start */
#define AV1RTP_ANSWER_WORDS 4
#define AV1RTP_STATE_WORDS 3   /* begun (0 or 1), last number taken, open length; {0, 0, 0} is fresh */

/* The refusals, and what each leaves in what was lent. The first that applies is given. */
enum av1rtp_refusal {
    /* list, plan, write_packet, write_packets: these leave everything as it was */
    AV1RTP_MTU_OVER_LIMIT = 1,    /* mtu above its limit */
    AV1RTP_UNIT_OVER_LIMIT = 2,   /* unit longer than its limit */
    AV1RTP_EXTENSION_MISSING = 3, /* extension bit set, and no second header byte */
    AV1RTP_SIZE_MISSING = 4,      /* size bit set, and no byte after the header bytes */
    AV1RTP_SIZE_UNFINISHED = 5,   /* a size field of fewer than 8 bytes that does not end */
    AV1RTP_SIZE_TOO_LARGE = 6,    /* a size field of more than 8 bytes, or of a value above 4294967295 */
    AV1RTP_PAYLOAD_PAST_UNIT = 7, /* an OBU's payload ends after the unit does */
    AV1RTP_OBU_LIST_FULL = 8,     /* no whole record is free in the OBU list for this kept OBU */
    /* plan: leaves the OBU list filled, the plan as it was */
    AV1RTP_PLAN_LIST_FULL = 9,    /* the plan has more records than the plan list */
    /* write_packet, write_packets: this and their 11 and 31 leave everything as it was */
    AV1RTP_NO_ROOM_FOR_PAYLOADS = 10, /* packet k, or the packets asked for together, are longer than the output */
    /* header, write_packet, write_packets */
    AV1RTP_NO_USABLE_PACKET = 11, /* header: no record k, or one of no element, or with OBUs beyond the list, or whose payload start,
                                   * packet size and 1 add up to more than 4294967295; or, for any k, an OBU record whose payload start
                                   * and payload length add up to more than the unit's length
                                   * write_packet, write_packets: the unit has no packet k, or not all packets asked for */
    /* receive: these leave state, store and output as they were. element gives 13, 15, 16 and 17 */
    AV1RTP_STATE_IMPOSSIBLE = 12, /* the state's open length is above the store's length or the fragment's limit */
    AV1RTP_PAYLOAD_LENGTH = 13,   /* payload empty or over its limit */
    AV1RTP_NOT_AHEAD = 14,        /* not 1 to 32767 ahead of the last number taken: a repeat, or late */
    AV1RTP_NEW_WITH_CONTINUATION = 15, /* N and Z both set */
    AV1RTP_ELEMENT_LENGTH_BAD = 16, /* an element's length field is bad as in 5 or 6, or missing */
    AV1RTP_ELEMENT_BAD = 17,      /* an element of no bytes, or past the payload's end, or missing */
    AV1RTP_OBU_BROKEN = 18,       /* a finished OBU lacks its second byte, or its size field does not cover exactly the rest */
    AV1RTP_FRAGMENT_TOO_LONG = 19, /* the new open fragment is longer than the store or its limit */
    AV1RTP_NO_ROOM_FOR_OBUS = 20, /* the output is too short for the OBUs of this packet */
    /* trains */
    AV1RTP_TRAIN_VERSION = 21,    /* empty, or of a version other than 1 and 2 */
    AV1RTP_TRAIN_CUT = 22,        /* ends inside a record */
    AV1RTP_RECORD_TOO_SHORT = 23, /* a record that states a length below 3 */
    /* write_packet, write_packets: given after 1 to 7 and before 11 and 10 */
    AV1RTP_LISTS_DIFFER = 31      /* list or plan is not the one that this unit and mtu give: a number differs, or they are shorter */
};

/* ---- sending */

/* The kept OBUs of a unit, as records of AV1RTP_OBU_NUMBERS numbers, first in `obus`; the numbers after them stay. An unfinished
 * record at the end of a list does not count. Padded size fields are counted over all OBUs of the unit, the dropped ones too.
 * answer: offset, OBUs, padded size fields. Refusals 2 to 8. */
uint32_t av1rtp_list(const uint8_t *unit, size_t unit_length, uint32_t *obus, size_t obus_length, size_t answer[4]);

/* The same, and the plan: which bytes of which kept OBUs go into which packet, and where its payload starts among all payloads, as
 * records of AV1RTP_PLAN_NUMBERS numbers, first in `plan`. There are at most as many records as the kept OBUs have bytes; lists of as
 * many records as the unit has bytes always do. The writing calls below take list and plan from here.
 * answer: offset, OBUs, packets. Refusals 1 to 9. */
uint32_t av1rtp_plan(size_t mtu, const uint8_t *unit, size_t unit_length, uint32_t *obus, size_t obus_length, uint32_t *plan,
                     size_t plan_length, size_t answer[4]);

/* Writes the payload of packet k, counted from 0, first in `out`, from the list and plan that av1rtp_plan gave for this mtu and unit.
 * It has 1 byte more than the packet size in plan record k, and at most mtu bytes: an output of mtu bytes holds any packet. Packets may
 * be written in any order, each as often as wanted. What packet 0, 1, .. have, one after the other, is all that the unit becomes.
 * The lists may be lent longer than their filled part: what stands behind the unit's own records is not looked at. Every call walks
 * over the unit and the records to see that list and plan are its own (31); to write many packets at once, av1rtp_write_packets does
 * so once.
 * answer: offset, bytes. Refusals 1 to 7, then 31, 11, 10: never 8 or 9. A refusal writes nothing. */
uint32_t av1rtp_write_packet(size_t mtu, const uint8_t *unit, size_t unit_length, const uint32_t *obus, size_t obus_length,
                             const uint32_t *plan, size_t plan_length, size_t k, uint8_t *out, size_t out_length, size_t answer[4]);

/* The same for packets first to first + count - 1: their payloads one right after the other from the start of `out`, each as
 * av1rtp_write_packet writes it. List and plan are looked at once. Packet k stands in `out` at the payload start of its record less that
 * of record `first`, so the output needs the bytes from the first one's payload start to the end of the last one (payload start, packet
 * size and 1). With first 0 and count the packets that av1rtp_plan answered, that is all payloads of the unit. If count is 0, nothing is
 * written, whatever `first` is.
 * answer: offset, bytes. Refusals 1 to 7, then 31, 11, 10: never 8 or 9. A refusal writes nothing. */
uint32_t av1rtp_write_packets(size_t mtu, const uint8_t *unit, size_t unit_length, const uint32_t *obus, size_t obus_length,
                              const uint32_t *plan, size_t plan_length, size_t first, size_t count, uint8_t *out, size_t out_length,
                              size_t answer[4]);

/* The aggregation header of packet k, from any unit, OBU list and plan. The lists are as long as they are lent: lend the filled part,
 * which is AV1RTP_OBU_NUMBERS times the OBUs and AV1RTP_PLAN_NUMBERS times the packets of the answer. An old record behind it would
 * count: it is looked at for flag N, and can give refusal 11. Of a record's header and extension byte the low 8 bits count.
 * answer: 0, the byte. Refusal 11. */
uint32_t av1rtp_header(const uint8_t *unit, size_t unit_length, const uint32_t *obus, size_t obus_length, const uint32_t *plan,
                       size_t plan_length, size_t k, size_t answer[4]);

/* ---- receiving */

/* Takes the packet of this number. What it finishes is in `out`: OBUs with size fields, one after the other. What stays open is in
 * `store`. Give state and store to the next call as this one left them, and begin each train with {0, 0, 0}. In a state any first
 * word but 0 means begun, and of the second the low 16 bits count. No packet of our sender is refused for space if the store is as
 * long as the largest kept OBU and the output as that and four times the largest mtu. The padded fields, in one number, are length
 * fields of the packet's elements, of one that is thrown away too, and the size fields inside the OBUs that it finishes, dropped ones too:
 * a size field that came in an earlier packet counts where its OBU is finished.
 * answer: 0, bytes handed out, padded fields. Refusals 12 to 20. */
uint32_t av1rtp_receive(size_t state[3], uint16_t number, const uint8_t *payload, size_t payload_length, uint8_t *store,
                        size_t store_length, uint8_t *out, size_t out_length, size_t answer[4]);

/* Element k of a payload, counted from 0, as a part of the payload. Start and length are 0 if there is no element k.
 * answer: 0, elements, start, length. Refusals 13, 15, 16, 17. */
uint32_t av1rtp_element(const uint8_t *payload, size_t payload_length, size_t k, size_t answer[4]);

/* ---- trains: a version byte, then records of a length, a 16-bit number and a payload, big-endian; the length counts number and payload
 *
 * The length's width is 2 bytes in version 1 and 4 bytes in version 2. A writer uses version 2, width 4, exactly if its mtu is above
 * AV1RTP_SHORT_PAYLOAD, and else version 1, which readers of version 1 alone take too. In the calls below any width but 4 counts as 2. */

/* answer: 0, version, width. The first record begins at offset 1. Refusal 21. */
uint32_t av1rtp_train_head(const uint8_t *train, size_t train_length, size_t answer[4]);

/* The record that begins at `at`, in a train whose lengths have this width; the next one begins where its payload ends. At the end of
 * the train, and past it, all words are 0: no record has a payload of length 0. What stands before a refused record stands. A payload
 * may be longer than a receiver takes (13).
 * answer: 0, number, payload start, payload length. Refusals 22, 23. */
uint32_t av1rtp_train_record(const uint8_t *train, size_t train_length, size_t width, size_t at, size_t answer[4]);

/* What stands before a payload, in the first width + 2 bytes of `head`; the others stay. `stated` is the payload's length plus 2, so 3
 * to 65535 with width 2. Any `stated` is written, with width 2 its low 16 bits, and 0 to 2 too, though no reader takes such a record
 * (23). */
void av1rtp_train_record_head(uint32_t stated, uint16_t number, size_t width, uint8_t head[6]);

/* ---- size fields */

/* The size field (leb128) at the front of some bytes. Its last word is 1 if no fewer bytes would do, 0 if it is padded.
 * answer: 0, value, bytes used, shortest. Refusals 5, 6. */
uint32_t av1rtp_size_field(const uint8_t *bytes, size_t bytes_length, size_t answer[4]);

#ifdef __cplusplus
}
#endif

#endif
