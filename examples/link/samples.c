/* Calls every function of haulspar.h with paper 01's samples and some of paper 02's, and holds the answers to what the papers give. Prints a line for
 * each sample and last 'N passed, M failed'; the status is 0 only where none failed. */
#include <stdio.h>
#include <string.h>

#include "haulspar.h"

#define KEPT 0xA5A5A5A5A5A5A5A5u /* what lent numbers hold before a call */

static int passed, failed;

static void hold(const char *sample, bool right) {
    printf("%s %s\n", right ? "passed" : "FAILED", sample);
    *(right ? &passed : &failed) += 1;
}

/* Octets lent to a call, with room for a bit more than is accepted. */
struct octets {
    uint8_t at[HAULSPAR_INPUT_OCTETS + 8];
    size_t len;
};

/* The octets of digits; spaces between them are left out. */
static struct octets of(const char *digits) {
    struct octets octets;
    octets.len = 0;
    uint8_t line[HAULSPAR_LINE_DIGITS];
    size_t len = 0;
    uint64_t count = 0;
    for (; *digits != 0; digits++) {
        if (*digits != ' ') {
            line[len++] = (uint8_t)*digits;
        }
    }
    haulspar_decode(line, len, octets.at, sizeof octets.at, &count);
    octets.len = count;
    return octets;
}

static bool same(const uint8_t *found, size_t len, const char *digits) {
    struct octets expected = of(digits);
    return len == expected.len && memcmp(found, expected.at, len) == 0;
}

static void put_ulong(struct octets *octets, uint32_t number) {
    for (int shift = 24; shift >= 0; shift -= 8) {
        octets->at[octets->len++] = (uint8_t)(number >> shift);
    }
}

/* Lines and frames. */
static void lines(void) {
    static uint8_t digits[HAULSPAR_LINE_DIGITS + 2], out[HAULSPAR_LINE_OCTETS];
    uint64_t count = KEPT, header[7];
    memset(digits, '0', sizeof digits);
    hold("a line of 8,192 digits is 4,096 octets",
         haulspar_decode(digits, HAULSPAR_LINE_DIGITS, out, sizeof out, &count) == HAULSPAR_OK && count == HAULSPAR_LINE_OCTETS);
    count = KEPT;
    hold("a line of 8,194 digits: 10, and the count stays",
         haulspar_decode(digits, HAULSPAR_LINE_DIGITS + 2, out, sizeof out, &count) == HAULSPAR_LINE_TOO_LONG && count == KEPT);
    hold("an odd count of digits: 11", haulspar_decode(digits, 1, out, sizeof out, &count) == HAULSPAR_NOT_DIGITS);
    hold("an output that is an octet short: 27", haulspar_decode(digits, 4, out, 1, &count) == HAULSPAR_NO_ROOM);

    struct octets message = of("47494f500100000500000000");
    hold("octets to upper-case digits", haulspar_encode(message.at, message.len, digits, sizeof digits, &count) == HAULSPAR_OK &&
                                            count == 24 && memcmp(digits, "47494F500100000500000000", 24) == 0);
    hold("digits without room: 27", haulspar_encode(message.at, message.len, digits, 23, &count) == HAULSPAR_NO_ROOM);
    const uint64_t expected[7] = {0, 0, 0, 5, 0, 0, 0};
    hold("a header of type 5, size 0",
         haulspar_frame(message.at, message.len, header) == HAULSPAR_OK && memcmp(header, expected, sizeof header) == 0);
    hold("a header that is an octet short: 12", haulspar_frame(message.at, 11, header) == HAULSPAR_FRAME_SHORT);
}

/* One recording, its memory and the last answer. */
static struct haulspar_record record;
static uint8_t places[HAULSPAR_PLACES_OCTETS], out[HAULSPAR_MESSAGE_OCTETS];
static uint64_t count;

static uint32_t join(const struct octets *line) {
    count = KEPT;
    memset(out, 0xA5, sizeof out);
    return haulspar_join(line->at, line->len, &record, places, sizeof places, out, sizeof out, &count);
}

/* The whole example: each line is decoded and joined, and its message is encoded. */
static void whole_example(void) {
    static const char *const lines[3] = {"47494F50010202000000000400000009", "47494F50010200070000000600000009ABCD", "47"};
    static const char *const messages[3] = {"", "47494F50010200000000000600000009ABCD", ""};
    static const uint32_t answers[3] = {HAULSPAR_HELD, HAULSPAR_JOINED, HAULSPAR_FRAME_SHORT};
    memset(&record, 0, sizeof record);
    for (int i = 0; i < 3; i++) {
        static uint8_t digits[2 * HAULSPAR_MESSAGE_OCTETS];
        char sample[64];
        uint64_t len = 0;
        struct octets line = of(lines[i]);
        uint32_t answer = join(&line);
        bool written = answer == HAULSPAR_OK || answer == HAULSPAR_JOINED || answer == HAULSPAR_CANCELLED;
        if (written) {
            haulspar_encode(out, count, digits, sizeof digits, &len);
        }
        snprintf(sample, sizeof sample, "the whole example, line %d", i + 1);
        hold(sample, answer == answers[i] && len == strlen(messages[i]) && memcmp(digits, messages[i], len) == 0);
        hold("where nothing is written, output and count stay", written || (count == KEPT && out[0] == 0xA5));
        hold("what is open", record.opened[0] == (i == 0) && !record.opened[1] && !record.opened[2] && !record.opened[3]);
    }
    struct octets cancel = of("47494F50 01020002 00000004 00000007");
    hold("a cancel of no open id: 0, written itself", join(&cancel) == HAULSPAR_OK && count == cancel.len && memcmp(out, cancel.at, cancel.len) == 0);
    struct octets first = of("47494F50 01020200 00000004 00000007");
    hold("a first fragment: 1", join(&first) == HAULSPAR_HELD);
    hold("its id again: 22", join(&first) == HAULSPAR_ID_OPEN);
    hold("a cancel of an open id: 3, written itself", join(&cancel) == HAULSPAR_CANCELLED && count == cancel.len && !record.opened[0]);
    hold("places that are an octet short: 28", haulspar_join(first.at, first.len, &record, places, sizeof places - 1, out, sizeof out, &count) ==
                                                   HAULSPAR_BAD_RECORD);
}

/* A fragment of so many octets, with a request id. */
static struct octets fragment(uint32_t head, size_t len) {
    struct octets octets = of("47494F50");
    put_ulong(&octets, head);
    put_ulong(&octets, (uint32_t)len - 12);
    put_ulong(&octets, 9);
    octets.len = len;
    return octets;
}

/* Joined messages of 16,384 and of 16,385 octets. */
static void joined_lengths(void) {
    for (size_t more = 0; more < 2; more++) {
        struct octets first = fragment(0x01020200, 4096), middle = fragment(0x01020207, 4096), last = fragment(0x01020007, 64 + more);
        memset(&record, 0, sizeof record);
        bool held = join(&first) == HAULSPAR_HELD && join(&middle) == HAULSPAR_HELD && join(&middle) == HAULSPAR_HELD &&
                    join(&middle) == HAULSPAR_HELD;
        uint32_t answer = join(&last);
        if (more == 0) {
            hold("joined 16,384", held && answer == HAULSPAR_JOINED && count == HAULSPAR_MESSAGE_OCTETS);
        } else {
            hold("joined 16,385: 26", held && answer == HAULSPAR_JOINED_TOO_LONG && count == KEPT && record.opened[0]);
        }
    }
}

/* Types. */
static uint16_t kind_places[HAULSPAR_KINDS], kind_starts[HAULSPAR_KINDS];
static uint8_t kind_orders[HAULSPAR_KINDS];

static void type(const char *sample, const struct octets *type, uint32_t answer, uint64_t used, uint64_t kinds) {
    uint64_t numbers[2] = {KEPT, KEPT};
    uint32_t found = haulspar_type(type->at, type->len, false, kind_places, kind_starts, kind_orders, numbers);
    hold(sample, found == answer && numbers[0] == used && numbers[1] == kinds);
}

/* A struct of so many longs: kind, length, order octet, id, name, count, and a name and a kind for each. */
static struct octets struct_of_longs(uint32_t members) {
    struct octets octets = of("0000000F 00000000 00000000 00000001 00000000 00000001 00000000");
    put_ulong(&octets, members);
    for (uint32_t i = 0; i < members; i++) {
        put_ulong(&octets, 1);
        put_ulong(&octets, 0);
        put_ulong(&octets, 3);
    }
    octets.at[6] = (uint8_t)((octets.len - 8) >> 8);
    octets.at[7] = (uint8_t)(octets.len - 8);
    return octets;
}

static const char T[] = "00000013 0000000C 00000000 00000003 00000000";

static void types(void) {
    struct octets octets = of(T);
    type("type T: used 20, k 2", &octets, HAULSPAR_OK, 20, 2);
    hold("type T: its kinds at 0 and 12, in encapsulations from 0 and 8", kind_places[0] == 0 && kind_places[1] == 12 && kind_places[2] == 0 &&
                                                                         kind_starts[0] == 0 && kind_starts[1] == 8 && kind_starts[2] == 0 &&
                                                                         kind_orders[0] == 0 && kind_orders[1] == 0);
    octets = of("00000013 00000010 00000000 FFFFFFFF FFFFFFF0 00000000");
    type("a sequence of itself: 36", &octets, HAULSPAR_BAD_TARGET, KEPT, KEPT);
    octets = of("");
    type("an empty type: 30", &octets, HAULSPAR_TYPE_ENDS, KEPT, KEPT);
    octets = struct_of_longs(63);
    type("64 kinds", &octets, HAULSPAR_OK, octets.len, HAULSPAR_KINDS);
    octets = struct_of_longs(64);
    type("65 kinds: 37", &octets, HAULSPAR_TOO_MANY_KINDS, KEPT, KEPT);
    octets.len = HAULSPAR_INPUT_OCTETS + 1;
    type("16,385 octets: 42", &octets, HAULSPAR_TOO_LONG, KEPT, KEPT);
    octets = of("0000000F 00000070 00000000 00000001 00000000 00000001 00000000 00000002 00000001 00000000 00000013 00000038 00000000"
                "0000000F 00000028 00000000 00000001 00000000 00000001 00000000 00000001 00000001 00000000 FFFFFFFF FFFFFFA0 00000000"
                "00000001 00000000 FFFFFFFF FFFFFFC0");
    type("struct A holds a sequence of struct B, B an indirection to A, A's second member one to B: 39", &octets, HAULSPAR_LOOP, KEPT, KEPT);
}

/* Values. */
static uint64_t table[HAULSPAR_TABLE_NUMBERS], numbers[2], visits;

static uint32_t value(const char *type, const char *value, size_t table_len) {
    struct octets t = of(type), v = of(value);
    numbers[0] = numbers[1] = visits = table[0] = KEPT;
    return haulspar_value(t.at, t.len, false, v.at, v.len, false, 0, table, table_len, numbers, &visits);
}

static void values(void) {
    static const uint64_t items[9] = {19, 0, 2, 3, 4, 1, 3, 8, (uint64_t)-1}, empty_text[3] = {18, 4, 0};
    hold("null of no octets: 1 visit, no items", value("00000000", "", 0) == HAULSPAR_OK && visits == 1 && numbers[0] == 0 && numbers[1] == 0);
    hold("T's items 2, 1, -1; 3 visits", value(T, "00000002 00000001 FFFFFFFF", 9) == HAULSPAR_OK && visits == 3 && numbers[0] == 12 &&
                                             numbers[1] == 3 && memcmp(table, items, sizeof items) == 0);
    hold("T's first eight octets: 50, 3 visits", value(T, "00000002 00000001", 9) == HAULSPAR_VALUE_ENDS && visits == 3 && numbers[0] == KEPT &&
                                                     table[0] == KEPT);
    hold("T with a table of 8 numbers: 56", value(T, "00000002 00000001 FFFFFFFF", 8) == HAULSPAR_NO_ITEM_ROOM && table[0] == KEPT);
    hold("a boolean of 2: 51, 1 visit", value("00000008", "02", 3) == HAULSPAR_BAD_BOOLEAN && visits == 1);
    hold("the empty text", value("00000012 00000000", "00000001 00", 3) == HAULSPAR_OK && numbers[0] == 5 && numbers[1] == 1 &&
                               memcmp(table, empty_text, sizeof empty_text) == 0);
    hold("a text of length 0: 53", value("00000012 00000000", "00000000", 3) == HAULSPAR_BAD_VALUE_TEXT);
    hold("a value of a type that is refused: 30, no visits", value("", "", 0) == HAULSPAR_TYPE_ENDS && visits == 0);
}

static bool item(uint64_t number, uint32_t answer, uint64_t which, uint64_t bits) {
    struct octets t = of(T), v = of("00000002 00000001 FFFFFFFF");
    uint64_t given[2] = {KEPT, KEPT};
    return haulspar_item(t.at, t.len, false, v.at, v.len, false, 0, number, given) == answer && given[0] == which && given[1] == bits;
}

static void single_items(void) {
    struct octets t = of("00000006"), v = of("0100A0FF");
    uint64_t given[2];
    hold("item 0 of T: unsigned 2", item(0, HAULSPAR_OK, 1, 2));
    hold("item 2 of T: signed -1", item(2, HAULSPAR_OK, 0, (uint64_t)-1));
    hold("item 3 of T: 49", item(3, HAULSPAR_NO_SUCH_ITEM, KEPT, KEPT));
    hold("a single of a little-endian value, by its bits",
         haulspar_item(t.at, t.len, false, v.at, v.len, true, 8, 0, given) == HAULSPAR_OK && given[0] == 2 && given[1] == 0xFFA00001);
}

/* Rewriting. */
static void rewriting(void) {
    static uint8_t result[HAULSPAR_REWRITTEN_OCTETS];
    const char little[] = "02000000 01000000 FFFFFFFF", big[] = "00000002 00000001 FFFFFFFF";
    struct octets t = of(T), v = of(big);
    uint64_t len = KEPT;
    hold("T's value rewritten little", haulspar_rewrite(t.at, t.len, false, v.at, v.len, false, 0, true, 0, result, sizeof result, &len) ==
                                               HAULSPAR_OK && same(result, len, little));
    hold("and back, from indices 3 and 11, which are the same",
         haulspar_rewrite(t.at, t.len, false, result, len, true, 0, false, 3, result + 64, 64, &len) == HAULSPAR_OK &&
             same(result + 64, len, "00 00000002 00000001 FFFFFFFF") &&
             haulspar_rewrite(t.at, t.len, false, result + 64, len, false, 11, false, 0, result, 64, &len) == HAULSPAR_OK &&
             same(result, len, big));
    hold("no order named: big", haulspar_rewrite_unnamed(t.at, t.len, false, v.at, v.len, false, 0, 0, result, sizeof result, &len) ==
                                        HAULSPAR_OK && same(result, len, big));
    len = KEPT;
    result[0] = 0xA5;
    hold("an output that is an octet short: 57",
         haulspar_rewrite_unnamed(t.at, t.len, false, v.at, v.len, false, 0, 0, result, 11, &len) == HAULSPAR_NO_OUTPUT_ROOM && len == KEPT &&
             result[0] == 0xA5);
}

/* Profile bodies: one that an ORB wrote, and a short one of 1.0. */
static void profiles(void) {
    struct octets orb = of("010102000D000000686F73742E6578616D706C650000D204030000006B6579000200000000000000080000000100000000545441"
                           "010000001C00000001000000010001000100000001000105090101000100000009010100");
    struct octets old = of("000100000000000268000001000000016B00");
    static const uint64_t said[10] = {1, 1, 2, 8, 12, 1234, 28, 3, 2, 0}, second[3] = {1, 60, 28};
    uint64_t ten[10], found[3] = {KEPT, KEPT, KEPT};
    hold("a profile of 1.2 and its numbers", haulspar_profile(orb.at, orb.len, ten) == HAULSPAR_OK && memcmp(ten, said, sizeof ten) == 0);
    hold("its host and key, where they stand", memcmp(orb.at + ten[3], "host.example", ten[4]) == 0 && memcmp(orb.at + ten[6], "key", ten[7]) == 0);
    hold("component 2 of 2: 69", haulspar_component(orb.at, orb.len, 2, found) == HAULSPAR_NO_SUCH_COMPONENT && found[0] == KEPT);
    hold("component 1", haulspar_component(orb.at, orb.len, 1, found) == HAULSPAR_OK && memcmp(found, second, sizeof found) == 0);
    hold("an octet after the key in 1.0: 64", haulspar_profile(old.at, old.len, ten) == HAULSPAR_AFTER_KEY);
    hold("and without it", haulspar_profile(old.at, old.len - 1, ten) == HAULSPAR_OK && ten[5] == 1 && ten[8] == 0);
    hold("no octets: 60", haulspar_profile(old.at, 0, ten) == HAULSPAR_PROFILE_ENDS);
}

/* Whether a header is answered so; a refusal leaves the numbers. */
static bool header(const struct octets *message, uint32_t answer, const uint64_t *expected) {
    uint64_t kept[HAULSPAR_HEADER_NUMBERS], found[HAULSPAR_HEADER_NUMBERS];
    memset(kept, 0xA5, sizeof kept);
    memset(found, 0xA5, sizeof found);
    return haulspar_header(message->at, message->len, found) == answer &&
           memcmp(found, answer == HAULSPAR_OK ? expected : kept, sizeof found) == 0;
}

static void header_fault(const char *sample, struct octets message, size_t index, uint8_t octet, uint32_t answer) {
    message.at[index] = octet;
    hold(sample, header(&message, answer, NULL));
}

/* A request to a key, as an ORB wrote it; one to the second of a reference's two profiles, with no body; and one and a reply of 1.0. */
static const char to_key[] = "47494F50010201005600000004000000030000000000000012000000FF6465657020706F61006563686F206F6E65000005000000"
                             "746578740000000001000000010000000C000000010000000100010009010100000000000600000068656C6C6F00";
static const char to_reference[] = "47494F50 01020000 0000003C 00000007 01DEADBE 0002FFFF 00000001 00000002 4900FFFF 00000002 00000000 00000003"
                                   "010203FF 00000001 00000000 00000003 676F00FF 00000000";
static const char of_1_0[] = "47494F50 01000000 00000022 00000000 00000005 01000000 00000001 6B000000 00000002 67000000 00000002 7070";
static const char reply[] = "47494F50 01000101 10000000 00000000 0C000000 01000000 FFFFFFFF";

static void headers(void) {
    struct octets key = of(to_key), reference = of(to_reference), old = of(of_1_0), answered = of(reply);
    static const uint64_t key_said[HAULSPAR_HEADER_NUMBERS] = {0, 2, 1, 4, 3, 0, 0, 0, 28, 18, 0, 52, 4, 0, 0, 1, 88};
    static const uint64_t reference_said[HAULSPAR_HEADER_NUMBERS] = {0, 2, 0, 7, 1, 0, 2, 1, 32, 1, 2, 64, 2, 0, 0, 0, 72};
    static const uint64_t old_said[HAULSPAR_HEADER_NUMBERS] = {0, 0, 0, 5, 1, 0, 0, 0, 28, 1, 0, 36, 1, 44, 2, 0, 46};
    static const uint64_t reply_said[HAULSPAR_HEADER_NUMBERS] = {1, 0, 1, 12, 0, 1, 0, 0, 0, 0, 0, 0, 0, 0, 0, 0, 24};
    hold("a request to a key", header(&key, HAULSPAR_OK, key_said) && memcmp(key.at + key_said[HAULSPAR_HEADER_OPERATION_INDEX], "text", 4) == 0);
    hold("a request to a reference, without a body", header(&reference, HAULSPAR_OK, reference_said));
    hold("a request of 1.0 and its principal", header(&old, HAULSPAR_OK, old_said));
    hold("a reply of 1.0", header(&answered, HAULSPAR_OK, reply_said));
    header_fault("a version that is none: 14", key, 5, 9, HAULSPAR_NO_SUCH_VERSION);
    header_fault("a LocateRequest: 75", reference, 7, 3, HAULSPAR_NO_HEADER);
    header_fault("the more flag: 75", reference, 6, 2, HAULSPAR_NO_HEADER);
    header_fault("flags of 2: 71", reference, 16, 2, HAULSPAR_NO_SUCH_RESPONSE);
    header_fault("a fourth kind of target: 72", reference, 21, 3, HAULSPAR_NO_SUCH_TARGET);
    header_fault("an operation of length 0: 73", reference, 63, 0, HAULSPAR_BAD_OPERATION);
    header_fault("a context too many: 70", reference, 71, 1, HAULSPAR_HEADER_ENDS);
    header_fault("status 4 in 1.0: 74", answered, 20, 4, HAULSPAR_NO_SUCH_STATUS);
    key.len = HAULSPAR_INPUT_OCTETS + 1;
    hold("a message of 16,385 octets: 42", header(&key, HAULSPAR_TOO_LONG, NULL));
}

static void header_parts(void) {
    static uint8_t before_body[HAULSPAR_MESSAGE_OCTETS];
    struct octets key = of(to_key), reference = of(to_reference);
    static const uint64_t context[3] = {1, 72, 12}, profile[3] = {1, 60, 0};
    uint64_t found[3] = {KEPT, KEPT, KEPT}, len = KEPT;
    hold("context 1 of 1: 69", haulspar_context(key.at, key.len, 1, found) == HAULSPAR_NO_SUCH_COMPONENT && found[0] == KEPT);
    hold("a profile of a key: 69", haulspar_target(key.at, key.len, 0, found) == HAULSPAR_NO_SUCH_COMPONENT && found[0] == KEPT);
    hold("context 0", haulspar_context(key.at, key.len, 0, found) == HAULSPAR_OK && memcmp(found, context, sizeof found) == 0);
    hold("profile 1", haulspar_target(reference.at, reference.len, 1, found) == HAULSPAR_OK && memcmp(found, profile, sizeof found) == 0);
    before_body[0] = 0xA5;
    hold("an output that is an octet short: 76", haulspar_head(reference.at, reference.len, before_body, 71, &len) == HAULSPAR_NO_HEAD_ROOM &&
                                                     len == KEPT && before_body[0] == 0xA5);
    hold("all before the body, gaps and reserved octets zero",
         haulspar_head(reference.at, reference.len, before_body, sizeof before_body, &len) == HAULSPAR_OK &&
             same(before_body, len, "47494F50 01020000 0000003C 00000007 01000000 00020000 00000001 00000002 49000000 00000002 00000000 00000003"
                                    "01020300 00000001 00000000 00000003 676F0000 00000000"));
}

int main(void) {
    lines();
    whole_example();
    joined_lengths();
    types();
    values();
    single_items();
    rewriting();
    profiles();
    headers();
    header_parts();
    printf("%d passed, %d failed\n", passed, failed);
    return failed != 0;
}
