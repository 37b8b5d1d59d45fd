/* The C interface of Haulspar, for C and C++ on x86-64. Link target/staticlib/libhaulspar.a, which ./archive proves and writes.
 *
 * Each function returns a number of papers 01 and 02, named below: HAULSPAR_OK (of haulspar_join one of four answers), or a refusal's number.
 * docs/ANSWERS.md explains every number.
 *
 * Lent memory. A slice is a pointer and a length in elements. A pointer is never null, also where the length is 0; it is aligned for its
 * elements. What is lent for writing overlaps nothing else that is lent. A refusal leaves all that was lent as it was, but for the visits of
 * haulspar_value; so does answer 1 of haulspar_join, but for the record and the places. What an answer does not fill keeps its contents, also
 * behind the octets written. No function keeps a pointer, allocates, or has state of its own: calls from several threads need nothing between
 * them, unless they lend the same memory for writing.
 *
 * Flags. `little` = true says little-endian, false big-endian; of a type it is the order at the top, since each encapsulation inside has its
 * own. A bool must be 0 or 1.
 *
 * Indices. `start` and `index` say where the first octet stands for alignment. They are taken modulo 8, so any size_t will do.
 *
 * Stack. HAULSPAR_..._STACK_OCTETS is enough for a call. Behind each function stands what was measured, in octets: examples/link/stack.c fills
 * a thread's stack with a pattern, calls the function with the deepest types and values there are, and counts the octets that changed. `.ci/run`
 * runs it and fails where a measure is above its constant.
 */
#ifndef HAULSPAR_H
#define HAULSPAR_H

#include <stdbool.h>
#include <stddef.h>
#include <stdint.h>

#ifdef __cplusplus
extern "C" {
#endif

/* Sizes that are always enough, or the most there can be. */
enum {
    HAULSPAR_LINE_DIGITS = 8192,                /* the most digits of a line; above it 10 */
    HAULSPAR_LINE_OCTETS = 4096,                /* the most octets of a line's message; `out` of haulspar_decode */
    HAULSPAR_MESSAGE_OCTETS = 16384,            /* the most octets of a joined message; `out` of haulspar_join and of haulspar_head */
    HAULSPAR_OPEN_MESSAGES = 4,                 /* the messages that may be open at once */
    HAULSPAR_PLACES_OCTETS = 4 * 16384,         /* `places` of haulspar_join; with fewer octets it answers 28 */
    HAULSPAR_INPUT_OCTETS = 16384,              /* the most octets of a type, a value, a profile body or a message whose header is read; above it 42 */
    HAULSPAR_KINDS = 64,                        /* the most kinds of a type */
    HAULSPAR_TABLE_NUMBERS = 3 * 16384,         /* `table` of haulspar_value: 3 numbers an item, and never more items than octets */
    HAULSPAR_REWRITTEN_OCTETS = 16384 + 7,      /* `out` of haulspar_rewrite: never more than 7 octets above those read of the value */
    HAULSPAR_MESSAGE_STACK_OCTETS = 16 * 1024,  /* the stack that a call about lines or messages needs */
    HAULSPAR_TYPE_STACK_OCTETS = 160 * 1024,    /* haulspar_type */
    HAULSPAR_VALUE_STACK_OCTETS = 256 * 1024,   /* haulspar_value, haulspar_item */
    HAULSPAR_REWRITE_STACK_OCTETS = 704 * 1024, /* haulspar_rewrite, haulspar_rewrite_unnamed */
    HAULSPAR_PROFILE_STACK_OCTETS = 16 * 1024,  /* haulspar_profile, haulspar_component */
    HAULSPAR_HEADER_STACK_OCTETS = 16 * 1024    /* haulspar_header, haulspar_context, haulspar_target, haulspar_head */
};

/* What is returned. Refusals are in the order of their numbers; where several would do, the papers' order decides. */
enum haulspar_number {
    HAULSPAR_OK = 0,                          /* accepted; of haulspar_join: a whole message, written */
    HAULSPAR_HELD = 1,                        /* haulspar_join: a fragment, held in the places; nothing written */
    HAULSPAR_JOINED = 2,                      /* haulspar_join: a last fragment; the joined message is written */
    HAULSPAR_CANCELLED = 3,                   /* haulspar_join: a CancelRequest that closed an open message; it is written itself */

    HAULSPAR_LINE_TOO_LONG = 10,              /* a line over 8,192 characters, or a line's message over 4,096 octets */
    HAULSPAR_NOT_DIGITS = 11,                 /* an odd count of characters, or one that is no hexadecimal digit */
    HAULSPAR_FRAME_SHORT = 12,                /* under 12 octets */
    HAULSPAR_NOT_GIOP = 13,                   /* the first four octets are not GIOP */
    HAULSPAR_NO_SUCH_VERSION = 14,            /* not 1.0, 1.1 or 1.2 */
    HAULSPAR_NO_SUCH_FLAGS = 15,              /* flags that the version lacks */
    HAULSPAR_NO_SUCH_TYPE = 16,               /* a message type that the version lacks */
    HAULSPAR_SIZE_ABOVE = 17,                 /* a size above the octets after the header */
    HAULSPAR_SIZE_BELOW = 18,                 /* a size below them */
    HAULSPAR_SIZE_OF_TYPE = 19,               /* a size that the message type cannot have */
    HAULSPAR_NO_FRAGMENTS = 20,               /* a fragment, or the more flag, where there are none */
    HAULSPAR_NOT_IN_EIGHTS = 21,              /* the more flag, and a message that is no multiple of 8 octets */
    HAULSPAR_ID_OPEN = 22,                    /* the request id of an open message */
    HAULSPAR_NO_PLACE_FREE = 23,              /* a first fragment when four messages are open */
    HAULSPAR_ID_NOT_OPEN = 24,                /* a fragment whose request id is not open */
    HAULSPAR_FIRST_DIFFERS = 25,              /* another minor version or byte order than the first fragment's */
    HAULSPAR_JOINED_TOO_LONG = 26,            /* the joined message would pass 16,384 octets */
    HAULSPAR_NO_ROOM = 27,                    /* `out` is shorter than what is to be written */
    HAULSPAR_BAD_RECORD = 28,                 /* a record with an id open twice, a place too short, or an open length not 16 to 16,384 */

    HAULSPAR_TYPE_ENDS = 30,                  /* the octets of the TypeCode or of an encapsulation end */
    HAULSPAR_NO_SUCH_KIND = 31,               /* a kind that is not listed */
    HAULSPAR_BAD_TYPE_TEXT = 32,              /* a text of length 0, without a last zero octet, or with an earlier one */
    HAULSPAR_BAD_ENCAPSULATION = 33,          /* a length of 0 or too much, an order octet above 1, or parameters that end elsewhere */
    HAULSPAR_NO_COUNT = 34,                   /* a count or a length of 0 */
    HAULSPAR_BAD_UNION = 35,                  /* a discriminant, a label or a default that cannot be */
    HAULSPAR_BAD_TARGET = 36,                 /* an indirection to no kind met, or to one being read that is no struct or union */
    HAULSPAR_TOO_MANY_KINDS = 37,             /* a 65th kind */
    HAULSPAR_TOO_DEEP = 38,                   /* types more than 16 deep */
    HAULSPAR_LOOP = 39,                       /* a kind that contains itself outside of any sequence */
    HAULSPAR_BELOW_TOP = 40,                  /* null, void or an exception below the top */
    HAULSPAR_TOO_LONG = 42,                   /* a type, a value, a profile body or a message over 16,384 octets */

    HAULSPAR_NO_SUCH_ITEM = 49,               /* an item's number that is not below their count */
    HAULSPAR_VALUE_ENDS = 50,                 /* the octets of the value end */
    HAULSPAR_BAD_BOOLEAN = 51,                /* a boolean above 1 */
    HAULSPAR_NO_SUCH_NAME = 52,               /* an enum not below the number of its names */
    HAULSPAR_BAD_VALUE_TEXT = 53,             /* as 32, in a value */
    HAULSPAR_OVER_BOUND = 54,                 /* a text or a sequence over its bound */
    HAULSPAR_TOO_MANY_OPEN = 55,              /* a visit with 64 open above it */
    HAULSPAR_NO_ITEM_ROOM = 56,               /* no room in the table for a finished item */
    HAULSPAR_NO_OUTPUT_ROOM = 57,             /* `out` is shorter than the value rewritten */

    HAULSPAR_PROFILE_ENDS = 60,               /* the octets of the profile body end */
    HAULSPAR_NO_SUCH_ORDER = 61,              /* an order octet above 1 */
    HAULSPAR_NO_SUCH_PROFILE_VERSION = 62,    /* not 1.0 to 1.2 */
    HAULSPAR_BAD_HOST = 63,                   /* as 32, in the host */
    HAULSPAR_AFTER_KEY = 64,                  /* octets after the key in 1.0 */
    HAULSPAR_NO_SUCH_COMPONENT = 69,          /* the number of a component, a context or a target's profile that is not below their count */

    HAULSPAR_HEADER_ENDS = 70,                /* the octets of the header end, also inside the gap before a body */
    HAULSPAR_NO_SUCH_RESPONSE = 71,           /* a response boolean or flags that the version lacks */
    HAULSPAR_NO_SUCH_TARGET = 72,             /* a target that is no key, profile or reference */
    HAULSPAR_BAD_OPERATION = 73,              /* as 32, in the operation or in a reference's type id */
    HAULSPAR_NO_SUCH_STATUS = 74,             /* a reply's status that the version lacks */
    HAULSPAR_NO_HEADER = 75,                  /* a message that is no Request or Reply, or the more flag */
    HAULSPAR_NO_HEAD_ROOM = 76                /* `out` is shorter than the octets before the body */
};

/* Lines and messages. */

/* A line's characters, without its line end, to octets in `out`, and their number in `count`: 0, 10, 11, or 27 where `out` is too short. Digits
 * may be of either case. HAULSPAR_LINE_OCTETS are always enough. Stack: 128. */
uint32_t haulspar_decode(const uint8_t *line, size_t line_len, uint8_t *out, size_t out_len, uint64_t *count);

/* Octets to upper-case digits in `out`, and their number in `count`: 0, or 27 where `out` has fewer than 2 * octets_len. Stack: 128. */
uint32_t haulspar_encode(const uint8_t *octets, size_t octets_len, uint8_t *out, size_t out_len, uint64_t *count);

/* A message's octets judged: 0, 10, or 12 to 21. `header` gets minor version, order (0 big, 1 little), more flag (0 or 1), type, size, whether
 * there is a request id (0 or 1), request id (0 where there is none). Stack: 128. */
uint32_t haulspar_frame(const uint8_t *octets, size_t octets_len, uint64_t header[7]);

/* The open messages of one recording: of each of the four places the request id, the length in octets, and whether there is one. All zero is
 * a recording of which nothing was read yet. A caller need not look into it, and what is not open may hold anything. */
struct haulspar_record {
    uint32_t ids[HAULSPAR_OPEN_MESSAGES];
    size_t lengths[HAULSPAR_OPEN_MESSAGES];
    bool opened[HAULSPAR_OPEN_MESSAGES];
};

/* A line's octets joined: 0 whole message, 1 held, 2 joined, 3 cancelled; 10, or 12 to 28. `places` are four places of 16,384 octets, one after
 * the other, and hold the octets of open messages between calls. Answers 0, 2 and 3 write a message to `out` from its start, and the number of
 * its octets to `count`; answer 1 writes nothing there and leaves `count`. HAULSPAR_MESSAGE_OCTETS are always enough. Stack: 448. */
uint32_t haulspar_join(const uint8_t *octets, size_t octets_len, struct haulspar_record *record, uint8_t *places, size_t places_len,
                       uint8_t *out, size_t out_len, uint64_t *count);

/* Types and values. */

/* A TypeCode checked: 0, 30 to 40, or 42. `numbers` gets octets used and kinds written (k). Of each kind met, in the order of the octets,
 * `places` gets its place in the TypeCode, `starts` where the encapsulation that it stands in starts there, and `orders` that one's order
 * (0 big, 1 little); all three are 0 past the last. Stack: 146,584. */
uint32_t haulspar_type(const uint8_t *octets, size_t octets_len, bool little, uint16_t places[HAULSPAR_KINDS],
                       uint16_t starts[HAULSPAR_KINDS], uint8_t orders[HAULSPAR_KINDS], uint64_t numbers[2]);

/* A value read into the table: 0, 42, 30 to 40, or 50 to 56. Item i is the three numbers at 3 * i: kind (256 for an octet run), place in the value's
 * octets, content (signed ones sign-extended, floats as their bits, of texts and runs the length). `table_len` counts 64-bit numbers, not octets
 * or items: there is room for table_len / 3 items. `numbers` gets octets used and items, `visits` the visits begun, of a refusal too (0 where the
 * type is refused, or by 42). HAULSPAR_TABLE_NUMBERS are always enough, and so are 3 * value_len. Stack: 178,056. */
uint32_t haulspar_value(const uint8_t *type, size_t type_len, bool little, const uint8_t *value, size_t value_len, bool value_little,
                        size_t start, uint64_t *table, size_t table_len, uint64_t numbers[2], uint64_t *visits);

/* An item of a value by its number, the first one 0: 0, 42, 30 to 40, 50 to 55, or 49. `given` gets which case it is (0 signed, 1 unsigned,
 * 2 single, 3 double) and its 64 bits: a signed one sign-extended, a single's 32 bits as they were recorded. Stack: 178,056. */
uint32_t haulspar_item(const uint8_t *type, size_t type_len, bool little, const uint8_t *value, size_t value_len, bool value_little,
                       size_t start, uint64_t number, uint64_t given[2]);

/* A value rewritten in a chosen order and from a chosen index on: 0, 42, 30 to 40, 50 to 55, or 57 where `out` is too short. `count` gets the
 * number of octets. HAULSPAR_REWRITTEN_OCTETS are always enough, and so are value_len + 7. Stack: 571,624. */
uint32_t haulspar_rewrite(const uint8_t *type, size_t type_len, bool little, const uint8_t *value, size_t value_len, bool value_little,
                          size_t start, bool chosen_little, size_t index, uint8_t *out, size_t out_len, uint64_t *count);

/* The same where no order is named, which means big-endian. Stack: 571,624. */
uint32_t haulspar_rewrite_unnamed(const uint8_t *type, size_t type_len, bool little, const uint8_t *value, size_t value_len,
                                  bool value_little, size_t start, size_t index, uint8_t *out, size_t out_len, uint64_t *count);

/* Profile bodies. */

/* A profile body read, from its order octet on: 0, 42, or 60 to 64. `numbers` gets order (0 big, 1 little), major, minor, the index of the host's
 * first octet and its length without its zero, port, the index of the key's first octet and its length, number of components, number of octets after
 * them. Indices are those of `octets`, so host and key are the caller's own octets. Stack: 376. */
uint32_t haulspar_profile(const uint8_t *octets, size_t octets_len, uint64_t numbers[10]);

/* A component of a profile body by its number, the first one 0: 0, 42, 60 to 64, or 69. `found` gets its tag, the index of its octets'
 * first one, and their length. Stack: 408. */
uint32_t haulspar_component(const uint8_t *octets, size_t octets_len, uint64_t number, uint64_t found[3]);

/* Request and Reply headers, of a whole or joined message. Refusals are tried in this order: 42, 12 to 21, 75; then 70 to 74, the first one met in the
 * order of the octets; last 69 or 76. */

/* What `numbers` of haulspar_header holds, by index. What a message hasn't is 0. Indices are those of `octets`, so texts and octets are the caller's
 * own; a text's length is without its zero. */
enum {
    HAULSPAR_HEADER_TYPE = 0,              /* 0 a request, 1 a reply */
    HAULSPAR_HEADER_MINOR = 1,             /* minor version */
    HAULSPAR_HEADER_ORDER = 2,             /* 0 big, 1 little */
    HAULSPAR_HEADER_ID = 3,                /* request id */
    HAULSPAR_HEADER_RESPONSE = 4,          /* a request's response boolean, 0 or 1; from 1.2 on its flags, 0, 1 or 3 */
    HAULSPAR_HEADER_STATUS = 5,            /* a reply's status, 0 to 3; from 1.2 on 0 to 5 */
    HAULSPAR_HEADER_TARGET_KIND = 6,       /* what a request is addressed to: 0 a key, always so before 1.2; 1 a profile; 2 a reference */
    HAULSPAR_HEADER_TARGET_NUMBER = 7,     /* the profile's tag, or which profile of the reference is meant, as recorded: it may not be there */
    HAULSPAR_HEADER_TARGET_INDEX = 8,      /* the first octet of the key, of the profile's octets, or of the reference's type id */
    HAULSPAR_HEADER_TARGET_LENGTH = 9,     /* and their number */
    HAULSPAR_HEADER_TARGET_PROFILES = 10,  /* number of the reference's profiles, for haulspar_target */
    HAULSPAR_HEADER_OPERATION_INDEX = 11,  /* the first character of a request's operation */
    HAULSPAR_HEADER_OPERATION_LENGTH = 12, /* and their number */
    HAULSPAR_HEADER_PRINCIPAL_INDEX = 13,  /* the first octet of a request's principal, before 1.2 */
    HAULSPAR_HEADER_PRINCIPAL_LENGTH = 14, /* and their number */
    HAULSPAR_HEADER_CONTEXTS = 15,         /* number of contexts, for haulspar_context */
    HAULSPAR_HEADER_BODY = 16,             /* the first octet of the body; of an empty one the message's end */
    HAULSPAR_HEADER_NUMBERS = 17           /* so many numbers */
};

/* A header read: 0, 42, 12 to 21, 75, or 70 to 74. `numbers` gets what the constants above name. Stack: 496. */
uint32_t haulspar_header(const uint8_t *octets, size_t octets_len, uint64_t numbers[HAULSPAR_HEADER_NUMBERS]);

/* A context of a header by its number, the first one 0: 0, 42, 12 to 21, 75, 70 to 74, or 69. `found` gets its id, the index of its octets' first
 * one, and their length. Stack: 576. */
uint32_t haulspar_context(const uint8_t *octets, size_t octets_len, uint64_t number, uint64_t found[3]);

/* A profile of the reference that a request is addressed to, by its number, the first one 0: 0, 42, 12 to 21, 75, 70 to 74, or 69, also where the
 * message is no request or its target no reference. `found` gets its tag, the index of its octets' first one, and their length. With tag 0 these
 * octets are a body for haulspar_profile. Stack: 576. */
uint32_t haulspar_target(const uint8_t *octets, size_t octets_len, uint64_t number, uint64_t found[3]);

/* All octets of a message before its body written to `out`, gaps and reserved octets zero, and their number in `count`: 0, 42, 12 to 21, 75, 70 to 74,
 * or 76 where `out` is too short. HAULSPAR_MESSAGE_OCTETS are always enough, and so are octets_len. Stack: 656. */
uint32_t haulspar_head(const uint8_t *octets, size_t octets_len, uint8_t *out, size_t out_len, uint64_t *count);

#ifdef __cplusplus
}
#endif

#endif
