/* Measures the stack that a call needs: fills a thread's stack with a pattern, calls each function of haulspar.h, and counts the octets from the
 * caller's frame down to the last that no longer holds the pattern. Types are nested 16 deep and values 64, through each kind that holds others.
 * Prints the most of each function beside what haulspar.h says, and last 'N passed, M failed'. */
#define _GNU_SOURCE /* for pthread_attr_setstack */
#include <pthread.h>
#include <stdio.h>
#include <stdlib.h>
#include <string.h>

#include "haulspar.h"

#define STACK (1 << 20)
#define PATTERN 0xA5
#define OWN 128 /* the octets of its own frame that the caller leaves alone */

struct octets {
    uint8_t at[HAULSPAR_INPUT_OCTETS];
    size_t len;
};

static uint8_t *stack;
static size_t used;
static void (*call)(void);

static void *called(void *unused) {
    uint8_t *frame = __builtin_frame_address(0), *last;
    for (volatile uint8_t *octet = stack; octet < frame - OWN; octet++) {
        *octet = PATTERN;
    }
    call();
    last = stack;
    while (*last == PATTERN) {
        last++;
    }
    used = (size_t)(frame - last);
    return unused;
}

/* The octets of stack that a call needs. */
static size_t measure(void (*function)(void)) {
    pthread_t thread;
    pthread_attr_t attributes;
    call = function;
    if (pthread_attr_init(&attributes) != 0 || pthread_attr_setstack(&attributes, stack, STACK) != 0 ||
        pthread_create(&thread, &attributes, called, NULL) != 0 || pthread_join(thread, NULL) != 0) {
        abort();
    }
    return used;
}

/* What is lent to the calls. */
static struct octets type, value;
static struct haulspar_record record;
static uint8_t line[HAULSPAR_LINE_DIGITS], places[HAULSPAR_PLACES_OCTETS], out[2 * HAULSPAR_MESSAGE_OCTETS];
static uint16_t kind_places[HAULSPAR_KINDS], kind_starts[HAULSPAR_KINDS];
static uint8_t kind_orders[HAULSPAR_KINDS];
static uint64_t table[HAULSPAR_TABLE_NUMBERS], numbers[HAULSPAR_HEADER_NUMBERS], count;
static uint32_t answer;

static void decode(void) { answer = haulspar_decode(line, sizeof line, out, sizeof out, &count); }
static void encode(void) { answer = haulspar_encode(value.at, value.len, out, sizeof out, &count); }
static void frame(void) { answer = haulspar_frame(value.at, value.len, numbers); }
static void join(void) { answer = haulspar_join(value.at, value.len, &record, places, sizeof places, out, sizeof out, &count); }
static void check(void) { answer = haulspar_type(type.at, type.len, false, kind_places, kind_starts, kind_orders, numbers); }
static void read(void) {
    answer = haulspar_value(type.at, type.len, false, value.at, value.len, false, 0, table, HAULSPAR_TABLE_NUMBERS, numbers, &count);
}
static void item(void) { answer = haulspar_item(type.at, type.len, false, value.at, value.len, false, 0, UINT64_MAX, numbers); }
static void rewrite(void) {
    answer = haulspar_rewrite(type.at, type.len, false, value.at, value.len, false, 0, true, 5, out, sizeof out, &count);
}
static void rewrite_unnamed(void) {
    answer = haulspar_rewrite_unnamed(type.at, type.len, false, value.at, value.len, false, 0, 5, out, sizeof out, &count);
}
static void profile(void) { answer = haulspar_profile(value.at, value.len, numbers); }
static void component(void) { answer = haulspar_component(value.at, value.len, 1, numbers); }
static void header(void) { answer = haulspar_header(value.at, value.len, numbers); }
static void context(void) { answer = haulspar_context(value.at, value.len, 1, numbers); }
static void target(void) { answer = haulspar_target(value.at, value.len, 1, numbers); }
static void head(void) { answer = haulspar_head(value.at, value.len, out, sizeof out, &count); }

static void put(struct octets *octets, uint32_t number) {
    while (octets->len % 4 != 0) {
        octets->at[octets->len++] = 0;
    }
    for (int shift = 24; shift >= 0; shift -= 8) {
        octets->at[octets->len++] = (uint8_t)(number >> shift);
    }
}

/* Puts a text that is empty. */
static void put_text(void) {
    put(&type, 1);
    type.at[type.len++] = 0;
}

/* Puts a kind and the beginning of its encapsulation, with an id and a name unless it is a sequence or an array; gives the length's place. */
static size_t open_kind(uint32_t kind) {
    put(&type, kind);
    size_t length = type.len;
    put(&type, 0);
    type.at[type.len++] = 0;
    if (kind != 19 && kind != 20) {
        put_text();
        put_text();
    }
    return length;
}

static void close_kind(size_t length) {
    size_t inside = type.len - length - 4;
    type.at[length + 2] = (uint8_t)(inside >> 8);
    type.at[length + 3] = (uint8_t)inside;
}

/* Puts a kind that holds no other: l a long, t a text, o an objref, n an enum of two names. */
static void put_leaf(char leaf) {
    size_t length;
    switch (leaf) {
    case 't':
        put(&type, 18);
        put(&type, 0);
        break;
    case 'o':
        close_kind(open_kind(14));
        break;
    case 'n':
        length = open_kind(17);
        put(&type, 2);
        put_text();
        put_text();
        close_kind(length);
        break;
    default:
        put(&type, 3);
    }
}

/* Puts kinds that hold one another: s a struct of what follows, l t o n a struct of such a leaf and of what follows, u a union, q a sequence,
 * a an array, d an alias; innermost a leaf, or by an indirection the first kind again. */
static void put_kinds(const char *kinds, char leaf) {
    size_t length;
    switch (*kinds) {
    case 0:
        if (leaf == 'i') {
            put(&type, UINT32_MAX);
            put(&type, (uint32_t) - (int32_t)type.len);
        } else {
            put_leaf(leaf);
        }
        return;
    case 'u':
        length = open_kind(16);
        put(&type, 8); /* by a boolean, without a default, one member for false */
        put(&type, UINT32_MAX);
        put(&type, 1);
        put(&type, 0);
        put_text();
        break;
    case 'q':
        length = open_kind(19);
        break;
    case 'a':
        length = open_kind(20);
        break;
    case 'd':
        length = open_kind(21);
        break;
    default:
        length = open_kind(15);
        put(&type, *kinds == 's' ? 1 : 2);
        put_text();
        if (*kinds != 's') {
            put_leaf(*kinds);
            put_text();
        }
    }
    put_kinds(kinds + 1, leaf);
    if (*kinds == 'q' || *kinds == 'a') {
        put(&type, *kinds == 'a');
    }
    close_kind(length);
}

/* The functions, the stack that haulspar.h says is enough, and the most that was measured. */
static struct {
    const char *name;
    void (*function)(void);
    size_t said, most;
} functions[] = {
    {"haulspar_decode", decode, HAULSPAR_MESSAGE_STACK_OCTETS, 0},
    {"haulspar_encode", encode, HAULSPAR_MESSAGE_STACK_OCTETS, 0},
    {"haulspar_frame", frame, HAULSPAR_MESSAGE_STACK_OCTETS, 0},
    {"haulspar_join", join, HAULSPAR_MESSAGE_STACK_OCTETS, 0},
    {"haulspar_type", check, HAULSPAR_TYPE_STACK_OCTETS, 0},
    {"haulspar_value", read, HAULSPAR_VALUE_STACK_OCTETS, 0},
    {"haulspar_item", item, HAULSPAR_VALUE_STACK_OCTETS, 0},
    {"haulspar_rewrite", rewrite, HAULSPAR_REWRITE_STACK_OCTETS, 0},
    {"haulspar_rewrite_unnamed", rewrite_unnamed, HAULSPAR_REWRITE_STACK_OCTETS, 0},
    {"haulspar_profile", profile, HAULSPAR_PROFILE_STACK_OCTETS, 0},
    {"haulspar_component", component, HAULSPAR_PROFILE_STACK_OCTETS, 0},
    {"haulspar_header", header, HAULSPAR_HEADER_STACK_OCTETS, 0},
    {"haulspar_context", context, HAULSPAR_HEADER_STACK_OCTETS, 0},
    {"haulspar_target", target, HAULSPAR_HEADER_STACK_OCTETS, 0},
    {"haulspar_head", head, HAULSPAR_HEADER_STACK_OCTETS, 0},
};
enum { FUNCTIONS = sizeof functions / sizeof functions[0], FIRST_OF_VALUES = 4, LAST_OF_VALUES = 8, LAST_OF_PROFILES = 10 };

/* Measures some of the functions with what is lent now. */
static void measure_all(size_t first, size_t last) {
    for (size_t i = first; i <= last; i++) {
        size_t most = measure(functions[i].function);
        if (most > functions[i].most) {
            functions[i].most = most;
        }
    }
}

/* Types and values. In the value every count, length, tag and enum is 1, every boolean and text octet 0: one element inside another as deep as
 * it goes, which ends with 55 in types that hold themselves. */
static void types_and_values(void) {
    static const char *const again[] = {"sq", "uq", "lq", "tq", "oq", "nq", "suq", "saq", "sdq", "uaq", "udq", "oaq",
                                        "oduaq", "ssssssssssssssq", "sssssssssssssssq"};
    static const char *const nested[] = {"sssssssssssssss", "uuuuuuuuuuuuuuu", "qqqqqqqqqqqqqqq", "aaaaaaaaaaaaaaa", "ddddddddddddddd",
                                         "ooooooooooooooo", "tuqadsuqadsuqad", "ssssssssssssssss", "nununununununun"};
    value.len = 0;
    while (value.len < 4096) {
        put(&value, 1);
    }
    for (size_t i = 0; i < sizeof again / sizeof again[0]; i++) {
        type.len = 0;
        put_kinds(again[i], 'i');
        measure_all(FIRST_OF_VALUES, LAST_OF_VALUES);
    }
    for (size_t i = 0; i < sizeof nested / sizeof nested[0]; i++) {
        for (const char *leaf = "lton"; *leaf != 0; leaf++) {
            type.len = 0;
            put_kinds(nested[i], *leaf);
            measure_all(FIRST_OF_VALUES, LAST_OF_VALUES);
        }
    }
}

/* Lines of the most digits; messages whole, in fragments of 4,096 octets, joined and cancelled. */
static void messages(void) {
    static const uint32_t heads[] = {0x01020000, 0x01020200, 0x01020207, 0x01020207, 0x01020007, 0x01020200, 0x01020002};
    memset(line, '4', sizeof line);
    for (size_t i = 0; i < sizeof heads / sizeof heads[0]; i++) {
        value.len = 0;
        put(&value, 0x47494F50);
        put(&value, heads[i]);
        size_t len = (heads[i] & 0xFF) == 2 ? 16 : 4096;
        put(&value, (uint32_t)len - 12);
        put(&value, 9);
        value.len = len;
        measure_all(0, FIRST_OF_VALUES - 1);
    }
}

/* A profile body of 1.2 with two components. */
static void profile_bodies(void) {
    static const uint32_t body[] = {0x00010200, 2, 0x68000001, 1, 0x6B000000, 2, 7, 1, 0x5A000000, 9, 0};
    value.len = 0;
    for (size_t i = 0; i < sizeof body / sizeof body[0]; i++) {
        put(&value, body[i]);
    }
    measure_all(LAST_OF_VALUES + 1, LAST_OF_PROFILES);
}

/* Requests, of 1.2 to a reference with two profiles and of 1.0 with a principal, and replies of both, each with two contexts. The first number says
 * how many follow. */
static void headers(void) {
    static const uint32_t messages[][24] = {
        {23, 0x47494F50, 0x01020000, 80, 7, 0x01000000, 0x00020000, 1, 2, 0x49000000, 2, 0, 3, 0x01020300, 1, 0, 3, 0x676F0000, 2, 5, 1, 0x58000000, 6, 0},
        {17, 0x47494F50, 0x01000000, 56, 2, 5, 1, 0x58000000, 6, 0, 7, 0x01000000, 1, 0x6B000000, 2, 0x67000000, 1, 0x70000000},
        {11, 0x47494F50, 0x01020001, 32, 7, 1, 2, 5, 1, 0x58000000, 6, 0},
        {11, 0x47494F50, 0x01000001, 32, 2, 5, 1, 0x58000000, 6, 0, 7, 1},
    };
    for (size_t i = 0; i < sizeof messages / sizeof messages[0]; i++) {
        value.len = 0;
        for (uint32_t j = 1; j <= messages[i][0]; j++) {
            put(&value, messages[i][j]);
        }
        measure_all(LAST_OF_PROFILES + 1, FUNCTIONS - 1);
    }
}

int main(void) {
    int failed = 0;
    stack = aligned_alloc(4096, STACK);
    if (stack == NULL) {
        return 1;
    }
    types_and_values();
    messages();
    profile_bodies();
    headers();
    for (size_t i = 0; i < FUNCTIONS; i++) {
        printf("%s: %zu octets of stack, at most %zu\n", functions[i].name, functions[i].most, functions[i].said);
        failed += functions[i].most == 0 || functions[i].most > functions[i].said;
    }
    printf("%d passed, %d failed\n", FUNCTIONS - failed, failed);
    return failed != 0;
}
