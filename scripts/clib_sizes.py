#!/usr/bin/env python3
"""Measures the memory that the static library needs for each box and for a spacer, on the heap and on the stack.

    python3 scripts/clib_sizes.py

A C program counts what the library takes by malloc, and makes all calls on a stack that it has filled with a pattern: the deepest
byte that is changed is the stack that they need, less what a thread that makes no call needs. A transmitter seals a short and a
long frame, a receiver takes what was sealed, and a spacer with room for four frames takes the same frames. What malloc and free
themselves need is counted, too; what the dynamic linker needs at the first call of each isn't. The exit status is 0 if everything
was measured, and 2 if there is no C compiler or a call returned a status that it must not. It is no part of the gate.
"""
import os, sys, tempfile

import bridge_build

PROGRAM = r"""
#include "yasir.h"
#include <pthread.h>
#include <stdio.h>
#include <stdlib.h>
#include <string.h>

enum { STACK = 1 << 20, PATTERN = 0xA5, MANY = 4096 };

static size_t taken, blocks;
static uint16_t line[MANY], link[2 * MANY];
static size_t ticks, link_ticks;
static int failed;

void *__real_malloc(size_t size);
void *__wrap_malloc(size_t size) { taken += size; blocks++; return __real_malloc(size); }

static void put_line(const uint8_t *bytes, size_t len, size_t silence)
{
    while (len--) line[ticks++] = *bytes++;
    while (silence--) line[ticks++] = YASIR_SILENT;
}

static unsigned crc(unsigned polynomial, unsigned reg, const uint8_t *bytes, size_t len)
{
    while (len--) {
        int bit;
        reg ^= *bytes++;
        for (bit = 0; bit < 8; bit++) reg = reg & 1 ? reg >> 1 ^ polynomial : reg >> 1;
    }
    return reg;
}

static void put_rtu(size_t len)
{
    uint8_t frame[256];
    unsigned sum;
    memset(frame, 3, sizeof frame);
    sum = crc(0xA001, 0xFFFF, frame, len - 2);
    frame[len - 2] = sum & 255, frame[len - 1] = sum >> 8;
    put_line(frame, len, 120);
}

static size_t put_block(uint8_t *frame, size_t len)
{
    unsigned sum = crc(0xA6BC, 0, frame, len) ^ 0xFFFF;
    frame[len] = sum & 255, frame[len + 1] = sum >> 8;
    return len + 2;
}

static void put_dnp(size_t user)
{
    uint8_t frame[292];
    size_t len;
    memset(frame, 3, sizeof frame);
    frame[0] = 5, frame[1] = 0x64, frame[2] = (uint8_t)(5 + user);
    len = put_block(frame, 8);
    while (user > 0) {
        size_t part = user > 16 ? 16 : user;
        len += put_block(frame + len, part);
        user -= part;
    }
    put_line(frame, len, 120);
}

typedef struct { yasir_kind kind; int is_spacer; } thing;

static void use_spacer(yasir_handle *handle, const thing *which)
{
    yasir_spaced spaced;
    size_t i;
    if (yasir_spacer_new(handle, which->kind.protocol, which->kind.profile, 4) != YASIR_OK) failed = 1;
    for (i = 0; i < ticks; i++) if (yasir_spacer_step(handle, line[i], &spaced) != YASIR_OK) failed = 1;
}

static void use_box(yasir_handle *handle, const thing *which)
{
    static uint8_t slots[YASIR_SLOTS_LEN], key[64], slot[YASIR_SLOT_LEN], sent[YASIR_RUN_LEN];
    const uint16_t *from = which->kind.part == YASIR_SEALER ? line : link;
    size_t i, count = which->kind.part == YASIR_SEALER ? ticks : link_ticks, noted = 0;
    memset(slots, 0, sizeof slots);
    if (yasir_init(&which->kind, slots, YASIR_SLOT_LEN) != YASIR_OK) failed = 1;
    if (yasir_new(handle, &which->kind, key, sizeof key, slots, sizeof slots) != YASIR_OK) failed = 1;
    if (which->kind.part == YASIR_SEALER) link_ticks = 0;
    for (i = 0; i < count; i++) {
        yasir_answer answer;
        size_t sent_count;
        uint8_t status = yasir_step(handle, from[i], &answer, slot, sizeof slot);
        if (status == YASIR_COMMIT) status = yasir_committed(handle, 1, &answer), noted++;
        if (status != YASIR_OK) failed = 1;
        if (which->kind.part == YASIR_SEALER) link[link_ticks++] = answer.is_byte ? answer.byte : YASIR_SILENT;
        if (i + 1 == count) yasir_take_silence(handle, 1000, sent, sizeof sent, &sent_count);
    }
    if (noted != 2 || yasir_floor(handle) != 2) failed = 1;
}

static void *use(void *given)
{
    yasir_handle handle = {0};
    const thing *which = given;
    if (which) {
        (which->is_spacer ? use_spacer : use_box)(&handle, which);
        yasir_free(&handle);
    }
    return NULL;
}

static size_t stack_of(thing *which)
{
    unsigned char *stack = NULL;
    pthread_attr_t attr;
    pthread_t thread;
    size_t free_bytes = 0;
    if (posix_memalign((void **)&stack, 4096, STACK) != 0) exit(1);
    memset(stack, PATTERN, STACK);
    pthread_attr_init(&attr);
    if (pthread_attr_setstack(&attr, stack, STACK) != 0 || pthread_create(&thread, &attr, use, which) != 0) exit(1);
    pthread_join(thread, NULL);
    while (stack[free_bytes] == PATTERN) free_bytes++;
    free(stack);
    return STACK - free_bytes;
}

int main(void)
{
    static const char *const parts[] = {"transmitter", "receiver"};
    static const char *const protocols[] = {"", "rtu", "dnp3"};
    size_t none = stack_of(NULL), stack;
    int protocol, profile, part;
    for (protocol = 1; protocol <= 2; protocol++) for (profile = 18; profile <= 24; profile += 6) {
        ticks = 0;
        if (protocol == YASIR_RTU) put_rtu(8), put_rtu(256); else put_dnp(0), put_dnp(250);
        for (part = 0; part <= 2; part++) {
            thing which = {{(uint8_t)part, (uint8_t)protocol, (uint8_t)profile, YASIR_AB}, part == 2};
            taken = blocks = 0;
            stack = stack_of(&which);
            printf("%s y%d %s: heap %zu bytes in %zu blocks, stack %zu bytes\n", protocols[protocol], profile,
                   part == 2 ? "spacer of 4 frames" : parts[part], taken, blocks, stack - none);
        }
    }
    return failed;
}
"""


def main():
    with tempfile.TemporaryDirectory() as folder:
        main_c, path = os.path.join(folder, "main.c"), os.path.join(folder, "sizes")
        with open(main_c, "w") as file:
            file.write(PROGRAM)
        bridge_build.ran([bridge_build.compiler(), *bridge_build.FLAGS, "-I", bridge_build.BRIDGE, main_c, *bridge_build.library(),
                          "-pthread", "-Wl,--wrap=malloc,-z,now", "-o", path])
        print(bridge_build.ran([path]), end="")


try:
    main()
except bridge_build.Missing as why:
    print("clib_sizes: %s" % why, file=sys.stderr)
    sys.exit(2)
