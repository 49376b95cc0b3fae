/* An example: a command is lost while the registers stay silent, and the number
 * of the answer tells it. Then a transfer, and the replay of a trace.
 * lost_command.txt has what it prints. */
#include <inttypes.h>
#include <stdio.h>

#include "thymewax.h"

enum { DEVICE = 8, CAPACITY = 4, STORE_WORDS = THYMEWAX_QUEUES * CAPACITY };

static uint32_t set_up(struct thymewax *m, uint32_t *store)
{
    const uint32_t capacities[THYMEWAX_QUEUES] = {CAPACITY, CAPACITY, CAPACITY, CAPACITY, CAPACITY};
    const uint32_t watermarks[THYMEWAX_QUEUES] = {1, 3, 1, 3, 3};
    return thymewax_model_set_up(m, capacities, watermarks, 0, store, STORE_WORDS);
}

static void print(const char *what, struct thymewax_answer answer)
{
    printf("%-28s %08" PRIx32 " %02" PRIu32 "\n", what, answer.value, answer.number);
}

/* What the registers show of CMD. */
static void show(struct thymewax *m)
{
    print("  room of CMD", thymewax_read(m, THYMEWAX_REG_CMD_FIFO_ROOM));
    print("  IRQ_SOURCE", thymewax_read(m, THYMEWAX_REG_IRQ_SOURCE));
}

/* Five commands into a queue of four. */
static void lose_a_command(struct thymewax *m)
{
    print("release", thymewax_write(m, THYMEWAX_REG_ENABLE, 0));
    show(m);
    for (uint32_t length = 1; length <= CAPACITY; length++)
        print("command", thymewax_write(m, THYMEWAX_REG_CMD_FIFO, thymewax_command(DEVICE, length, 0)));
    show(m);
    struct thymewax_answer fifth = thymewax_write(m, THYMEWAX_REG_CMD_FIFO, thymewax_command(DEVICE, 5, 0));
    print("fifth command", fifth);
    show(m);
    if (fifth.number == THYMEWAX_DROPPED_FULL)
        puts("the fifth command was dropped, and no register tells");
}

/* The first command, of one byte. It makes room for the lost one. */
static void transfer(struct thymewax *m)
{
    const uint32_t attached = thymewax_device(DEVICE, THYMEWAX_DEVICE_ATTACHED);
    print("attach device 8", thymewax_write(m, THYMEWAX_REG_DEV_CHAR, attached));
    print("payload", thymewax_write(m, THYMEWAX_REG_SDO_FIFO, THYMEWAX_PUT(THYMEWAX_DATA_FIRST, 0xa5)));
    print("start", thymewax_start(m));
    print("send", thymewax_send(m));
    print("finish", thymewax_finish(m, 0));
    print("receipt", thymewax_read(m, THYMEWAX_REG_CMDR_FIFO));
    print("fifth command again", thymewax_write(m, THYMEWAX_REG_CMD_FIFO, thymewax_command(DEVICE, 5, 0)));
}

/* A trace of one section with the same loss: a release and five commands. All
 * numbers are little-endian. */
static const uint8_t trace[] = {
    'I', '3', 'T', 'R', 1, 0, /* mark, one section */
    14, 0, 0, 0, 6, 0, 0, 0,  /* from byte 14, six records */
    /* letter, 0, offset, two values */
    'W', 0, 0x40, 0, 0, 0, 0, 0, 0, 0, 0, 0,
    'W', 0, 0xd4, 0, 0x10, 1, 0, 0, 0, 0, 0, 0,
    'W', 0, 0xd4, 0, 0x10, 2, 0, 0, 0, 0, 0, 0,
    'W', 0, 0xd4, 0, 0x10, 3, 0, 0, 0, 0, 0, 0,
    'W', 0, 0xd4, 0, 0x10, 4, 0, 0, 0, 0, 0, 0,
    'W', 0, 0xd4, 0, 0x10, 5, 0, 0, 0, 0, 0, 0,
};

static void replay(struct thymewax *m)
{
    struct thymewax_place place = thymewax_find_section(trace, sizeof trace, 0);
    printf("section 0: number %" PRIu32 ", %" PRIu32 " bytes from byte %" PRIu32 "\n",
           place.number, place.bytes, place.first);
    struct thymewax_replayed replayed = thymewax_model_replay(m, trace, sizeof trace, 0, SIZE_MAX);
    printf("replay: number %" PRIu32 ", %" PRIu32 " records\n", replayed.number, replayed.count);
    print("last record", replayed.last);
    show(m);
}

int main(void)
{
    uint32_t stores[2][STORE_WORDS];
    struct thymewax model, other;
    if (set_up(&model, stores[0]) != THYMEWAX_DONE || set_up(&other, stores[1]) != THYMEWAX_DONE)
        return 1;
    lose_a_command(&model);
    transfer(&model);
    replay(&other);
    return 0;
}
