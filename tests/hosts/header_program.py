"""A C and C++ program that makes every call by the header's inline functions and by the archive, and
reads and makes every field by its name."""

import register_table
from thymewax import OFFLOAD_CMD, Number, Register

DONE, WRONG_RECORD = Number.DONE, Number.WRONG_RECORD
# Calls by inline functions, the numbers of their records, and the number of the answer: each
# function is done once, so that a wrong letter or argument leaves something else. Each number that
# is too large would be a good one if it were cut.
CALLS = (
    ('thymewax_start(&m)', 'S', 0, 0, 0, Number.HELD_IN_RESET),
    ('thymewax_write(&m, THYMEWAX_REG_ENABLE, 0)', 'W', Register.ENABLE, 0, 0, DONE),
    ('thymewax_write(&m, THYMEWAX_REG_IBI_CONFIG, 3)', 'W', Register.IBI_CONFIG, 3, 0, DONE),
    ('thymewax_write(&m, THYMEWAX_REG_DEV_CHAR, thymewax_device(8, FLAGS))', 'W', Register.DEV_CHAR, 0x110e, 0,
     DONE),
    ('thymewax_interrupt(&m, 0x108, 0x5a)', 'I', 0, 0x108, 0x5a, WRONG_RECORD),
    ('thymewax_interrupt(&m, 8, 0x15a)', 'I', 0, 8, 0x15a, WRONG_RECORD),
    ('thymewax_interrupt(&m, 8, 0x5a)', 'I', 0, 8, 0x5a, DONE),
    ('thymewax_read(&m, 0x100e4)', 'R', 0x100e4, 0, 0, WRONG_RECORD),
    ('thymewax_read(&m, THYMEWAX_REG_IBI_FIFO)', 'R', Register.IBI_FIFO, 0, 0, DONE),
    ('thymewax_write(&m, THYMEWAX_REG_SDO_FIFO, 0xa5c30000)', 'W', Register.SDO_FIFO, 0xa5c30000, 0, DONE),
    ('thymewax_write(&m, THYMEWAX_REG_CMD_FIFO, thymewax_command(8, 2, 0))', 'W', Register.CMD_FIFO, 0x210, 0,
     DONE),
    ('thymewax_start(&m)', 'S', 0, 0, 0, DONE),
    ('thymewax_send(&m)', 'T', 0, 0, 0, DONE),
    ('thymewax_send(&m)', 'T', 0, 0, 0, DONE),
    ('thymewax_send(&m)', 'T', 0, 0, 0, Number.LENGTH_REACHED),
    ('thymewax_finish(&m, 0)', 'F', 0, 0, 0, DONE),
    ('thymewax_write(&m, THYMEWAX_REG_CMD_FIFO, READ_TWO)', 'W', Register.CMD_FIFO, 0x211, 0, DONE),
    ('thymewax_start(&m)', 'S', 0, 0, 0, DONE),
    ('thymewax_finish(&m, THYMEWAX_CODE_NACK)', 'F', 0, 6, 0, DONE),
    ('thymewax_write(&m, THYMEWAX_REG_CMD_FIFO, 0x211)', 'W', Register.CMD_FIFO, 0x211, 0, DONE),
    ('thymewax_start(&m)', 'S', 0, 0, 0, DONE),
    ('thymewax_receive(&m, 0x112)', 'X', 0, 0x112, 0, WRONG_RECORD),
    ('thymewax_receive(&m, 0x12)', 'X', 0, 0x12, 0, DONE),
    ('thymewax_receive(&m, 0xff)', 'X', 0, 0xff, 0, DONE),
    ('thymewax_finish(&m, 256)', 'F', 0, 256, 0, WRONG_RECORD),
    ('thymewax_finish(&m, 0)', 'F', 0, 0, 0, DONE),
    ('thymewax_read(&m, THYMEWAX_REG_SDI_FIFO)', 'R', Register.SDI_FIFO, 0, 0, DONE),
    ('thymewax_write(&m, THYMEWAX_REG_CMD_FIFO, 0x400000)', 'W', Register.CMD_FIFO, 0x400000, 0, DONE),
    ('thymewax_write(&m, THYMEWAX_REG_CMD_FIFO, 7)', 'W', Register.CMD_FIFO, 7, 0, DONE),
    ('thymewax_start(&m)', 'S', 0, 0, 0, DONE),
    ('thymewax_request(&m, 0x0123abcd, 0xef000102)', 'D', 0, 0x0123abcd, 0xef000102, DONE),
    ('thymewax_write(&m, THYMEWAX_REG_SDO_FIFO, 0x11000000)', 'W', Register.SDO_FIFO, 0x11000000, 0, DONE),
    ('thymewax_take_address(&m)', 'A', 0, 0, 0, Number.WRONG_PARITY),
    ('thymewax_write(&m, THYMEWAX_REG_SDO_FIFO, 0x10000000)', 'W', Register.SDO_FIFO, 0x10000000, 0, DONE),
    ('thymewax_take_address(&m)', 'A', 0, 0, 0, DONE),
    ('thymewax_finish(&m, 0)', 'F', 0, 0, 0, DONE),
    ('thymewax_write(&m, THYMEWAX_REG_OFFLOAD_CMD, 0x211)', 'W', OFFLOAD_CMD[0], 0x211, 0, DONE),
    ('thymewax_trigger(&m)', 'G', 0, 0, 0, Number.NOT_IN_THIS_MODE),
    ('thymewax_write(&m, THYMEWAX_REG_OPS, 3)', 'W', Register.OPS, 3, 0, DONE),
    ('thymewax_trigger(&m)', 'G', 0, 0, 0, DONE),
    ('thymewax_receive(&m, 0x34)', 'X', 0, 0x34, 0, DONE),
    ('thymewax_finish(&m, 0)', 'F', 0, 0, 0, DONE),
    ('thymewax_write(&m, 0x10008, 7)', 'W', 0x10008, 7, 0, WRONG_RECORD),
    ('thymewax_model_step(&m, 0x57, THYMEWAX_REG_SCRATCH, 0x89abcdef, 0)', 'W', Register.SCRATCH, 0x89abcdef, 0,
     DONE),
    ('thymewax_model_step(&m, 0x57, THYMEWAX_REG_SCRATCH, 1, 2)', 'W', Register.SCRATCH, 1, 2, WRONG_RECORD),
    ('thymewax_model_step(&m, 0, 0, 0, 0)', '\0', 0, 0, 0, WRONG_RECORD),
)

# A model by the inline functions beside one by the archive's. Five different capacities and
# watermarks show a wrong order. The trace has three sections, of two records, of one, and of one with
# a wrong one behind it; the second writes an offload command, which shows a table for another. A
# refusal writes no lent word, and the inline functions give 0 then.
PROGRAM = r'''
#include <stdio.h>
#include <stdlib.h>
#include <string.h>
#include "thymewax.h"

#define STORE_WORDS 25
#define FLAGS (THYMEWAX_DEVICE_ATTACHED | THYMEWAX_DEVICE_MAY_INTERRUPT | THYMEWAX_DEVICE_SENDS_BYTE)
#define READ_TWO thymewax_command(8, 2, THYMEWAX_COMMAND_READ)
/* What every call of the archive takes first. */
#define KEPT kept.image, THYMEWAX_IMAGE_WORDS, kept.flags, kept.commands, kept.payloads

/* A field is a constant. */
static const uint32_t length_two = THYMEWAX_PUT(THYMEWAX_COMMAND_LENGTH, 2);
static const uint32_t capacities[5] = {6, 5, 4, 7, 3}, watermarks[5] = {5, 4, 3, 2, 1};
static const uint8_t trace[] = {
    'I', '3', 'T', 'R', 3, 0, 30, 0, 0, 0, 2, 0, 0, 0, 54, 0, 0, 0, 1, 0, 0, 0, 66, 0, 0, 0, 2, 0, 0, 0,
    'R', 0, 8, 0, 0, 0, 0, 0, 0, 0, 0, 0, 'R', 0, 6, 0, 0, 0, 0, 0, 0, 0, 0, 0,
    'W', 0, 0xc0, 2, 0x10, 1, 0, 0, 0, 0, 0, 0,
    'R', 0, 4, 0, 0, 0, 0, 0, 0, 0, 0, 0, 'G', 0, 0, 0, 0, 0, 0, 0, 0, 0, 0, 0};
static struct thymewax_kept kept, old_kept;
static uint32_t store[STORE_WORDS], output[1], m_store[STORE_WORDS], m_output[1];
static uint32_t old_store[STORE_WORDS], old_output[1];
static struct thymewax m;

static void expect(const char *what, int holds)
{
    if (!holds) {
        printf("differs: %s\n", what);
        exit(1);
    }
}

static int same(void)
{
    return memcmp(&kept, &m.kept, sizeof kept) == 0 && memcmp(store, m_store, sizeof store) == 0
        && memcmp(output, m_output, sizeof output) == 0;
}

static void keep(void)
{
    old_kept = kept;
    memcpy(old_store, store, sizeof store);
    memcpy(old_output, output, sizeof output);
}

static int unchanged(void)
{
    return memcmp(&kept, &old_kept, sizeof kept) == 0 && memcmp(store, old_store, sizeof store) == 0
        && memcmp(output, old_output, sizeof output) == 0;
}

static void call(const char *what, struct thymewax_answer a, uint32_t letter, uint32_t offset,
                 uint32_t first, uint32_t second, uint32_t number)
{
    keep();
    uint64_t packed = thymewax_step(KEPT, store, STORE_WORDS, output, 1, letter, offset, first, second);
    expect(what, a.value == (packed & 0xffffffffu) && a.number == packed >> 32);
    expect(what, a.number == number && same());
    expect(what, number == THYMEWAX_DONE || number == THYMEWAX_WRONG_PARITY
                     || ((a.value == 0 || number == THYMEWAX_EMPTY) && unchanged()));
}

/* A queue is read to its end, and once more: that shows the last word again. */
static void read_out(const char *what, uint32_t offset, uint32_t last)
{
    struct thymewax_answer a = thymewax_read(&m, offset);
    while (a.number == THYMEWAX_DONE) {
        call(what, a, THYMEWAX_LETTER_READ, offset, 0, 0, THYMEWAX_DONE);
        a = thymewax_read(&m, offset);
    }
    call(what, a, THYMEWAX_LETTER_READ, offset, 0, 0, THYMEWAX_EMPTY);
    expect(what, a.value == last);
}

static void is_told(const char *what, int done, uint32_t given, uint32_t told)
{
    expect(what, done ? given == told : given == 0 && told == 9);
}

static uint32_t replay(size_t bytes, uint32_t section, size_t limit)
{
    uint32_t told[3] = {9, 9, 9}, place[2] = {9, 9};
    struct thymewax_replayed r = thymewax_model_replay(&m, trace, bytes, section, limit);
    struct thymewax_place p = thymewax_find_section(trace, bytes, section);
    keep();
    uint32_t number = thymewax_replay(KEPT, store, STORE_WORDS, trace, bytes, section, limit, told, 3);
    int done = number == THYMEWAX_DONE || number == THYMEWAX_WRONG_RECORD;
    expect("a replay's number", r.number == number);
    expect("a replay's memory", same() && (done || unchanged()));
    is_told("a replay's count", done, r.count, told[0]);
    is_told("a replay's answer", done, r.last.value, told[1]);
    is_told("a replay's answer", done, r.last.number, told[2]);
    expect("a section's number", p.number == thymewax_section(trace, bytes, section, place, 2));
    is_told("a section's place", p.number == THYMEWAX_DONE, p.first, place[0]);
    is_told("a section's place", p.number == THYMEWAX_DONE, p.bytes, place[1]);
    return number;
}

static void replays(void)
{
    const uint32_t none = THYMEWAX_NO_SUCH_SECTION, wrong = THYMEWAX_WRONG_RECORD, done = THYMEWAX_DONE;
    for (uint32_t section = 0; section < 4; section++)
        for (size_t limit = 0; limit < 3; limit++)
            expect("the number of a replay", replay(sizeof trace, section, limit)
                       == (section == 3 ? none : section == 2 && limit == 2 ? wrong : done));
    expect("a mark cut off", replay(3, 0, 9) == THYMEWAX_WRONG_MARK);
    expect("a file cut off", replay(sizeof trace - 1, 0, 9) == THYMEWAX_WRONG_TABLE);
}

/* A field by its name: what it is of a word of ones, and of one with ones elsewhere; what a word of it
 * is, where its number fits and where it has a bit too many. */
static void field(const char *what, uint32_t mask, uint32_t of_ones, uint32_t of_others, uint32_t of_one,
                  uint32_t of_too_many, unsigned high, unsigned low)
{
    uint32_t bits = (0xffffffffu >> (31 - high + low)) << low;
    expect(what, mask == bits && of_ones == bits >> low && of_others == 0);
    expect(what, of_one == 1u << low && of_too_many == 0);
}

static void fields(void)
{
FIELDS
    expect("a constant", length_two == 0x200);
    expect("a command", READ_TWO == 0x211 && thymewax_command(0x7f, 0xfff, 0) == 0xffffe);
    expect("too wide", thymewax_command(0x80, 0x1000, 0) == 0 && thymewax_device(0x80, 0) == 0x100);
    expect("a device", thymewax_device(8, 0) == 0x1100 && thymewax_device(0x7f, FLAGS) == 0xff0e);
}

/* Each watermark by its register: that of the set-up, one that is dropped, one that is taken. */
static void marks(void)
{
    const uint32_t offsets[5] = {THYMEWAX_REG_CMD_WATERMARK, THYMEWAX_REG_CMDR_WATERMARK,
                                 THYMEWAX_REG_SDO_WATERMARK, THYMEWAX_REG_SDI_WATERMARK,
                                 THYMEWAX_REG_IBI_WATERMARK};
    for (int i = 0; i < 5; i++) {
        uint32_t above = capacities[i] + 1, most = 0x50000u | capacities[i];
        expect("a first watermark", thymewax_read(&m, offsets[i]).value == watermarks[i]);
        call("a watermark too high", thymewax_write(&m, offsets[i], above), THYMEWAX_LETTER_WRITE,
             offsets[i], above, 0, THYMEWAX_WATERMARK_ABOVE_CAPACITY);
        call("a watermark", thymewax_write(&m, offsets[i], most), THYMEWAX_LETTER_WRITE, offsets[i], most,
             0, THYMEWAX_DONE);
        expect("a watermark", thymewax_read(&m, offsets[i]).value == capacities[i]);
    }
}

int main(void)
{
    fields();
    expect("version", thymewax_version() == THYMEWAX_VERSION);
    expect("image words", thymewax_image_words() == THYMEWAX_IMAGE_WORDS);
    expect("store words", thymewax_store_words(capacities) == STORE_WORDS);
    memset(&m, 0xff, sizeof m);
    expect("set-up", thymewax_model_set_up(&m, capacities, watermarks, 90, m_store, STORE_WORDS)
                         == THYMEWAX_DONE);
    expect("set-up", thymewax_set_up(KEPT, 6, 5, 4, 7, 3, 5, 4, 3, 2, 1, 90) == THYMEWAX_DONE && same());
    expect("an ID too large", thymewax_model_set_up(&m, capacities, watermarks, 256, m_store, STORE_WORDS)
                                  == THYMEWAX_SET_UP_OUT_OF_RANGE);
    expect("a call after that", thymewax_read(&m, 0).number == THYMEWAX_NOT_WELL_FORMED);
    expect("set-up again", thymewax_model_set_up(&m, capacities, watermarks, 90, m_store, STORE_WORDS)
                               == THYMEWAX_DONE && same());
    expect("store", m.store == m_store && m.store_words == STORE_WORDS);
    expect("output", m.output == NULL && m.output_words == 0);
    m.output = m_output;
    m.output_words = 1;
    read_out("nothing read of CMDR", THYMEWAX_REG_CMDR_FIFO, 0);
    marks();
CALLS
    read_out("the end of CMDR", THYMEWAX_REG_CMDR_FIFO, 0x00000003);
    read_out("the end of SDI", THYMEWAX_REG_SDI_FIFO, 0xef000102);
    read_out("the end of IBI", THYMEWAX_REG_IBI_FIFO, 0x00105a00);
    replays();
    m.kept.image[0] = kept.image[0] = 5000;
    replays();
    expect("a damaged bank", thymewax_model_replay(&m, trace, sizeof trace, 0, 9).number == THYMEWAX_DONE);
    expect("a damaged bank", thymewax_model_replay(&m, trace, sizeof trace, 0, 9).count == 2);
    expect("a damaged bank", thymewax_model_replay(&m, trace, sizeof trace, 0, 9).last.number
                                 == THYMEWAX_NOT_WELL_FORMED);
    return 0;
}
'''


def field_rows():
    """Each field of docs/registers.toml by its name, and each name of a number."""
    table = register_table.load()
    for word in table.named_words():
        for field in word.fields:
            name = 'THYMEWAX_%s_%s' % (word.name.upper(), field.name.upper())
            # A bit too many is none of 32.
            more = (1 << field.high - field.low + 1) & 0xffffffff
            yield ('    field("{0}", {0}, THYMEWAX_GET({0}, 0xffffffffu), THYMEWAX_GET({0}, ~{0}), '
                   'THYMEWAX_PUT({0}, 1), THYMEWAX_PUT({0}, {1}u), {2}, {3});').format(
                       name, more, field.high, field.low)
    for name, values in table.named_values():
        for value in values:
            yield '    expect("{0}", THYMEWAX_{1}_{0} == {2});'.format(
                value.name, name.upper(), value.number)


def program():
    """The program that makes all calls."""
    rows = ['    call("%s", %s, %d, %d, %du, %du, %d);' % (made, made, ord(letter), *numbers)
            for made, letter, *numbers in CALLS]
    return PROGRAM.replace('CALLS', '\n'.join(rows)).replace('FIELDS', '\n'.join(field_rows()))
