/* Thymewax: the host side of an I3C controller as a model, for C99 and C++11.
 *
 * A driver reads and writes the model's registers; a bench or a simulator plays
 * the bus by single events. Beside each value stands a number that says what
 * happened, where the registers are silent: docs/ANSWERS.md has all of them.
 *
 *     uint32_t four[5] = {4, 4, 4, 4, 4}, marks[5] = {1, 3, 1, 3, 3};
 *     uint32_t store[20];
 *     struct thymewax m;
 *     if (thymewax_model_set_up(&m, four, marks, 0, store, 20) != THYMEWAX_DONE)
 *         return 1;
 *     thymewax_write(&m, THYMEWAX_REG_ENABLE, 0);
 *     struct thymewax_answer room = thymewax_read(&m, THYMEWAX_REG_CMD_FIFO_ROOM);
 *
 * Link with libthymewax.a; docs/C.md has the line. There are two layers: the six
 * functions of the archive, on plain memory, and after them inline functions on
 * a handle, struct thymewax. Neither allocates, and neither has globals. Before
 * both stand the names: answers, registers, the fields of words.
 *
 * What holds of every call:
 * - It takes any numbers and any contents of lent memory, and ends with a number.
 * - A number other than THYMEWAX_DONE and THYMEWAX_WRONG_PARITY is a refusal: no
 *   word of lent memory has changed, and the value is 0, but with THYMEWAX_EMPTY
 *   the word last read from that queue. (A replay that ends with
 *   THYMEWAX_WRONG_RECORD leaves what the records before left, and tells it.)
 * - Memory is lent as a pointer and a count, for the time of the call. The count
 *   must be true, and no two lent pieces may overlap. A count of 0 may go with a
 *   null pointer.
 * - Calls on different models may run at the same time. Calls on one model must
 *   not: put a lock around them.
 */
#ifndef THYMEWAX_H
#define THYMEWAX_H

#include <stddef.h>
#include <stdint.h>

/* The version of layout and calls: what thymewax_version() gives. */
#define THYMEWAX_VERSION 2

/* The words of an image: what thymewax_image_words() gives. */
#define THYMEWAX_IMAGE_WORDS 43

/* The tables: flag bytes, one for each device address; words of the offload
 * commands, and as many of their data. */
#define THYMEWAX_FLAG_BYTES 128
#define THYMEWAX_OFFLOAD_WORDS 16

/* The queues, in the order of capacities, watermarks and areas of the store:
 * CMD commands, CMDR receipts, SDO data out, SDI data in, IBI interrupts. */
#define THYMEWAX_QUEUES 5

/* The numbers: what happened. */
enum thymewax_number {
    THYMEWAX_DONE = 0,
    THYMEWAX_DROPPED_FULL = 1,             /* the word was dropped: CMD or SDO is full */
    THYMEWAX_DROPPED_READ_ONLY = 2,        /* the write was dropped: the register is read-only */
    THYMEWAX_EMPTY = 3,                    /* the queue that was read is empty */
    THYMEWAX_NO_REGISTER = 4,              /* the offset is outside the map, or no multiple of 4 */
    THYMEWAX_HELD_IN_RESET = 5,            /* a CMD or SDO write or a bus event while ENABLE is 1 */
    THYMEWAX_TRANSFER_OPEN = 6,            /* finish the transfer or the burst first */
    THYMEWAX_NO_TRANSFER = 7,              /* start or trigger first */
    THYMEWAX_NOT_IN_THIS_MODE = 8,         /* a start in offload mode, a trigger in direct mode */
    THYMEWAX_NO_COMMAND = 9,               /* no whole command waits in CMD */
    THYMEWAX_NOT_THIS_KIND = 10,           /* not with this transfer, or not now */
    THYMEWAX_LENGTH_REACHED = 11,          /* as many bytes moved as the command says */
    THYMEWAX_SDO_EMPTY = 12,               /* the next word, or the address word, is not there */
    THYMEWAX_NO_ROOM = 13,                 /* in the receiving queue, or in the output of a burst */
    THYMEWAX_ENDING_NOT_ALLOWED = 14,      /* the transfer cannot end with this code */
    THYMEWAX_SDO_NOT_EMPTY = 15,           /* at the start of an address assignment */
    THYMEWAX_NOT_HEARD = 16,               /* the interrupt request: listen is 0 */
    THYMEWAX_NOT_ACKNOWLEDGED = 17,        /* the interrupt request: not enabled, or not this device */
    THYMEWAX_OUT_OF_RANGE = 18,            /* an address above 127, a code above 15 */
    THYMEWAX_WRONG_PARITY = 19,            /* the address word was taken, the request stays open */
    THYMEWAX_NOT_ATTACHED = 20,            /* the transfer's device, when the transfer opened */
    THYMEWAX_NOT_WELL_FORMED = 21,         /* image and tables are not those of a well-formed bank */
    THYMEWAX_STORE_LENGTH = 22,            /* the store is not as long as the capacities together */
    THYMEWAX_SET_UP_OUT_OF_RANGE = 23,     /* a capacity, a watermark or the ID is out of range */
    THYMEWAX_WRONG_MARK = 24,              /* the file is no trace */
    THYMEWAX_WRONG_TABLE = 25,             /* the trace's table or length is wrong */
    THYMEWAX_NO_SUCH_SECTION = 26,         /* the trace has no such section */
    THYMEWAX_WRONG_RECORD = 27,            /* the record, or the numbers of a step, name no call */
    THYMEWAX_BURST_HAS_NO_COMMANDS = 28,   /* a trigger with the offload length 0 */
    THYMEWAX_NOT_CARRIED = 29,             /* a burst carries private commands of 0 to 4 bytes */
    THYMEWAX_WATERMARK_ABOVE_CAPACITY = 30 /* the write was dropped: the queue has fewer words */
};

/* ---- Names of registers, of the fields of words and of their numbers ---- */

/* Written by tools/names.py from docs/registers.toml: do not edit. */

/* The registers, by their offsets; of a memory that of its first word. */
enum thymewax_register {
    THYMEWAX_REG_VERSION = 0x000,         /* version of the peripheral, 0.01.00. Read-only */
    THYMEWAX_REG_DEVICE_ID = 0x004,       /* the ID that set-up gave, 0 to 255. Read-only */
    THYMEWAX_REG_SCRATCH = 0x008,         /* a word that software may use as it likes */
    THYMEWAX_REG_ENABLE = 0x040,          /* a 1 resets and holds, a 0 releases */
    THYMEWAX_REG_IRQ_MASK = 0x080,        /* which bits of IRQ_SOURCE show in IRQ_PENDING */
    THYMEWAX_REG_IRQ_PENDING = 0x084,     /* IRQ_SOURCE AND IRQ_MASK; a 1 clears bit 5, 6 or 7 */
    THYMEWAX_REG_IRQ_SOURCE = 0x088,      /* the interrupts, whatever the mask. Read-only */
    THYMEWAX_REG_CMD_FIFO_ROOM = 0x0c0,   /* free words of CMD. Read-only */
    THYMEWAX_REG_CMDR_FIFO_LEVEL = 0x0c4, /* words in CMDR. Read-only */
    THYMEWAX_REG_SDO_FIFO_ROOM = 0x0c8,   /* free words of SDO. Read-only */
    THYMEWAX_REG_SDI_FIFO_LEVEL = 0x0cc,  /* words in SDI. Read-only */
    THYMEWAX_REG_IBI_FIFO_LEVEL = 0x0d0,  /* words in IBI. Read-only */
    THYMEWAX_REG_CMD_FIFO = 0x0d4,        /* a write puts a command word into CMD. Write-only */
    THYMEWAX_REG_CMDR_FIFO = 0x0d8,       /* a read takes the first receipt from CMDR. Read-only */
    THYMEWAX_REG_SDO_FIFO = 0x0dc,        /* a write puts a data word into SDO. Write-only */
    THYMEWAX_REG_SDI_FIFO = 0x0e0,        /* a read takes the first data word from SDI. Read-only */
    THYMEWAX_REG_IBI_FIFO = 0x0e4,        /* a read takes the first interrupt from IBI. Read-only */
    THYMEWAX_REG_FIFO_STATUS = 0x0e8,     /* which queues have nothing to read. Read-only */
    THYMEWAX_REG_OPS = 0x100,             /* how the controller operates */
    THYMEWAX_REG_IBI_CONFIG = 0x140,      /* interrupt requests of devices. Write-only */
    THYMEWAX_REG_DEV_CHAR = 0x180,        /* the device table: an address and its flags */
    THYMEWAX_REG_CMD_WATERMARK = 0x200,   /* watermark of CMD: with fewer words, IRQ_SOURCE bit 0 is 1 */
    THYMEWAX_REG_CMDR_WATERMARK = 0x204,  /* watermark of CMDR: with more words, IRQ_SOURCE bit 1 is 1 */
    THYMEWAX_REG_SDO_WATERMARK = 0x208,   /* watermark of SDO: with fewer words, IRQ_SOURCE bit 2 is 1 */
    THYMEWAX_REG_SDI_WATERMARK = 0x20c,   /* watermark of SDI: with more words, IRQ_SOURCE bit 3 is 1 */
    THYMEWAX_REG_IBI_WATERMARK = 0x210,   /* watermark of IBI: with more words, IRQ_SOURCE bit 4 is 1 */
    THYMEWAX_REG_OFFLOAD_CMD = 0x2c0,     /* the commands of a burst */
    THYMEWAX_REG_OFFLOAD_SDO = 0x300      /* the data words of a burst */
};

/* A watermark (CMD_WATERMARK, CMDR_WATERMARK, SDO_WATERMARK, SDI_WATERMARK, IBI_WATERMARK). */
#define THYMEWAX_WATERMARK_WORDS 0x0000ffffu /* words */

/* Reset and release (ENABLE). */
#define THYMEWAX_ENABLE_RESET 0x00000001u /* 1: held in reset. 0: released */

/* Interrupts of the controller (IRQ_MASK, IRQ_PENDING, IRQ_SOURCE). */
#define THYMEWAX_IRQ_DAA_PENDING 0x00000080u      /* a device requested an address and SDO was then empty */
#define THYMEWAX_IRQ_IBI_PENDING 0x00000040u      /* an interrupt request of a device was accepted */
#define THYMEWAX_IRQ_CMDR_PENDING 0x00000020u     /* a receipt was queued */
#define THYMEWAX_IRQ_IBI_ALMOST_FULL 0x00000010u  /* the level of IBI is above its watermark */
#define THYMEWAX_IRQ_SDI_ALMOST_FULL 0x00000008u  /* the level of SDI is above its watermark */
#define THYMEWAX_IRQ_SDO_ALMOST_EMPTY 0x00000004u /* the level of SDO is below its watermark */
#define THYMEWAX_IRQ_CMDR_ALMOST_FULL 0x00000002u /* the level of CMDR is above its watermark */
#define THYMEWAX_IRQ_CMD_ALMOST_EMPTY 0x00000001u /* the level of CMD is below its watermark */

/* The first word of a command (CMD_FIFO, OFFLOAD_CMD). */
#define THYMEWAX_COMMAND_CCC 0x00400000u            /* 1: a CCC, the next word is its second. 0: private */
#define THYMEWAX_COMMAND_HEADER 0x00200000u         /* 1: a broadcast header before a private transfer */
#define THYMEWAX_COMMAND_REPEATED_START 0x00100000u /* 1: it ends with a repeated start. 0: with a stop */
#define THYMEWAX_COMMAND_LENGTH 0x000fff00u         /* length of the payload in bytes */
#define THYMEWAX_COMMAND_ADDRESS 0x000000feu        /* address of the device */
#define THYMEWAX_COMMAND_READ 0x00000001u           /* 1: a read from the device. 0: a write to it */

/* The second word of a CCC. */
#define THYMEWAX_CCC_CODE 0x000000ffu   /* the code of the CCC */
#define THYMEWAX_CCC_DIRECT 0x00000080u /* 1: direct. 0: broadcast. A bit of the code */

/* A receipt (CMDR_FIFO). */
#define THYMEWAX_RECEIPT_ERROR 0x00f00000u  /* how the transfer ended */
#define THYMEWAX_RECEIPT_LENGTH 0x000fff00u /* bytes moved */
#define THYMEWAX_RECEIPT_SYNC 0x000000ffu   /* receipts before it since the reset, modulo 256 */

/* An interrupt's entry (IBI_FIFO). */
#define THYMEWAX_INTERRUPT_ADDRESS 0x00fe0000u /* address of the device */
#define THYMEWAX_INTERRUPT_DATA 0x0000ff00u    /* the data byte; 0 of a device that sends none */
#define THYMEWAX_INTERRUPT_SYNC 0x000000ffu    /* entries before it since the reset, modulo 256 */

/* Four bytes of payload, in the order of the bus (SDO_FIFO, SDI_FIFO, OFFLOAD_SDO). */
#define THYMEWAX_DATA_FIRST 0xff000000u  /* the first byte sent */
#define THYMEWAX_DATA_SECOND 0x00ff0000u /* the second byte sent */
#define THYMEWAX_DATA_THIRD 0x0000ff00u  /* the third byte sent */
#define THYMEWAX_DATA_FOURTH 0x000000ffu /* the fourth byte sent */

/* A word of SDO that an address take takes. */
#define THYMEWAX_ADDRESS_WORD_ADDRESS 0xfe000000u /* the address */
#define THYMEWAX_ADDRESS_WORD_PARITY 0x01000000u  /* makes the ones of bits 31:24 an odd number */

/* Queues that are empty (FIFO_STATUS). */
#define THYMEWAX_STATUS_SDI_EMPTY 0x00000004u  /* 1: SDI is empty */
#define THYMEWAX_STATUS_IBI_EMPTY 0x00000002u  /* 1: IBI is empty */
#define THYMEWAX_STATUS_CMDR_EMPTY 0x00000001u /* 1: CMDR is empty */

/* How the controller operates (OPS). */
#define THYMEWAX_OPS_IDLE 0x00000080u           /* 1: no transfer is open */
#define THYMEWAX_OPS_SPEED 0x00000060u          /* speed grade in push-pull mode; stored only */
#define THYMEWAX_OPS_OFFLOAD_LENGTH 0x0000001eu /* number of offload commands in a burst */
#define THYMEWAX_OPS_OFFLOAD 0x00000001u        /* 0: direct transfers. 1: offload bursts */

/* Interrupt requests of devices (IBI_CONFIG). */
#define THYMEWAX_IBI_CONFIG_LISTEN 0x00000002u /* 1: interrupt requests are heard */
#define THYMEWAX_IBI_CONFIG_ENABLE 0x00000001u /* 1: heard requests may be acknowledged */

/* A device and its flags (DEV_CHAR). */
#define THYMEWAX_DEVICE_ADDRESS 0x0000fe00u       /* the address that is selected */
#define THYMEWAX_DEVICE_STORE 0x00000100u         /* 1: store the flags too. Reads 0 */
#define THYMEWAX_DEVICE_SENDS_BYTE 0x00000008u    /* 1: it sends a data byte with an interrupt */
#define THYMEWAX_DEVICE_MAY_INTERRUPT 0x00000004u /* 1: it may interrupt */
#define THYMEWAX_DEVICE_ATTACHED 0x00000002u      /* 1: it is attached */

/* Numbers of THYMEWAX_RECEIPT_ERROR. */
#define THYMEWAX_CODE_NO_ERROR 0u        /* no error */
#define THYMEWAX_CODE_CE0 1u             /* the length of a CCC was wrong */
#define THYMEWAX_CODE_CE2 4u             /* no answer to the broadcast address */
#define THYMEWAX_CODE_NACK 6u            /* the device did not acknowledge */
#define THYMEWAX_CODE_UNKNOWN_ADDRESS 8u /* the device was not attached */

/* Numbers of THYMEWAX_OPS_SPEED. */
#define THYMEWAX_SPEED_MHZ_1_56 0u  /* 1.56 MHz with a clock of 100 MHz */
#define THYMEWAX_SPEED_MHZ_3_12 1u  /* 3.12 MHz with a clock of 100 MHz */
#define THYMEWAX_SPEED_MHZ_6_25 2u  /* 6.25 MHz with a clock of 100 MHz */
#define THYMEWAX_SPEED_MHZ_12_50 3u /* 12.50 MHz with a clock of 100 MHz */

/* End of what is written. */

/* A field of a word, and a word with a number in a field; fields are put together
 * by |. A number that has more bits than its field is cut.
 *
 *     if (THYMEWAX_GET(THYMEWAX_RECEIPT_ERROR, receipt) == THYMEWAX_CODE_NACK)
 *     ops = THYMEWAX_PUT(THYMEWAX_OPS_OFFLOAD_LENGTH, 1) | THYMEWAX_OPS_OFFLOAD;
 */
#define THYMEWAX_GET(field, word) (((word) & (field)) / ((field) & (0u - (field))))
#define THYMEWAX_PUT(field, number) (((number) * ((field) & (0u - (field)))) & (field))

/* The first word of a command: a device, bytes, and bits such as
 * THYMEWAX_COMMAND_READ, or 0. */
static inline uint32_t thymewax_command(uint32_t address, uint32_t length, uint32_t bits)
{
    return THYMEWAX_PUT(THYMEWAX_COMMAND_ADDRESS, address)
        | THYMEWAX_PUT(THYMEWAX_COMMAND_LENGTH, length) | bits;
}

/* A word for DEV_CHAR that stores the flags of a device: THYMEWAX_DEVICE_ATTACHED
 * and others, or 0. */
static inline uint32_t thymewax_device(uint32_t address, uint32_t flags)
{
    return THYMEWAX_PUT(THYMEWAX_DEVICE_ADDRESS, address) | THYMEWAX_DEVICE_STORE | flags;
}

/* ---- The calls ---- */

/* The calls, by their letters in ASCII, as a record of a trace has them. No record
 * names the trigger: a replay answers its letter 27, a step takes it. */
enum thymewax_letter {
    THYMEWAX_LETTER_WRITE = 0x57,        /* W */
    THYMEWAX_LETTER_READ = 0x52,         /* R */
    THYMEWAX_LETTER_START = 0x53,        /* S */
    THYMEWAX_LETTER_SEND = 0x54,         /* T */
    THYMEWAX_LETTER_RECEIVE = 0x58,      /* X */
    THYMEWAX_LETTER_FINISH = 0x46,       /* F */
    THYMEWAX_LETTER_INTERRUPT = 0x49,    /* I */
    THYMEWAX_LETTER_REQUEST = 0x44,      /* D */
    THYMEWAX_LETTER_TAKE_ADDRESS = 0x41, /* A */
    THYMEWAX_LETTER_TRIGGER = 0x47       /* G */
};

/* ---- The functions of the archive, on plain memory ---- */

#ifdef __cplusplus
extern "C" {
#endif

/* The version of layout and calls. */
uint32_t thymewax_version(void);

/* How many words an image has. */
size_t thymewax_image_words(void);

/* What every call below takes first: an image, which is all of the state but the
 * tables and the words in the queues, and the tables where they lie: flags points
 * to 128 bytes, commands and payloads to 16 words each. */

/* Writes image and tables of a fresh bank, held in reset: capacities and
 * watermarks in words, and the ID. CMD and SDI have capacities of 2 to 1,024, the
 * others of 1 to 1,024; a watermark is at most its queue's capacity, the ID at
 * most 255. Gives 0; 21 if image_words is not thymewax_image_words(), else 23 if a
 * number is out of range, and then leaves all as it was. */
uint32_t thymewax_set_up(uint32_t *image, size_t image_words,
                         uint8_t *flags, uint32_t *commands, uint32_t *payloads,
                         uint32_t cmd, uint32_t cmdr, uint32_t sdo,
                         uint32_t sdi, uint32_t ibi,
                         uint32_t cmd_mark, uint32_t cmdr_mark,
                         uint32_t sdo_mark, uint32_t sdi_mark,
                         uint32_t ibi_mark, uint32_t id);

/* Makes one call. Gives its value in the low 32 bits and its number in the high.
 * The numbers are those of a trace record: the letter; the offset of a write or a
 * read, else 0; the arguments in order, 0 where there are none. A write has its
 * value in first, a receive its byte, a finish its code; an interrupt has address
 * and byte, an address request its two words. 21 comes before 27, for numbers
 * that name no call, and that before 22 and the call's own numbers. */
uint64_t thymewax_step(uint32_t *image, size_t image_words,
                       uint8_t *flags, uint32_t *commands, uint32_t *payloads,
                       uint32_t *store, size_t store_words,
                       uint32_t *output, size_t output_words,
                       uint32_t letter, uint32_t offset,
                       uint32_t first, uint32_t second);

/* Replays a section of a trace file, numbered from 0: at most limit records of
 * it, each as the same call by itself, with an empty output. Gives 24, 25 or 26
 * with no record done; 27 with the records before the wrong one done; else 0,
 * whatever the records are answered: 21 each where no bank is kept. With 0 and
 * 27 told takes three words, or as many of them as it has: how many records were
 * done, value and number of the last one's answer (0, 0, 0 if none was). */
uint32_t thymewax_replay(uint32_t *image, size_t image_words,
                         uint8_t *flags, uint32_t *commands, uint32_t *payloads,
                         uint32_t *store, size_t store_words,
                         const uint8_t *file, size_t file_bytes,
                         uint32_t section, size_t limit,
                         uint32_t *told, size_t told_words);

/* Finds a section of a trace file. Gives 0, 24, 25 or 26. With 0 place takes two
 * words, or as many of them as it has: the section's first byte in the file and
 * its length in bytes. */
uint32_t thymewax_section(const uint8_t *file, size_t file_bytes,
                          uint32_t section,
                          uint32_t *place, size_t place_words);

#ifdef __cplusplus
}
#endif

/* ---- A handle, and the calls on it ---- */

/* What a call gives. */
struct thymewax_answer {
    uint32_t value;
    uint32_t number; /* of enum thymewax_number */
};

/* What is kept of a bank: image and tables, one piece of memory. */
struct thymewax_kept {
    uint32_t image[THYMEWAX_IMAGE_WORDS];
    uint32_t commands[THYMEWAX_OFFLOAD_WORDS];
    uint32_t payloads[THYMEWAX_OFFLOAD_WORDS];
    uint8_t flags[THYMEWAX_FLAG_BYTES];
};

/* A model. thymewax_model_set_up fills it; the memory that it points to stays the
 * caller's, and must live as long as the model is used. Before a trigger, lend an
 * output: set output and output_words. To save a model, copy kept and store. */
struct thymewax {
    struct thymewax_kept kept;
    uint32_t *store; /* the queues: the five capacities together in words */
    size_t store_words;
    uint32_t *output; /* what a burst reads: a word for each of its reads */
    size_t output_words;
};

/* What a replay gives. */
struct thymewax_replayed {
    uint32_t number;             /* 0, 24, 25, 26 or 27 */
    uint32_t count;              /* how many records were done */
    struct thymewax_answer last; /* the last one's answer; 0, 0 if none was done */
};

/* Where a section lies in its file. */
struct thymewax_place {
    uint32_t number; /* 0, 24, 25 or 26 */
    uint32_t first;  /* its first byte; 0 if refused */
    uint32_t bytes;  /* its length, 12 bytes a record; 0 if refused */
};

/* How long the store for these capacities is. */
static inline size_t thymewax_store_words(const uint32_t capacities[THYMEWAX_QUEUES])
{
    size_t words = 0;
    for (int i = 0; i < THYMEWAX_QUEUES; i++)
        words += capacities[i];
    return words;
}

/* Makes a fresh model, held in reset, with an empty output. The store may hold
 * anything. Gives 0 or 23; after 23 every call on the model is answered 21. A
 * store of another length than thymewax_store_words has every call answered 22. */
static inline uint32_t thymewax_model_set_up(struct thymewax *m,
                                             const uint32_t capacities[THYMEWAX_QUEUES],
                                             const uint32_t watermarks[THYMEWAX_QUEUES],
                                             uint32_t id,
                                             uint32_t *store, size_t store_words)
{
    /* Kept of no bank: it stays where the set-up is refused. */
    for (int i = 0; i < THYMEWAX_IMAGE_WORDS; i++)
        m->kept.image[i] = 0;
    for (int i = 0; i < THYMEWAX_OFFLOAD_WORDS; i++)
        m->kept.commands[i] = m->kept.payloads[i] = 0;
    for (int i = 0; i < THYMEWAX_FLAG_BYTES; i++)
        m->kept.flags[i] = 0;
    m->store = store;
    m->store_words = store_words;
    m->output = NULL;
    m->output_words = 0;
    return thymewax_set_up(m->kept.image, THYMEWAX_IMAGE_WORDS,
                           m->kept.flags, m->kept.commands, m->kept.payloads,
                           capacities[0], capacities[1], capacities[2],
                           capacities[3], capacities[4],
                           watermarks[0], watermarks[1], watermarks[2],
                           watermarks[3], watermarks[4], id);
}

/* Any call, by the numbers of its record: thymewax_step on a model. */
static inline struct thymewax_answer thymewax_model_step(struct thymewax *m,
                                                         uint32_t letter, uint32_t offset,
                                                         uint32_t first, uint32_t second)
{
    uint64_t packed = thymewax_step(m->kept.image, THYMEWAX_IMAGE_WORDS,
                                    m->kept.flags, m->kept.commands, m->kept.payloads,
                                    m->store, m->store_words,
                                    m->output, m->output_words,
                                    letter, offset, first, second);
    uint64_t high = packed >> 32;
    struct thymewax_answer answer;
    answer.value = packed & 0xffffffffu;
    answer.number = high & 0xffffffffu;
    return answer;
}

/* All numbers below are 32 bits wide, so that C cuts none in silence: an offset
 * above 65535, or a byte, an address or a code above 255, is answered 27. */

/* The host reads a register. The value is what the register shows; a read of
 * CMDR, SDI or IBI takes the first word of the queue. An empty one is answered
 * THYMEWAX_EMPTY, with the word last read from it since the release as the value,
 * 0 if there was none. */
static inline struct thymewax_answer thymewax_read(struct thymewax *m, uint32_t offset)
{
    return thymewax_model_step(m, THYMEWAX_LETTER_READ, offset, 0, 0);
}

/* The host writes a register. */
static inline struct thymewax_answer thymewax_write(struct thymewax *m, uint32_t offset,
                                                    uint32_t value)
{
    return thymewax_model_step(m, THYMEWAX_LETTER_WRITE, offset, value, 0);
}

/* The bus starts the command that waits first in CMD. The value is its first word. */
static inline struct thymewax_answer thymewax_start(struct thymewax *m)
{
    return thymewax_model_step(m, THYMEWAX_LETTER_START, 0, 0, 0);
}

/* A byte is sent to the device. The value is the byte, the most significant of
 * its word first. */
static inline struct thymewax_answer thymewax_send(struct thymewax *m)
{
    return thymewax_model_step(m, THYMEWAX_LETTER_SEND, 0, 0, 0);
}

/* A byte is received from the device. */
static inline struct thymewax_answer thymewax_receive(struct thymewax *m, uint32_t byte)
{
    return thymewax_model_step(m, THYMEWAX_LETTER_RECEIVE, 0, byte, 0);
}

/* The bus finishes the transfer with a code, THYMEWAX_CODE_NO_ERROR or another of
 * them. docs/ENDINGS.md says which when. The value is the receipt, which goes to
 * CMDR: THYMEWAX_RECEIPT_ERROR and the others. In a burst it is 0. */
static inline struct thymewax_answer thymewax_finish(struct thymewax *m, uint32_t code)
{
    return thymewax_model_step(m, THYMEWAX_LETTER_FINISH, 0, code, 0);
}

/* A device requests an interrupt. The value is the entry, which goes to IBI:
 * THYMEWAX_INTERRUPT_ADDRESS and the others. */
static inline struct thymewax_answer thymewax_interrupt(struct thymewax *m, uint32_t address,
                                                        uint32_t byte)
{
    return thymewax_model_step(m, THYMEWAX_LETTER_INTERRUPT, 0, address, byte);
}

/* In an address assignment a device requests an address, by two words of its own,
 * which go to SDI. */
static inline struct thymewax_answer thymewax_request(struct thymewax *m, uint32_t first,
                                                      uint32_t second)
{
    return thymewax_model_step(m, THYMEWAX_LETTER_REQUEST, 0, first, second);
}

/* The bus takes the address word from SDO for the device that requested. The value
 * is the address, with THYMEWAX_WRONG_PARITY too: write a right word, then take
 * again. */
static inline struct thymewax_answer thymewax_take_address(struct thymewax *m)
{
    return thymewax_model_step(m, THYMEWAX_LETTER_TAKE_ADDRESS, 0, 0, 0);
}

/* Starts a burst over the offload commands. Its transfers follow one another by
 * send, receive and finish; a finish of a read puts its word into the output. */
static inline struct thymewax_answer thymewax_trigger(struct thymewax *m)
{
    return thymewax_model_step(m, THYMEWAX_LETTER_TRIGGER, 0, 0, 0);
}

/* Replays a section on a model: thymewax_replay. SIZE_MAX as limit is no limit.
 * Where it is refused, count and last answer are 0. */
static inline struct thymewax_replayed thymewax_model_replay(struct thymewax *m,
                                                             const uint8_t *file,
                                                             size_t file_bytes,
                                                             uint32_t section, size_t limit)
{
    uint32_t told[3] = {0, 0, 0};
    struct thymewax_replayed replayed;
    replayed.number = thymewax_replay(m->kept.image, THYMEWAX_IMAGE_WORDS,
                                      m->kept.flags, m->kept.commands, m->kept.payloads,
                                      m->store, m->store_words,
                                      file, file_bytes, section, limit, told, 3);
    replayed.count = told[0];
    replayed.last.value = told[1];
    replayed.last.number = told[2];
    return replayed;
}

/* Finds a section of a trace file: thymewax_section. */
static inline struct thymewax_place thymewax_find_section(const uint8_t *file,
                                                          size_t file_bytes,
                                                          uint32_t section)
{
    uint32_t found[2] = {0, 0};
    struct thymewax_place place;
    place.number = thymewax_section(file, file_bytes, section, found, 2);
    place.first = found[0];
    place.bytes = found[1];
    return place;
}

#endif
