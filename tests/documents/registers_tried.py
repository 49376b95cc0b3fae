#!/usr/bin/env python3
"""Tries registers.py: what it says where the table, or a file that names registers, is another.

    registers_tried.py

A register that stands in the table alone is missed at every place that has to have it, LACKED. A changed offset, field,
access, first value or number of the table is named with every file that has the old one, a changed file by itself, and a
table that cannot be is refused. Exit status 0 only if all is so.
"""

import pathlib
import sys
import tomllib

sys.path.insert(0, str(pathlib.Path(__file__).resolve().parents[2]))

from tests.documents.registers import differences, read_file
from tests.shared.trial import Wrong, equal, main, raises
import register_table

TABLE = 'docs/registers.toml'
OFFSETS = sum(len(one.offsets) for one in register_table.load().registers)

# A register that nothing else has, with a word of its own.
ALONE = '''
[register.SPARE]
offset = 0xff0
access = "rw"
variant = "Spare"
row = "holds"
word = "spare"
text = "A level."

[word.spare]
text = "A level."
python = "Spare"
[word.spare.fields]
level = { bits = "15:0", page = "SPARE_LEVEL", text = "The level.", values = "spare" }

[values.spare]
NONE = { is = 0, text = "none" }
'''
# The places that have to have it, as they are named.
LACKED = f'''
crates/registers/specs/Map.antt: lacks Spare
crates/model/specs/Registers.antt: lacks row Spare
crates/registers/src/lib.rt, enum Register: lacks Spare
crates/registers/src/lib.rt, register_at: lacks Spare
crates/read/src/lib.rt: lacks Spare
crates/write/src/lib.rt: lacks Spare
docs/RULES.md: no rule on SPARE, 0xff0
docs/RULES.md: {OFFSETS} offsets, the table has {OFFSETS + 1}
include/thymewax.h: lacks THYMEWAX_REG_SPARE
include/thymewax.h: lacks THYMEWAX_SPARE_LEVEL
include/thymewax.h: lacks THYMEWAX_SPARE_NONE
bindings/rust/src/registers.rs: lacks SPARE
bindings/rust/src/fields.rs: lacks spare::LEVEL
bindings/rust/src/fields.rs: lacks spare::NONE
bindings/python/thymewax/registers.py, Register: lacks SPARE
bindings/python/thymewax/registers.py, Spare: lacks NONE
bindings/python/thymewax/formats.py: lacks Spare
docs/registers.svd: lacks SPARE
docs/registers.svd: lacks SPARE.SPARE_LEVEL
docs/registers.svd: lacks SPARE.SPARE_LEVEL NONE
tools/wording.py: no words for a read of SPARE: spare
tools/wording.py: no words for a write to SPARE: spare
reference/src/engine.rs: lacks 0xff0, SPARE
bench/src/plain/offset.rs: lacks 0xff0, SPARE
include/thymewax.h: not as tools/names.py --write leaves it
bindings/rust/src/registers.rs: not as tools/names.py --write leaves it
bindings/rust/src/fields.rs: not as tools/names.py --write leaves it
bindings/python/thymewax/registers.py: not as tools/names.py --write leaves it
docs/registers.svd: not as tools/names.py --write leaves it
'''

# Edits of the table, and what each is told of the files that have it otherwise. What tools/names.py would write anew is
# left out.
CHANGED = (
    ('offset = 0x100', 'offset = 0x104', '''
crates/registers/specs/Map.antt: Ops is 0x100, the table has 0x104
crates/registers/src/lib.rt, register_at: Ops is 0x100, the table has 0x104
docs/RULES.md: no rule on OPS, 0x104
docs/RULES.md: 0x100 is not in the table
include/thymewax.h: THYMEWAX_REG_OPS is 0x100, the table has 0x104
bindings/rust/src/registers.rs: OPS is 0x100, the table has 0x104
bindings/python/thymewax/registers.py, Register: OPS is 0x100, the table has 0x104
docs/registers.svd: OPS is 0x100, 1, rw, 0x00000080, the table has 0x104, 1, rw, 0x00000080
reference/src/engine.rs: lacks 0x104, OPS
reference/src/engine.rs: 0x100, no register is not in the table
bench/src/plain/offset.rs: lacks 0x104, OPS
bench/src/plain/offset.rs: 0x100, no register is not in the table
'''),
    ('bits = "19:8", page = "CMDR_FIFO_BUFFER_LENGTH"', 'bits = "18:8", page = "CMDR_FIFO_BUFFER_LENGTH"', '''
include/thymewax.h: THYMEWAX_RECEIPT_LENGTH is 0x000fff00, the table has 0x0007ff00
bindings/rust/src/fields.rs: receipt::LENGTH is 19:8, the table has 18:8
bindings/python/thymewax/formats.py: Receipt.length of 0xfff800ff is 0x800, the table has 0x0
docs/registers.svd: CMDR_FIFO.CMDR_FIFO_BUFFER_LENGTH is 19:8 ro, the table has 18:8 ro
'''),
    ('bits = "7:1", page = "CMD_DA"', 'bits = "7:2", page = "CMD_DA"', '''
include/thymewax.h: THYMEWAX_COMMAND_ADDRESS is 0x000000fe, the table has 0x000000fc
bindings/rust/src/fields.rs: command::ADDRESS is 7:1, the table has 7:2
bindings/python/thymewax/formats.py: Command.address of 0x000000fc is 0x7e, the table has 0x3f
bindings/python/thymewax/formats.py: Command.address of 0xffffff03 is 0x1, the table has 0x0
docs/registers.svd: CMD_FIFO.CMD_DA is 7:1 wo, the table has 7:2 wo
'''),
    ('page = "SDI_EMPTY"', 'page = "SDI_NONE"', '''
bindings/python/thymewax/registers.py, Status: lacks SDI_NONE
bindings/python/thymewax/registers.py, Status: SDI_EMPTY is not in the table
docs/registers.svd: lacks FIFO_STATUS.SDI_NONE
docs/registers.svd: FIFO_STATUS.SDI_EMPTY is not in the table
'''),
    ('NACK = { is = 6', 'NACK = { is = 7', '''
include/thymewax.h: THYMEWAX_CODE_NACK is 6, the table has 7
bindings/rust/src/fields.rs: code::NACK is 6, the table has 7
bindings/python/thymewax/registers.py, Code: NACK is 0x006, the table has 0x007
docs/registers.svd: CMDR_FIFO.CMDR_FIFO_ERROR NACK is 6, the table has 7
'''),
    ('OFFLOAD = { is = 1', 'OFFLOADED = { is = 1', '''
docs/registers.svd: lacks OPS.OPS_MODE OFFLOADED
docs/registers.svd: OPS.OPS_MODE OFFLOAD is not in the table
'''),
    ('access = "rw"\nvariant = "Scratch"\nrow = "holds"', 'access = "ro"\nvariant = "Scratch"\nrow = "shows"', '''
crates/model/specs/Registers.antt: row Scratch is holds, rw, the table has shows, ro
docs/registers.svd: SCRATCH is 0x008, 1, rw, 0x00000000, the table has 0x008, 1, ro, 0x00000000
docs/registers.svd: SCRATCH.SCRATCH is 31:0 rw, the table has 31:0 ro
'''),
    ('first = 0x80', 'first = 0', '''
docs/registers.svd: OPS is 0x100, 1, rw, 0x00000080, the table has 0x100, 1, rw, 0x00000000
'''),
    ('text = "How the controller operates."\nmore', 'text = "How it works."\nmore', ''),
)

# Tables that cannot be.
REFUSED = (
    ('offset = 0x100', 'offset = 0x0e8'),
    ('offset = 0x100', 'offset = 0x102'),
    ('offset = 0x100\n', ''),
    ('offset = 0x100', 'offset = "0x100"'),
    ('word = "ops"', 'word = "opts"'),
    ('row = "takes"\nword = "receipt"', 'row = "pushes"\nword = "receipt"'),
    ('clears = "7:5"\n', ''),
    ('first = 0x80', 'first = 0x180'),
    ('bits = "6:5", page = "OPS_SPEED_GRADE"', 'bits = "7:5", page = "OPS_SPEED_GRADE"'),
    ('bits = "6:5", page = "OPS_SPEED_GRADE"', 'bits = "5:6", page = "OPS_SPEED_GRADE"'),
    ('bits = "6:5", page = "OPS_SPEED_GRADE"', 'bits = "32", page = "OPS_SPEED_GRADE"'),
    ('page = "OPS_SPEED_GRADE"', 'pages = "OPS_SPEED_GRADE"'),
    ('page = "CMDR_FIFO_SYNC"', 'page = "CMDR_FIFO_SYNC", access = "rw"'),
    ('values = "speed"', 'values = "speeds"'),
    ('MHZ_12_50 = { is = 3', 'MHZ_12_50 = { is = 4'),
    ('[register.OPS]', '[register.OPS'),
)

# Edits of the files, and what is told of each.
FILES = (
    ('crates/registers/specs/Map.antt', '0x100 is Ops', '0x104 is Ops', 'Ops is 0x104, the table has 0x100'),
    ('crates/registers/specs/Map.antt', '0x100 is Ops', '0x100 is Ops ∷ 0x104 is Other', 'Other is not in the table'),
    ('crates/registers/specs/Map.antt', '0x100 is Ops', '0x100 is Ops ∷ 0x104 is Ops', 'a second Ops is not in the table'),
    ('crates/registers/specs/Map.antt', '0x100 is Ops', '0x100 for Ops', "the entry '0x100 for Ops' is not in the table"),
    ('crates/registers/specs/Map.antt', '∷ 0x100 is Ops', '', 'lacks Ops'),
    ('crates/registers/specs/Map.antt', '(base + 0x3c)', '(base + 0x38)',
     'OffloadCmd is 0x2c0 to 0x2f8, the table has 0x2c0 to 0x2fc'),
    ('crates/registers/specs/Map.antt', '(o - 0x300)', '(o - 0x304)', 'lacks OffloadSdo'),
    ('crates/model/specs/Registers.antt', 'row Ops = holds ops', '', 'lacks row Ops'),
    ('crates/model/specs/Registers.antt', 'row Ops = holds ops', 'row Ops = absent', 'lacks row Ops'),
    ('crates/model/specs/Registers.antt', 'row Ops = holds ops', 'row Ops = keeps ops',
     'row Ops is keeps, ?, the table has holds, rw'),
    ('crates/model/specs/Registers.antt', 'row SdiFifo = takes Sdi', 'row SdiFifo = shows (λ s. 0)',
     'row SdiFifo is shows, ro, the table has takes, ro'),
    ('crates/model/specs/Registers.antt', 'shown ibi_config s = 0', 'shown ibi_config s = s.regs.config',
     'row IbiConfig is holds, rw, the table has holds, wo'),
    ('include/thymewax.h', 'THYMEWAX_REG_OPS = 0x100', 'THYMEWAX_REG_OPS = 0x104',
     'THYMEWAX_REG_OPS is 0x104, the table has 0x100'),
    ('include/thymewax.h', '/* bytes moved */', '/* bytes */', 'not as tools/names.py --write leaves it'),
    ('bindings/rust/src/registers.rs', 'pub const OPS: u16 = 0x100;\n', '', 'lacks OPS'),
    ('bindings/rust/src/fields.rs', 'ERROR: Field = Field::new(23, 20)', 'ERROR: Field = Field::new(23, 0)',
     'receipt::ERROR is 23:0, the table has 23:20'),
    ('bindings/python/thymewax/registers.py', 'OPS = 0x100', 'OPS = 0x104', None),
    ('bindings/python/thymewax/formats.py', 'word >> 20 & 0xf', 'word >> 20 & 7',
     'Receipt.error of 0x00f00000 is 0x7, the table has 0xf'),
    ('bindings/python/thymewax/formats.py', "'header': (21, 1)", "'header': (20, 1)", 'Command.word has no header'),
    ('docs/registers.svd', '<bitRange>[6:5]</bitRange>', '<bitRange>[6:6]</bitRange>',
     'OPS.OPS_SPEED_GRADE is 6:6 rw, the table has 6:5 rw'),
    ('docs/RULES.md', '**ops.keeps**, 0x100', '**ops.keeps**', 'no rule on OPS, 0x100'),
    ('reference/src/engine.rs', '0x100 => Register::Ops', '0x104 => Register::Ops', 'lacks 0x100, OPS'),
    ('bench/src/plain/offset.rs', 'COMMANDS_LAST: u16 = 0x2fc', 'COMMANDS_LAST: u16 = 0x2f8',
     'lacks 0x2fc, OFFLOAD_CMD'),
    ('reference/src/engine.rs', '0x200..=0x210', '0x200..=0x20c', 'lacks 0x210, IBI_WATERMARK'),
)


def edited(path, old, new):
    """The text of a file with a piece of it changed."""
    text = read_file(path)
    if text.count(old) != 1:
        raise Wrong(f'{path} has {old!r} {text.count(old)} times, not once')
    return text.replace(old, new)


def lines(text):
    return text.strip().splitlines()


def alone():
    table = register_table.of(tomllib.loads(read_file(TABLE) + ALONE))
    equal('a register in the table alone', 'SPARE', differences(table), lines(LACKED))


def changed():
    """Each edit of the table is told; that names are to be written anew is told as well, and left out here."""
    for old, new, wanted in CHANGED:
        told = differences(register_table.of(tomllib.loads(edited(TABLE, old, new))))
        anew = [line for line in told if line.endswith('not as tools/names.py --write leaves it')]
        equal('changed tables', new, bool(anew), True)
        equal('changed tables', new, [line for line in told if line not in anew], lines(wanted))


def refused():
    for old, new in REFUSED:
        text = edited(TABLE, old, new)
        raises('tables that cannot be', new, (register_table.Wrong, tomllib.TOMLDecodeError),
               lambda: register_table.of(tomllib.loads(text)))


def files():
    table = register_table.load()
    for path, old, new, wanted in FILES:
        text = edited(path, old, new)
        told = differences(table, lambda other: text if other == path else read_file(other))
        equal('changed files', (path, new), bool(told) and all(line.startswith(path) for line in told), True)
        if wanted:
            told = [line.removeprefix(path).lstrip(': ') for line in told]
            equal('changed files', (path, new, told), wanted in told, True)


if __name__ == '__main__':
    main('registers_tried', [alone, changed, refused, files])
