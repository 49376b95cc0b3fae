"""Which codes end a transfer, by its kind and by how far it is (`finish.codes`).

An allowed code ends the transfer, or finds no room for the receipt; any other code is refused.
"""

from thymewax import Code

# How many of the commanded bytes have moved.
NO_BYTES, NONE_MOVED, PART_MOVED, ALL_MOVED = 'm = L = 0', 'm = 0 < L', '0 < m < L', 'm = L > 0'
# How far ENTDAA is.
NO_REQUEST, REQUEST_OPEN, REQUEST_SERVED = 'no request made', 'request open', 'request served'

CODES = range(16)
# The codes that receipts have (`receipt.codes`).
NO_ERROR, CE0, CE2, NACK, UNKNOWN = map(
    int, (Code.NO_ERROR, Code.CE0, Code.CE2, Code.NACK, Code.UNKNOWN_ADDRESS))
# Those with which a write takes its payload out of SDO (`finish.removal`).
UNSENT = (CE2, NACK, UNKNOWN)


def payload(no_bytes, none_moved, part_moved, all_moved):
    return {NO_BYTES: no_bytes, NONE_MOVED: none_moved, PART_MOVED: part_moved,
            ALL_MOVED: all_moved}


UNATTACHED = {NO_BYTES: (UNKNOWN,), NONE_MOVED: (UNKNOWN,)}
BY_DEVICE = {
    'private write': payload((NO_ERROR, NACK), (NACK,), (), (NO_ERROR,)),
    'private write, header': payload((NO_ERROR, CE2, NACK), (CE2, NACK), (), (NO_ERROR,)),
    'private read': payload((NO_ERROR, NACK), (NO_ERROR, NACK), (NO_ERROR,), (NO_ERROR,)),
    'private read, header': payload((NO_ERROR, CE2, NACK), (NO_ERROR, CE2, NACK), (NO_ERROR,),
                                    (NO_ERROR,)),
    'direct CCC write': payload((NO_ERROR, CE2, NACK), (CE2, NACK), (), (NO_ERROR,)),
    'direct CCC read': payload((NO_ERROR, CE2, NACK), (CE0, CE2, NACK), (CE0,), (NO_ERROR,)),
}
ENDINGS = {
    **BY_DEVICE,
    'broadcast CCC write': payload((NO_ERROR, CE2), (CE2,), (), (NO_ERROR,)),
    'broadcast CCC read': payload((NO_ERROR, CE2), (CE0, CE2), (CE0,), (NO_ERROR,)),
    'ENTDAA': {NO_REQUEST: (NO_ERROR, CE2), REQUEST_OPEN: (), REQUEST_SERVED: (NO_ERROR,)},
    **{kind + ', not attached': UNATTACHED for kind in BY_DEVICE},
}
# A burst has private commands alone.
BURST_ENDINGS = {kind: states for kind, states in ENDINGS.items() if kind.startswith('private')}


def kind_name(transfer, ccc, direct, header):
    """The name of a transfer's kind in ENDINGS."""
    if transfer.entdaa:
        return 'ENTDAA'
    name = ('direct CCC ' if direct else 'broadcast CCC ') if ccc else 'private '
    name += 'read' if transfer.read else 'write'
    if header and not ccc:
        name += ', header'
    return name if transfer.attached else name + ', not attached'
