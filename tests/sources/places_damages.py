"""Damages of the crates that places.py must see, each in its place; and changes that it must let through."""

RING = 'crates/ring/src/lib.rt'
MOVES = 'crates/ring_moves/src/lib.rt'
RINGS = 'crates/rings/src/lib.rt'
SETTLE = 'crates/settle/src/lib.rt'
REPLAY = 'crates/host_replay/src/lib.rt'
QUEUES = 'crates/queues/src/lib.rt'
EFFECT = 'crates/effect/src/lib.rt'
PLAYER = 'crates/player/src/lib.rt'
LATER = 'crates/later/src/lib.rt'
PLACE = 'if i < left { r.head + i } else { i - left }'

# A ring that a later crate brings, with a body for its push.
OWN = '''// A list of bytes.
pub struct List {
    pub cap: u32,
    pub list_head: u32,
    pub count: u32,
    pub whole: bool,
    pub kept: [u8; 4]
}

fn push(l: List, bytes: &mut [u8], b: u8) -> List {
%s
}
'''

METHOD = OWN.partition('fn push')[0] + '''impl List {
    fn push(self, bytes: &mut [u8], b: u8) {
%s    }
}
'''

# What it is, the source, what is replaced there (nothing: the source is new) and by what, and the fault, none where it is
# harmless.
DAMAGES = (
    # in ring code
    ('a remainder in place', RING, PLACE, '(r.head + i) % r.cap.0', 'ring::place divides'),
    ('a division in place', RING, PLACE, 'r.head + i - (r.head + i) / r.cap.0 * r.cap.0', 'ring::place divides'),
    ('a remainder by its name in place', RING, PLACE, 'u32::rem_euclid(r.head + i, r.cap.0)', 'ring::place divides'),
    ('a shift in push', RING, 'r.level.0 + 1;', 'r.level.0 + (2 >> 1);', 'ring::push divides'),
    ('a round-up in take', RING, '- n.0;', '- (n.0 + 3) / 4;', 'ring::take divides'),
    ('a round-up by eight', RING, '+ 3) / 4', '+ 3) / 8', 'ring::words_for divides'),
    ('a remainder in clear', RING, 'moved(r, 0, 0)', 'moved(r, r.cap.0 % r.cap.0, 0)', 'ring::clear divides'),
    ('a remainder in a function that place could call', RING, 'pub struct Ring {',
     'fn wrapped(n: u32, cap: u32) -> u32 {\n    n % cap\n}\n\npub struct Ring {', 'ring::wrapped divides'),
    ('a division in a constant', RING, 'pub struct Ring {', 'const HALF: u32 = 8 / 2;\n\npub struct Ring {', 'ring divides'),
    # in callers
    ('a division in what pushes', MOVES, 'ring::push(one, base, store, w)', 'ring::push(one, base / 1, store, w)',
     'ring_moves::push_two has a head and divides'),
    ('a remainder in what takes', MOVES, 'Words(k)', 'Words(k % 1024)', 'ring_moves::apply has a head and divides'),
    ('a remainder in what clears', MOVES, 'Op::Clear => ring::clear(r)',
     'Op::Clear => if base % 2 == 0 { ring::clear(r) } else { r }', 'ring_moves::apply has a head and divides'),
    ('a division in what removes', 'crates/finish/src/lib.rt', 'ring::words_for(t.length).0.min', '(t.length.0 / 4).min',
     'finish::removed_words counts words and divides'),
    ('a watermark cut where it is kept', 'crates/watermarks/src/lib.rt', 'Words(x)', 'Words(x % 0x10000)',
     'watermarks::counts_with counts words and divides'),
    ('a count of words cut to 16 bits', 'crates/finish/src/lib.rt', 'ring::words_for(t.length).0.min', '(t.length.0 % 0x10000).min',
     'finish::removed_words counts words and divides'),
    ('a head cut to 16 bits', RINGS, 'head: h.of(q),', 'head: h.of(q) % 0x10000,', 'rings::ring has a head and divides'),
    ('a division in the operation that removes', EFFECT, 'if comes { Op::Take(n) }', 'if comes { Op::Take(n / 1) }',
     'effect::take_if passes an operation and divides'),
    ('a division where an effect is settled', SETTLE, 'let next = State {', 'let n = store.len() / 5;\n    let next = State {',
     'settle::settle has a head and divides'),
    ('a division in where an area begins', RINGS, 'let sdi = k.sdi.0 as usize;', 'let sdi = k.sdi.0 as usize / 1;',
     'rings::base is called by rings::word and divides'),
    # heads and places elsewhere
    ('head and level added', RINGS, 'head: h.of(q),', 'head: h.of(q) + l.of(q).0,', 'rings::ring has a head and computes'),
    ('a wrapped sum', MOVES, 'cmd: rings.cmd.head,', 'cmd: rings.cmd.head.wrapping_add(1),',
     'ring_moves::gather has a head and computes'),
    ('a mask', MOVES, 'cmd: rings.cmd.head,', 'cmd: rings.cmd.head & 1023,', 'ring_moves::gather has a head and computes'),
    ('the next of five heads', QUEUES, 'Queue::Ibi => self.ibi,', 'Queue::Ibi => self.ibi + 1,', 'queues::of is called by'),
    ('a head assigned from a difference', REPLAY, 'let h = image_fields::heads_in(words);',
     'let mut h = image_fields::heads_in(words);\n    h.cmd = 1025 - 1;', 'host_replay::replay has a head and computes'),
    ('heads got by a call, one raised', 'crates/host_calls/src/lib.rt', 'let h = image_fields::heads_in(image);',
     'let mut h = image_fields::heads_in(image);\n    h.cmd = h.cmd + 1;', 'host_calls::step has a head and computes'),
    ('a head handed to what subtracts', REPLAY, 'let h = image_fields::heads_in(words);',
     'let mut h = image_fields::heads_in(words);\n    h.cmd = bank::room(1024, h.cmd);',
     'bank::room is handed a head by host_replay::replay and computes'),
    ('a head bound, then handed to what subtracts', MOVES, '    gather(Five {',
     '    let n = h.cmdr;\n    let room = bank::room(k.cmdr.0, n);\n    gather(Five {',
     'bank::room is handed a head by ring_moves::move_all and computes'),
    ('a head by its queue bound, then handed to what subtracts', MOVES, '    gather(Five {',
     '    let n = h.of(Queue::Cmdr);\n    let room = bank::room(k.cmdr.0, n);\n    gather(Five {',
     'bank::room is handed a head by ring_moves::move_all and computes'),
    ('a head by its queue, handed to what subtracts', MOVES, '    gather(Five {',
     '    let room = bank::room(k.cmdr.0, h.of(Queue::Cmdr));\n    gather(Five {',
     'bank::room is handed a head by ring_moves::move_all and computes'),
    ('a head of a result, handed to what subtracts', PLAYER, 'a = y.answer;',
     'a = y.answer;\n        let n = bank::room(1024, y.heads.cmd);',
     'bank::room is handed a head by player::replay_parts and computes'),
    ('heads of a result bound, then one handed to what subtracts', PLAYER, 'a = y.answer;',
     'a = y.answer;\n        let g = y.heads;\n        let n = bank::room(1024, g.cmd);',
     'bank::room is handed a head by player::replay_parts and computes'),
    ('a head made of other numbers', 'crates/image_fields/src/lib.rt', 'cmd: image[2]', 'cmd: bank::room(image[0], image[3])',
     'bank::room is called by image_fields::heads_in and computes'),
    ('a push without a ring', SETTLE, 'let next = State {', 'store[st.levels.cmd.0 as usize] = 0;\n    let next = State {',
     'settle::settle indexes store, where a ring lies'),
    # a ring that comes later
    ('a later ring with a remainder', LATER, '', OWN % '    bytes[(l.list_head % l.cap) as usize] = b;\n    l',
     'later::push has a head and divides'),
    ('a later ring with places of its own', LATER, '', OWN % '    bytes[(l.list_head + l.count) as usize] = b;\n    l',
     'later::push has a head and computes'),
    ('a later ring with a remainder in a method', LATER, '',
     METHOD % '        bytes[(self.list_head % self.cap) as usize] = b;\n', 'later::push has a head and divides'),
    ('a later ring with places of its own in a method', LATER, '',
     METHOD % '        bytes[(self.list_head + self.count) as usize] = b;\n', 'later::push has a head and computes'),
    ('a head handed to a method that subtracts', LATER, '', 'struct Gap {\n    room: u32,\n}\n\nimpl Gap {\n'
     '    fn less(self, n: u32) -> u32 {\n        self.room - n\n    }\n}\n\nfn left(h: bank::Heads, g: Gap) -> u32 {\n'
     '    g.less(h.cmd)\n}\n', 'later::less is handed a head by later::left and computes'),
    ('heads by another name, one handed on and raised', LATER, '', 'fn next(h: Five<u32>) -> u32 {\n    h.cmd + 1\n}\n\n'
     'fn other(h: bank::Heads) -> u32 {\n    next(h)\n}\n', 'later::next is handed a head by later::other and computes'),
    ('an operation by another name', LATER, '', 'type Moves = Option<effect::Op>;\n\nfn half(n: u32) -> Moves {\n'
     '    Some(effect::Op::Take(n / 2))\n}\n', 'later::half passes an operation and divides'),
    ('a head for a closure', LATER, '', 'fn each<F: Fn(u32) -> u32>(r: ring::Ring, f: &F) -> u32 {\n    f(r.head % 2)\n}\n',
     'later::each has a head and divides'),
    ('a later caller that divides', LATER, '', 'fn half(r: ring::Ring) -> ring::Ring {\n'
     '    ring::take(r, ring::Words(r.cap.0 / 2))\n}\n', 'later::half has a head and divides'),
    ('a later caller that indexes', LATER, '', 'fn again(r: ring::Ring, words: &mut [u32]) -> ring::Ring {\n'
     '    let w = words[0];\n    ring::push(r, 0, words, w)\n}\n', 'later::again indexes words, where a ring lies'),
    # harmless
    ('a comment', RING, PLACE, f'// (r.head + i) % r.cap.0\n    /* or / */ {PLACE}', ''),
    ('a contract', RING, 'requires { (Valid r) × (i ≤ r.cap.0) }',
     'requires { (Valid r) × (record { 0 = i % 7 / 2 }.0 ≤ r.cap.0) }', ''),
    ('a contract with a name', RING, 'requires { (Valid r) × (i ≤ r.cap.0) }',
     'requires place { (Valid r) × (record { 0 = i % 7 / 2 }.0 ≤ r.cap.0) }', ''),
    ('a ghost use', RING, 'ghost use Rattle.ring.specs.Units.{words_for};',
     'ghost use Rattle.ring.specs.Units.{words_for, ◌%◌, ◌/◌};', ''),
    ('letters', SETTLE, 'let next = State {', 'let slash = b\'/\';\n    let text = b"% // +";\n    let next = State {', ''),
    ('a fact among the fields', RING, '    pub level: Words,',
     '    pub level: Words,\n    ghost few: { level.0 % 7 < 8 / 2 },', ''),
    ('a trait, whose functions have no body', LATER, '', 'trait Lists {\n    fn push(&mut self, bytes: [u8; 4]) -> u32;\n}\n\n'
     'fn half(n: u32) -> u32 {\n    n / 2\n}\n', ''),
    ('a later ring by ring', LATER, '', 'fn give(r: ring::Ring, base: usize, words: &mut [u32], w: u32) -> ring::Ring {\n'
     '    if r.cap.0 <= r.level.0 {\n        return r;\n    }\n    ring::push(r, base, words, w)\n}\n', ''),
    ('a division of something else', LATER, '', 'fn half(n: u32) -> u32 {\n    let head = n + 1;\n    head / 2\n}\n', ''),
)
