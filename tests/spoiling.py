"""Damage to a store's words: each kind writes to the words of a store that has this model's sizes."""

from model import MARK, slots_for

SPOILED = 0xFFFFFFFF
# a place and a value with which the words are no register; an older version took a most of up to 65535
NO_REGISTER = ((0, 0), (0, MARK ^ 1), (1, 0), (1, 17), (2, 1), (2, 17), (3, 0), (3, 24577), (3, 65535))


def put_sizes_right(subject, model):
    """Words 0 to 3 as make wrote them."""
    for at, value in enumerate((MARK, model.order, model.k, model.most)):
        subject.store[at] = value


def spoil(random, subject, model):
    """Words 0 to 3 right, all others FFFFFFFF."""
    put_sizes_right(subject, model)
    for at in range(4, len(subject.store)):
        subject.store[at] = SPOILED


def scatter(random, subject, model):
    """Some words become any number, or a neighbour's."""
    for _ in range(random.randint(1, 8)):
        at = random.randrange(4, len(subject.store))
        other = subject.store[random.randrange(4, len(subject.store))]
        subject.store[at] = random.choice((random.getrandbits(32), random.randrange(20), other, SPOILED, subject.store[at] + 1 & SPOILED))


def misnumber(random, subject, model):
    """The numbers that some blocks carry, the root's among them, and that of the blocks held become others."""
    width, slots = 8 + 10 * (model.k - 1), slots_for(model.k, model.most)
    for slot in {0, *(random.randrange(slots) for _ in range(random.randint(0, 4)))}:
        numbers = (random.randint(0, model.most), model.most + 1, subject.store[12 + slot * width] + 1 & SPOILED, random.getrandbits(32), SPOILED)
        subject.store[12 + slot * width] = random.choice(numbers)
    if random.random() < 0.5:
        subject.store[6] = random.choice((0, random.randint(1, slots), slots, slots + 1, random.getrandbits(32), SPOILED))


def misplace(random, subject, model):
    """The levels and codes of some blocks, the root's among them, become others."""
    width, slots = 8 + 10 * (model.k - 1), slots_for(model.k, model.most)
    for slot in {0, *(random.randrange(slots) for _ in range(random.randint(0, 4)))}:
        levels = (0, random.randint(1, model.order), model.order + 1, random.getrandbits(32), SPOILED)
        at, value = random.choice(((0, random.choice(levels)), (1, random.getrandbits(2 * model.order)), (1, random.getrandbits(32))))
        subject.store[8 + slot * width + at] = value


def copy_slot(random, subject, model):
    """One slot's words over another's: two slots claim to be one block."""
    width = 8 + 10 * (model.k - 1)
    slots = slots_for(model.k, model.most)
    source, target = 8 + random.randrange(slots) * width, 8 + random.randrange(slots) * width
    for i in range(width):
        subject.store[target + i] = subject.store[source + i]


def name_each_other(random, subject, model):
    """Slots whose elements are blocks in other slots, and the own one, by the layout of docs/DECISIONS.md, numbers 8, 9 and 94."""
    width = 8 + 10 * (model.k - 1)
    slots = slots_for(model.k, model.most)
    for slot in range(slots):
        at = 8 + slot * width
        level = random.randint(1, model.order) if slot else model.order
        subject.store[at], subject.store[at + 1] = level, 0
        subject.store[at + 2] = random.randint(0, 5 * (model.k - 1))
        for element in range(5 * (model.k - 1)):
            tag = 1 + random.randrange(slots) + random.randint(1, model.order) * 2**20
            subject.store[at + 8 + 2 * element] = random.choice((0, 0, element))
            subject.store[at + 9 + 2 * element] = random.choice((tag, tag, 0))


def name_next(random, subject, model):
    """Each slot is a block one level lower than the last, and names the next slot as often as it can, by the same layout: so its parent says of
    each block what the slot says, and there are more of them than slots."""
    width, elements = 8 + 10 * (model.k - 1), 5 * (model.k - 1)
    last = min(model.order, slots_for(model.k, model.most)) - 1
    for slot in range(last + 1):
        level = model.order - slot
        tag = 1 + slot + 1 + (level - 1) * 2**20 if slot < last else 0
        for i, value in enumerate((level, 0, elements, 0, 0, 0, 0, 0) + (0, tag) * elements):
            subject.store[8 + slot * width + i] = value


def other_sizes(random, subject, model):
    """One of words 0 to 3 is another, beyond its limits or not."""
    at, value = random.choice(NO_REGISTER)
    within_limits = (0, random.randint(1, 16), random.randint(2, 16), random.randint(1, model.most + 9))
    subject.store[at] = value if at == 0 or random.random() < 0.5 else within_limits[at]


DAMAGES = (spoil, scatter, scatter, misnumber, misnumber, misplace, copy_slot, name_each_other, name_next, other_sizes)
