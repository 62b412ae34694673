"""Damaged stores: every call ends within what was lent and answers as it must; load, fill and make mend the store.

What holds of every call on any store (values in range, zeros, what stays unchanged) is held in subject.py.
"""

import choices
from histories import last_look, step
from lent import octets, words
from model import Model, image_of, usable, within, words_needed
from spoiling import DAMAGES, NO_REGISTER, SPOILED, put_sizes_right
from subject import Subject, expect

WALKING = ("mark", "clear", "ask", "nearest", "count", "list", "save")
# a window wholly off the panel is answered without a look at the slots
NOTHING_THERE = (0, 0, 0)


def is_spoiled(store):
    return all(store[at] == SPOILED for at in range(4, words_needed(store[2], store[3])))


def decided(store, name, numbers):
    """The refusal of a call that walks the slots, where it is known without a walk, or 0; none where the walk may answer otherwise."""
    if not usable(store):
        return 3
    off = any(number >= 2 ** store[1] for number in numbers[:2])
    if len(numbers) == 4 and (numbers[0] > numbers[2] or numbers[1] > numbers[3]):
        return 8
    if off:
        return 0 if len(numbers) == 4 else 4
    if name == "nearest" and numbers[2] == 0:
        return 15
    # a count of the whole panel is the root's number, the fifth word of slot 0
    whole = name == "count" and numbers[:2] == (0, 0) and min(numbers[2:]) >= 2 ** store[1] - 1
    return 13 if is_spoiled(store) or whole and store[12] > store[3] else None


def arguments(random, model, name):
    """The numbers of a call, and its output: none, short, or long enough for anything."""
    if name == "save":
        return (), octets(random.randbytes(random.choice((0, 10, 700, 10 + 10 * model.most + 10))))
    if name == "list":
        return choices.window(random, model), words([random.getrandbits(32) for _ in range(random.choice((0, 1, model.most + 10)))])
    choose = {"count": choices.window, "nearest": choices.search}.get(name, choices.pixel)
    return choose(random, model), None


def walking_call(random, subject, model, name):
    numbers, output = arguments(random, model, name)
    due = decided(subject.store, name, numbers)
    answer = subject.call(name, *numbers, output=output)
    refusal = answer[0]
    # the walk itself gives none of these
    told = refusal if due is not None or refusal in (3, 4, 8, 15) else None
    expect(f"{name}{numbers} on a damaged store", told, due)
    if due == 0:
        expect(f"{name}{numbers} off a damaged panel", answer, NOTHING_THERE)
        subject.tally["windows off a damaged panel"] += 1
    if refusal == 13 and name in ("mark", "clear"):
        all_give_3(random, subject, model)


def make_call(random, subject, model):
    m, k, most = random.choice(((model.order, model.k, model.most), choices.sizes(random), choices.beyond(random, *choices.sizes(random))))
    needed = words_needed(k, most) if within("m", m) else 0
    due = 1 if needed == 0 else 2 if needed > len(subject.store) else 0
    expect(f"make({m}, {k}, {most}) in damaged words", subject.made(m, k, most), due)
    return Model(m, k, most) if due == 0 else None


def load_call(random, subject, model):
    """Load relies on words 0 to 3 only."""
    image, fresh = choices.image(random, model), Model(*(subject.store[at] for at in (1, 2, 3)))
    due = fresh.load(image) if usable(subject.store) else 3
    expect(f"load({image.hex()}) into a damaged store", subject.call("load", image=octets(image))[0], due)
    return fresh if due == 0 else None


def fill_call(random, subject, model):
    """So does fill."""
    codes, fresh = choices.given(random, model), Model(*(subject.store[at] for at in (1, 2, 3)))
    due = fresh.fill(codes) if usable(subject.store) else 3
    expect(f"fill({codes}) of a damaged store", subject.call("fill", codes=words(codes))[0], due)
    return fresh if due == 0 else None


def check_call(random, subject, model):
    """A store that is told sound is some set's: save gives its image."""
    refusal, sound, _ = subject.call("check")
    expect("check of a damaged store", refusal, 0 if usable(subject.store) else 3)
    if not sound:
        return None
    expect("check of spoiled words", is_spoiled(subject.store), False)
    subject.tally["told sound"] += 1
    fresh = Model(*(subject.store[at] for at in (1, 2, 3)))
    output = octets(bytes(10 + 10 * fresh.most))
    refusal, length, _ = subject.call("save", output=output)
    expect("save and load of a store told sound", (refusal, fresh.load(bytes(output.values()[:length]))), (0, 0))
    return fresh


OTHER_CALLS = {"make": make_call, "load": load_call, "fill": fill_call, "check": check_call}


def call(random, subject, model, name):
    """One call; it gives the model of the store where this is sound afterwards, or nothing."""
    return OTHER_CALLS[name](random, subject, model) if name in OTHER_CALLS else walking_call(random, subject, model, name)


def all_give_3(random, subject, model):
    """All calls but make, on words that are no register."""
    for name in WALKING:
        numbers, output = arguments(random, model, name)
        expect(f"{name} of no register", subject.call(name, *numbers, output=output)[0], 3)
    expect("check of no register", subject.call("check")[0], 3)
    expect("load into no register", subject.call("load", image=octets(model.image()))[0], 3)
    expect("fill of no register", subject.call("fill", codes=words(sorted(model.codes)))[0], 3)


def unusable(random, subject, model):
    """Each of the wrong sizes, and too few words."""
    for at, value in NO_REGISTER:
        wrong = Subject(subject.store.values(), subject.tally)
        wrong.store[at] = value
        all_give_3(random, wrong, model)
    needed = words_needed(model.k, model.most)
    short = Subject(subject.store.values()[: random.choice((0, 4, 7, 8, needed - 1))], subject.tally)
    all_give_3(random, short, model)


def further_calls(random, subject, model):
    """Random calls one after the other, with more damage now and then; where the store is mended, some calls on it as on a sound one."""
    for _ in range(random.randint(10, 30)):
        kind = random.random()
        if kind < 0.08:
            random.choice(DAMAGES)(random, subject, model)
        elif kind < 0.3:
            put_sizes_right(subject, model)
        fresh = call(random, subject, model, random.choice(WALKING + WALKING + tuple(OTHER_CALLS)))
        if fresh:
            model = fresh
            for name in ("mark", "mark", "ask", "list", "nearest", "clear", "save"):
                step(random, subject, model, name)
            last_look(subject, model)
            random.choice(DAMAGES)(random, subject, model)
    return model


def mend(random, subject, model):
    """An image is loaded at last, or its codes are filled in."""
    put_sizes_right(subject, model)
    chosen = choices.codes(random, model)
    while len(chosen) > model.most:
        chosen.pop()
    if random.random() < 0.5:
        image = image_of(model.order, model.k, chosen)
        expect("load into a damaged store", subject.call("load", image=octets(image))[0], model.load(image))
    else:
        expect("fill of a damaged store", subject.call("fill", codes=words(sorted(chosen)))[0], model.fill(sorted(chosen)))
    last_look(subject, model)


def damaged_store(random, subject, model):
    """A sound store is damaged, all calls are tried on it, and it is mended."""
    unusable(random, subject, model)
    random.choice(DAMAGES)(random, subject, model)
    subject.tally["damaged stores"] += 1
    for name in WALKING + tuple(OTHER_CALLS):
        before = subject.store.content()
        call(random, subject, model, name)
        subject.store.put_back(before)
    mend(random, subject, further_calls(random, subject, model))
