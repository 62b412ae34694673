"""Random histories on a sound store: every answer, every output and every image as the model has it."""

import choices
from lent import octets, words
from model import Model, corner, interleave, words_needed
from subject import Subject, expect

LOOKS = ("ask",) * 3 + ("nearest",) * 3 + ("count",) * 2 + ("list",) * 2 + ("save", "check")
# a history grows, shrinks or is mixed for some steps each, so that trees become large and dissolve again
PHASES = (("mark",) * 16 + LOOKS, ("mark",) * 3 + ("clear",) * 14 + LOOKS, ("mark",) * 8 + ("clear",) * 6 + ("load",) * 3 + ("fill",) * 3 + LOOKS)


def made(random, m, k, most, tally):
    """A register fresh from make, in words that held anything; make's refusals come first."""
    length = words_needed(k, most)
    subject = Subject([random.getrandbits(32) for _ in range(length + random.randrange(4))], tally)
    expect("make beyond limits", subject.made(*choices.beyond(random, m, k, most)), 1)
    short = Subject(subject.store.values()[: random.choice((0, 3, 7, 8, length - 1))], tally)
    expect("make in too few words", short.made(m, k, most), 2)
    # the largest most is within its limits: only the words are too few for it
    expect("make with the largest most in too few words", subject.made(m, k, 24576), 2)
    expect(f"make({m}, {k}, {most})", subject.made(m, k, most), 0)
    return subject


def room(random, needed):
    return random.choice((needed, needed, needed + 1, needed + 7, max(needed - 1, 0), 0))


def ask_call(subject, model, *pixel):
    """The law first, of whatever block is told: a pixel is marked exactly when it is an element of it. Then the whole answer."""
    refusal, marked, _, level, code = told = subject.call("ask", *pixel)
    if not refusal:
        elements = model.tree().elements.get((level, code), ())
        expect(f"ask{pixel} gives {told}: marked when an element of that block", marked, int((0, interleave(*pixel)) in elements))
    expect(f"ask{pixel}", told, model.ask(*pixel))


def nearest_call(subject, model, *search):
    expect(f"nearest{search}", subject.call("nearest", *search), model.nearest(*search))


def list_call(random, subject, model):
    window = choices.window(random, model)
    needed = len(model.window(*window)[1])
    output = words([random.getrandbits(32) for _ in range(room(random, needed))])
    told = subject.call("list", *window, output=output)
    expected, found = model.list(*window, room=len(output))
    expect(f"list{window} in {len(output)} words", (told, output.values()[: len(found)]), (expected, found))


def save_call(random, subject, model):
    output = octets(random.randbytes(room(random, len(model.image()))))
    told = subject.call("save", output=output)
    expected, written = model.save(len(output))
    expect(f"save in {len(output)} bytes", (told, bytes(output.values()[: len(written)])), (expected, written))


def load_call(random, subject, model):
    image = choices.image(random, model)
    expect(f"load({image.hex()})", subject.call("load", image=octets(image))[0], model.load(image))


def fill_call(random, subject, model):
    codes = choices.given(random, model)
    expect(f"fill({codes})", subject.call("fill", codes=words(codes))[0], model.fill(codes))


def step(random, subject, model, name):
    """One call on the library and the model."""
    if name in ("mark", "clear"):
        pixel = choices.pixel(random, model)
        expect(f"{name}{pixel}", subject.call(name, *pixel)[0], getattr(model, name)(*pixel))
    elif name == "ask":
        ask_call(subject, model, *choices.pixel(random, model))
    elif name == "nearest":
        nearest_call(subject, model, *choices.search(random, model))
    elif name == "count":
        window = choices.window(random, model)
        expect(f"count{window}", subject.call("count", *window), model.count(*window))
    elif name == "check":
        expect("check of a sound store", subject.call("check"), (0, 1, 0))
    else:
        {"list": list_call, "save": save_call, "load": load_call, "fill": fill_call}[name](random, subject, model)


def last_look(subject, model):
    """The register as a whole: sound, its image, and where pixels lie: marked ones, their neighbours, and those at the ends of blocks."""
    expect("check at the end", subject.call("check"), (0, 1, 0))
    image = model.image()
    output = octets(bytes(len(image)))
    expect("the last save", (subject.call("save", output=output), bytes(output.values())), ((0, len(image), 0), image))
    for pixel in [*choices.marked_and_beside(model), *choices.block_ends(model)]:
        ask_call(subject, model, *pixel)
    return image


def another_way(random, model, detours):
    """Calls that end in the model's pixels: each is marked, in a random order; so many others, and so many of the same, come and go between."""
    calls = [(random.random(), "mark", code) for code in sorted(model.codes)]
    for code in {random.randrange(4**model.order) for _ in range(detours)} - model.codes:
        marked, cleared = sorted((random.random(), random.random()))
        calls += [(marked, "mark", code), (cleared, "clear", code)]
    for at, _, code in random.sample(calls[: len(model.codes)], min(detours, len(model.codes))):
        calls += [(random.uniform(at, 1), "clear", code), (2 + random.random(), "mark", code)]
    return [(name, corner(code)) for _, name, code in sorted(calls)]


def same_image_elsewhere(random, model, image, tally, detours):
    """A register with another most that comes to the same pixels another way has the same image."""
    most = random.randint(max(len(model.codes), 1), len(model.codes) + 20) + detours
    subject, other = made(random, model.order, model.k, most, tally), Model(model.order, model.k, most)
    for name, pixel in another_way(random, model, detours):
        expect(f"{name}{pixel} another way", (subject.call(name, *pixel)[0], getattr(other, name)(*pixel)), (0, 0))
    expect("the image of the same pixels", last_look(subject, other), image)


def same_image_filled(random, model, image, tally):
    """So has a register that is filled with the pixels' codes, whatever it held."""
    most = random.randint(max(len(model.codes), 1), len(model.codes) + 20)
    subject, other = made(random, model.order, model.k, most, tally), Model(model.order, model.k, most)
    for _ in range(random.randrange(9)):
        step(random, subject, other, random.choice(("mark", "mark", "clear", "fill")))
    codes = sorted(model.codes)
    expect(f"fill({codes})", (subject.call("fill", codes=words(codes))[0], other.fill(codes)), (0, 0))
    expect("the image of the same pixels", last_look(subject, other), image)


def searched_ring(random, m, k, most, tally):
    """A ring of pixels, searched from its middle and from elsewhere, with budgets that end between the first block and the last."""
    subject, model = made(random, m, k, most, tally), Model(m, k, most)
    place, codes = choices.ring(random, model)
    expect(f"fill({codes})", (subject.call("fill", codes=words(codes))[0], model.fill(codes)), (0, 0))
    held = len(model.tree().blocks)
    for budget in (1, random.randint(1, held), random.randint(1, held), held, choices.FAR):
        nearest_call(subject, model, *place, budget)
        nearest_call(subject, model, *choices.search(random, model))


def history(random, tally, steps):
    """A whole history; steps counts for whoever looks at a difference."""
    m, k, most = choices.sizes(random)
    subject, model = made(random, m, k, most, tally), Model(m, k, most)
    for _ in range(random.randint(1, 5)):
        calls = random.choice(PHASES)
        for _ in range(random.randint(5, 90)):
            steps["step"] += 1
            step(random, subject, model, random.choice(calls))
    image = last_look(subject, model)
    same_image_elsewhere(random, model, image, tally, detours=0)
    same_image_elsewhere(random, model, image, tally, detours=random.randint(1, 12))
    same_image_filled(random, model, image, tally)
    searched_ring(random, m, k, most, tally)
    return subject, model
