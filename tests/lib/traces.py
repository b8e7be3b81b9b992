"""Random traces that make sense: each call is chosen by the state that those before it leave."""
import hashlib
import itertools
import json

import calls
from common import TOP
from rules import DEFAULT, DIGESTS, LIMITS, NAMED, PAGE, RANGE, SHARES, WITH_LAUNCH, Core, launch_of, pages_of

LENGTHS = [1, 3, 4095, 4096, 4097, 8192]
APPROVED = [b"abc"] + [bytes(length) for length in LENGTHS if length != 4095]
# Of a machine with more frames only those are looked for that calls named, and those at the ends of what each owner has.
FEW = 4096
# The frames of a large machine of version 3, of each of which the program keeps 40 bytes once it, or one near it,
# changes; and of one that may be run live, or by workers that are started, which takes the memory of all its pages.
LARGE, LARGE_LIVE = 2**20, 2**17
# The program starts threads for a wave in which the calls other than the longest hash this many frames or more.
FRAMES_WORTH_A_THREAD = 32


def digest(data):
    return hashlib.sha256(data).hexdigest()


def random_bytes(rng, length):
    return rng.getrandbits(8 * length).to_bytes(length, "little")


def frames_of(core):
    """The frames that calls may well name, with their numbers."""
    count = len(core.frames)
    ends = [f for end in (0, *core.frames.ends, count) for f in (end - 1, end) if 0 <= f < count]
    return [(f, core.frames[f]) for f in (range(count) if count <= FEW else sorted({*ends, *core.frames.made}))]


def some_call(rng, core):
    """A call that may well be served."""
    slots, numbered = core.slots, frames_of(core)
    host = [f for f, frame in numbered if frame.owner == "host"]
    shared = [f for f, frame in numbered if frame.share]
    present = [f for f, frame in numbered if frame.present]
    f, near, seen = (rng.choice(some or [0]) for some in (host, host + shared, present))
    offset = rng.choice([0, 0, 1, 4095, rng.randrange(PAGE)])
    length = min(rng.choice([1, 3, rng.randrange(1, PAGE + 1)]), PAGE - offset)
    data = rng.choice([b"abc"[:length], bytes(length), random_bytes(rng, min(length, 8))]).hex()
    lines = ["take"] * (1 if host else 6) + [f"give {f}", f"hfault {near}", f"hread {seen} {offset} {length}"]
    lines += [f"hwrite {seen} {offset} {data}", f"hwrite {seen} 0 616263"]
    v = rng.choice([0, 0, 0, 1, 1, 2, len(slots) - 1])
    slot, c = slots[v], rng.choice([0, 0, 1, core.limits.vcpus - 1])
    if slot.phase == "empty":
        return rng.choice(lines + [f"regvm {v}"] * 8)
    if slot.phase == "booting":
        return rng.choice(lines + boot_calls(rng, core, v, c, f))
    if slot.phase == "dead":
        return rng.choice(lines + [f"clear {v}"] * 2)
    lines += guest_calls(rng, core, v, f, offset, length, data)
    return rng.choice(lines + [f"clear {v}"] * (rng.random() < 0.2))


def boot_calls(rng, core, v, c, f):
    """Calls on a slot that boots, some of them several times: where a boot is measured as a whole, it often has several
    images."""
    slot, most, few = core.slots[v], core.limits.images, 3 if core.config["version"] in WITH_LAUNCH else 1
    short = [i for i, image in enumerate(slot.images) if image[2] < pages_of(image[1])]
    base, length = rng.choice([0, 3, 510, 511, 512, 1022, core.limits.gfns - 1]), rng.choice(LENGTHS)
    lines = [f"setboot {v} {base} {length}"] * (1 if len(slot.images) >= few else 4)
    lines += [f"regvcpu {v} {c}"] * (1 if c in slot.vcpus else 8) + [f"remap {v} {rng.randrange(most)} {f}"]
    if short:
        return lines + [f"remap {v} {rng.choice(short)} {f}"] * 8
    return lines + [f"verify {v}"] * (6 if slot.images else 0)


def guest_calls(rng, core, v, f, offset, length, data):
    """Calls on a slot that runs."""
    slot = core.slots[v]
    g = rng.choice(list(slot.table) or [0])
    last = core.limits.gfns - 1
    new = rng.choice([0, 1, 7, 7, 511, 512, 1023, last, rng.randrange(1100), rng.randrange(last)])
    c, n = rng.choice(list(slot.vcpus) or [0]), rng.choice([1, 1, 2, 3])
    lines = [f"gread {v} {c} {g} {offset} {length}", f"gwrite {v} {c} {g} {offset} {data}"]
    lines += [f"grant {v} {c} {g}"] * 2 + [f"revoke {v} {c} {g}", f"drop {v} {c} {g}"]
    lines += [f"gread {v} {c} {new} 0 1", f"gwrite {v} {c} {new} 0 2a", f"map {v} {c} {f}"]
    waiting = [c for c, gfn in slot.vcpus.items() if gfn is not None]
    lines += [f"map {v} {rng.choice(waiting)} {f}"] * 6 if waiting else []
    if core.config["calls_on_ranges"]:
        lines += [f"grantr {v} {c} {g} {n}"] * 2 + [f"revoker {v} {c} {g} {n}"]
    return lines


def any_call(rng, core):
    """A call with any numbers, many of which exist."""

    def some(limit):
        near = [rng.randrange(limit), rng.randrange(limit), 0, limit - 1, limit]
        return rng.choice([*near, rng.randrange(2 ** 32), 2 ** 32 - 1])

    limits = core.limits
    words = {"v": rng.choice([some(3), some(limits.slots)]), "c": rng.choice([some(8), some(limits.vcpus)]), "f": some(len(core.frames))}
    words |= {"g": rng.choice([some(limits.gfns), some(1024)]), "i": rng.choice([some(4), some(limits.images)])}
    words |= {"offset": some(PAGE), "length": some(PAGE)}
    words |= {"data": random_bytes(rng, rng.choice([1, 2, PAGE])).hex(), "size": some(limits.image_bytes + 1)}
    lines = calls.lines(**words)
    if core.config["calls_on_ranges"]:
        lines += calls.range_lines(some(RANGE + 1), some(RANGE + 1), **words)
    return rng.choice(lines)


def parts_of(rng, count, most):
    """The sizes of some images, at most this many, which have this many pages together."""
    parts = min(count, rng.choice([1, 1, 1, 2, rng.randrange(1, most + 1), most]))
    ends = [*sorted(rng.sample(range(1, count), parts - 1)), count]
    return [end - start for start, end in zip([0, *ends], ends)]


def boot_of(rng, v, frames, limits):
    """The lines that boot slot v from these frames, each with whether it names the slot, and the images that it should
    have, each with its first guest frame and its bytes: now and then one has another byte, or lacks a page."""
    lines, pages, images, left = [(True, f"regvm {v}")], [], [], iter(frames)
    turned, lacking = (rng.choice(frames) if rng.random() < chance else None for chance in (0.15, 0.1))
    sizes = parts_of(rng, len(frames), limits.images)
    # One after another in the guest's memory, in any order.
    places = list(zip(sizes, itertools.accumulate(sizes, initial=rng.choice([0, 500, 512, limits.gfns - len(frames)]))))
    rng.shuffle(places)
    for i, (size, base) in enumerate(places):
        length, image = size * PAGE - rng.choice([0, 0, 1, rng.randrange(PAGE)]), b""
        lines.append((True, f"setboot {v} {base} {length}"))
        for f in itertools.islice(left, size):
            offset, data = rng.randrange(PAGE - 8), rng.choice([b"", b"abc", random_bytes(rng, 8)])
            image += bytes(offset) + data + bytes(PAGE - offset - len(data))
            # The first byte of a page is always part of the image.
            writes = [(offset, data)] * bool(data) + [(0, b"\xff")] * (f == turned)
            pages += [(False, f"hfault {f}")] * bool(writes)
            pages += [(False, f"hwrite {f} {at} {some.hex()}") for at, some in writes]
            pages += [(True, f"remap {v} {i} {f}")] * (f != lacking)
        images.append((base, image[:length]))
    one_more = [(True, f"setboot {v} 1000 1")] * (len(places) == limits.images)
    return lines + one_more + pages, images


def approvals(rng, version, images):
    """The digests by which a boot of these images is approved; in version 3 now and then others in place of it: of the
    images in another order or at other places, of one fewer, and of each of the first alone."""
    if version not in WITH_LAUNCH:
        return [digest(image) for _, image in images]
    if rng.random() < 0.8:
        return [launch_of(images)]
    others = images[::-1], images[1:], [(base + 1, image) for base, image in images]
    return [*map(launch_of, others), *(digest(image) for _, image in images[:3])]


def approve(rng, core, line, rejected):
    """Now and then has a boot approved, as a whole, that this call is about to measure, unless an equal one was rejected."""
    v = int(line.split(" ")[1])
    if v < len(core.slots) and core.slots[v].phase == "booting" and len(core.config["approved"]) < DIGESTS:
        launch, = core.to_approve(v)
        if launch not in rejected and rng.random() < 0.7:
            core.config["approved"].append(launch)
        elif launch not in core.config["approved"]:
            rejected.add(launch)


def boots_case(rng, version=None, count=None):
    """A configuration, perhaps of this version and with this many frames; the lines of a trace that verifies several VMs
    in one wave, among other calls; and whether the program has to start workers for that."""
    a_size = lambda: rng.choice([rng.randrange(1, 71), rng.randrange(1, 71), rng.randrange(1, 9)])
    sizes = [a_size() for _ in range(rng.randrange(2, 7))]
    version, host, free = version or rng.choice(list(LIMITS)), sum(sizes) + 2, rng.choice([rng.randrange(6), 100])
    free, limits = count - host - 1 if count else free, LIMITS[version]
    config = {"version": version, "frames": 1 + host + free, "core": 1, "host": host, "leaves": rng.choice([2, limits.leaves])}
    config |= {"approved": [], "calls_on_ranges": rng.random() < 0.6}
    frames, slots, boots = rng.sample(range(1, 1 + host), host), rng.sample(range(limits.slots), len(sizes) + 1), []
    for v, size in zip(slots, sizes):
        lines, images = boot_of(rng, v, [frames.pop() for _ in range(size)], limits)
        boots.append((v, lines))
        config["approved"] += approvals(rng, version, images)
    turns = shuffled(rng, boot_orders(rng, boots, frames.pop(), slots[-1]))
    state, lines, hashed = Core(config), [], []
    for line in turns:
        slot = state.slots[int(line.split(" ")[1])] if line.startswith("verify") else None
        hashed.append(len(slot.list) if slot and slot.phase == "booting" else 0)
        lines.append(line)
        state.answer(line)
    for _ in range(rng.randrange(30)):
        lines.append(some_call(rng, state))
        state.answer(lines[-1])
    return config, lines, sum(hashed) - max(hashed) >= FRAMES_WORTH_A_THREAD


def boot_orders(rng, boots, f, v):
    """Lists of calls, each of which keeps its order. As many calls name each slot before its verify as name the others,
    so that all verifies come in one wave. Besides, there are takes, calls on frame f and calls on slot v, mostly up to
    that wave."""
    before, orders = 4 + max(sum(names_it for names_it, _ in lines) for _, lines in boots), []
    for vm, lines in boots:
        for _ in range(before - sum(names_it for names_it, _ in lines)):
            at, more = rng.randrange(1, 4), [f"regvcpu {vm} {rng.choice([rng.randrange(9), 255, 256])}", f"regvm {vm}"]
            lines.insert(at, (True, rng.choice(more)))
        orders.append([line for _, line in lines] + [f"verify {vm}"])
    on_frame = [f"hfault {f}", f"hwrite {f} 0 616263", f"hread {f} 0 3"]
    on_slot = [f"regvm {v}", f"regvcpu {v} 0", f"setboot {v} 3 4097", f"verify {v}"]
    for some in (["take"], on_frame, on_slot):
        count = rng.choice([rng.randrange(before), before + 1, before + 1])
        orders.append([rng.choice(some) for _ in range(count)])
    return orders


def shuffled(rng, orders):
    """The lines of all lists, in a random order in which each list keeps its own."""
    turns = [turn for order in orders for turn in [iter(order)] * len(order)]
    rng.shuffle(turns)
    return map(next, turns)


def random_case(rng, versions=tuple(LIMITS), frames=None):
    """A configuration of one of these versions, perhaps with this many frames, and the lines of a trace."""
    version, frames = rng.choice(versions), frames or rng.choice([rng.randrange(1, 9), rng.randrange(6, 25)])
    core = rng.choice([0, 1, 1, rng.randrange(frames + 1)])
    config = {"version": version, "frames": frames, "core": core, "host": rng.randrange(frames - core + 1)}
    config |= {"leaves": rng.choice([1, 2, 3, LIMITS[version].leaves]), "approved": list(map(digest, APPROVED))}
    config["calls_on_ranges"] = rng.random() < 0.6
    state, lines, rejected = Core(config), [], set()
    for _ in range(rng.choice([rng.randrange(20), rng.randrange(200)])):
        line = (some_call if rng.random() < 0.9 else any_call)(rng, state)
        # Now and then a grant is repeated until the frame cannot be shared once more.
        for _ in range(SHARES + 1 if line.startswith("grant") and rng.random() < 0.02 else 1):
            lines.append(line)
            if version in WITH_LAUNCH and line.startswith("verify "):
                approve(rng, state, line, rejected)
            state.answer(line)
    return config, lines


def large_case(rng):
    """The same in version 3, in a large machine."""
    return random_case(rng, WITH_LAUNCH, LARGE)


def large_boots_case(rng, version):
    """The same as boots_case, in a large core: of the second version with the most frames that there may be."""
    return boots_case(rng, version, min(LIMITS[version].frames, LARGE_LIVE))


def shares_case(_):
    """A configuration, and the lines of a trace in which a VM shares three frames again and again."""
    config = {"version": 2, "frames": 4, "core": 0, "host": 4, "leaves": 1, "approved": [digest(b"abc")]}
    lines = ["hfault 2", "hwrite 2 0 616263", "regvm 63", "regvcpu 63 7", "setboot 63 5 3", "remap 63 0 2", "verify 63"]
    lines += ["gread 63 7 6 0 1", "map 63 7 3", "gread 63 7 7 0 1", "map 63 7 1"]
    return config | {"calls_on_ranges": True}, lines + ["grantr 63 7 5 3", "revoker 63 7 5 3"] * 600


def slot_of(rng, lines, most=NAMED):
    """A slot that the program may be asked about: one below `most` that the calls name, or any."""
    most = min(most, NAMED)
    named = [int(line.split(" ")[1]) for line in lines if line.startswith("regvm ")]
    return rng.choice([v for v in named if v < most] + [rng.randrange(most)])


def may_be_live(config, lines):
    """Whether a live run may have these calls: the machine is not too large, and the actor of each exists."""
    if config["frames"] > LARGE_LIVE:
        return False
    actors = filter(None, map(calls.actor_of, lines))
    limits = LIMITS[config["version"]]
    return all(int(v) < limits.slots and int(c) < limits.vcpus for v, c in actors)


# Of how many lines an example is at most that the rules in Python follow line by line.
LONGEST = 4096


def of_examples():
    """The traces in examples/, without heads: a name, the configuration and the lines of the calls of each. A longer one
    is left out: `linux-boot`, which tests/examples compares with its summary by the rules."""
    folder = TOP / "examples"
    for path in sorted(folder.iterdir()):
        text = path.read_text() if path.is_file() and "." not in path.name else ""
        if text.startswith("kcore-trace") and text.count("\n") <= LONGEST:
            words = path.with_suffix(".args")
            named = [it for it in words.read_text().split() if it.endswith(".json")] if words.exists() else []
            config = json.loads((folder / "configurations" / named[0]).read_text()) if named else DEFAULT
            lines = [line for line in text.splitlines()[1:] if line.split()[0] in calls.WORDS]
            yield f"example {path.name}", {"version": 1, **config}, lines
