"""Runs in growing address space, from the least that the program starts in, and on the least stack. Each run ends as it
would without a limit, or, as long as the command has not succeeded yet, with `out of memory` and no output. In the space
of a start, of the bytes that the command has to hold, and of SLACK, it succeeds: so nothing is held twice, and no
buffer is larger than what it is for."""
import functools
import resource

import pytest
from support import expect, run
from volumes import with_checksum

PAGE, STEPS, SLACK = 4096, 100, 256 << 10
# If the address space is scarce, a process has 128 KiB of stack, less the up to 8 that the kernel skips at random.
STACK, STACK_RUNS = 116 << 10, 20
OUT_OF_MEMORY = (3, b"", "luksrd: out of memory\n")
SMALL, LARGE, LIMIT = 16384, 4 << 20, 32 << 20


def made_from(sample, size, area_offset):
    """A volume like the sample of LUKS2 with headers of this size, whose key area is here."""
    whole = sample.volume2.read_bytes()
    area, payload = whole[32768:98304], whole[1048576:]

    def header(at):
        text = whole[SMALL if at else 0:][:SMALL].replace(b'"offset":"32768"', b'"offset":"%d"' % area_offset)
        text = text.replace(b'"1048576"', b'"%d"' % (area_offset + len(area)))
        text = bytearray((text + bytes(size))[:size])
        text[8:16], text[256:264] = size.to_bytes(8, "big"), at.to_bytes(8, "big")
        return with_checksum(text)

    headers = header(0) + header(size)
    return headers + bytes(area_offset - len(headers)) + area + payload


# a volume: how many bytes of it commands hold that need the header, how many those that need a key, and its text
HELD = {
    "volume": (592, 260096, "plain"),
    "volume2": (2 * SMALL, 98304, "plain2"),
    "large": (2 * LARGE, 2 * LARGE + 65536, "plain2"),
    "second": (2 * LARGE, 2 * LARGE + 65536, "plain2"),  # only the second header is valid
    "far": (2 * SMALL, LIMIT, "plain2"),  # the key area ends where the last one may
    "zeros": (LARGE + 4096, None, None),  # no volume
}


@pytest.fixture(scope="session")
def images(cached, sample):
    """The file of each of these volumes."""
    makers = {
        "large": lambda: made_from(sample, LARGE, 2 * LARGE),
        "second": lambda: bytes(4096) + made_from(sample, LARGE, 2 * LARGE)[4096:],
        "far": lambda: made_from(sample, SMALL, LIMIT - 65536),
        "zeros": lambda: bytes(LARGE + 8192),
    }
    made = {name: cached(name, lambda path, make=make: path.write_bytes(make())) for name, make in makers.items()}
    return {"volume": sample.volume, "volume2": sample.volume2, **made}


def limited(program, line, what, limit, **how):
    return program(line, preexec_fn=lambda: resource.setrlimit(what, (limit, limit)), **how)


@functools.cache
def spaces_of_a_start(path, image):
    """The least space in which the program starts, and in which it needs no more. (In less the loader ends the run, or
    the kernel does.)"""
    def status(space):
        limit = lambda: resource.setrlimit(resource.RLIMIT_AS, (space, space))
        return run(path, "isLuks", image, preexec_fn=limit).status

    first = next(space for space in range(PAGE, 100_000_000, PAGE) if status(space) not in (127, -11))
    return first, next(space for space in range(first, 100_000_000, PAGE) if status(space) == 0)


def in_little_memory(program, line, held, wanted, image):
    """Runs a command in growing space."""
    expect(program(line), *wanted)
    wanted = program(line)
    ends = [limited(program, line, resource.RLIMIT_STACK, STACK, env={}) for _ in range(STACK_RUNS)]
    assert [ended for ended in ends if ended != wanted] == []
    first, start = spaces_of_a_start(program.path, image)
    last = start + held + SLACK
    starved, succeeded, wrong = 0, False, []
    for space in range(first, last + 1, max(PAGE, (last - first) // STEPS // PAGE * PAGE)):
        ended = limited(program, line, resource.RLIMIT_AS, space)
        succeeded = succeeded or ended == wanted
        starved += ended == OUT_OF_MEMORY
        if ended != wanted and (ended != OUT_OF_MEMORY or succeeded):
            wrong.append((space, ended.status, ended.output[:40], ended.message[:80]))
    assert wrong == []
    assert starved or held < SLACK, "no run was out of memory"
    assert limited(program, line, resource.RLIMIT_AS, last) == wanted, f"it holds more than {held} and {SLACK} bytes"


FINDING = "primary header: not valid\n", "luksrd: the header has findings", 1
COMMANDS = {
    "isLuks": "isLuks image",
    "luksUUID": "luksUUID image",
    "luksCheck": "luksCheck image",
    "luksDump": "luksDump image",
    "testPassphrase": "testPassphrase --key-file pass image",
    "luksCat": "luksCat --key-file pass image",
    "luksCat beside a header": "luksCat --key-file pass --header image image",
}


@pytest.mark.parametrize("command", COMMANDS)
@pytest.mark.parametrize("name", [name for name in HELD if name != "zeros"])
def test_volumes(each_luksrd, here, sample, images, name, command):
    for_header, for_key, text = HELD[name]
    (here / "image").symlink_to(images[name])
    line = COMMANDS[command]
    dumped = each_luksrd("luksDump image").output
    assert dumped.startswith(b"Version: ")
    wanted = {
        "isLuks": ("", ""),
        "luksUUID": (f"6c756b73-7264-4073-8616-d706c652e00{0 if name == 'volume' else 2}\n",),
        "luksCheck": FINDING if name == "second" else ("clean\n",),
        "luksDump": (dumped,),
        "testPassphrase": (sample.opens,),
    }.get(command, (getattr(sample, text),))
    in_little_memory(each_luksrd, line, for_key if "key-file" in line else for_header, wanted, sample.volume)


@pytest.mark.parametrize("line, held, wanted", [
    ("isLuks image", LARGE + 4096, ("", "", 1)),
    ("luksUUID image", LARGE + 4096, ("", "luksrd: not a LUKS image", 4)),
])
def test_no_volume(each_luksrd, here, sample, images, line, held, wanted):
    (here / "image").symlink_to(images["zeros"])
    in_little_memory(each_luksrd, line, held, wanted, sample.volume)


@pytest.mark.parametrize("line, output", [
    ("afMerge --hash sha256 --stripes 1 --key-bytes 32 key", bytes(range(32))),
    ("afSplit --hash sha256 --stripes 1 --random /dev/null key", bytes(range(32))),
])
def test_stripes(each_luksrd, here, sample, line, output):
    (here / "key").write_bytes(bytes(range(32)))
    in_little_memory(each_luksrd, line, 0, (output,), sample.volume)
