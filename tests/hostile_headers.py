"""Headers for test_hostile.py. Some are generated: fields at their extremes, JSON of any shape, with checksums recomputed.
The others are those of volumes that cryptsetup and qemu-img made, changed in places that do not always break them; some
changes are harmless, and then output, message and status are known."""
import base64
import hashlib
import json
import random
import struct

MAGIC, SECOND_MAGIC, SIZE = b'LUKS\xba\xbe', b'SKUL\xba\xbe', 16384
IN_USE, NOT_IN_USE = 0x00AC71F3, 0xDEAD
EXTREMES = [0, 1, 2, 7, 8, 31, 32, 63, 64, 127, 128, 255, 256, 511, 512, 591, 592, 593, 3999, 4000, 4001, 4095, 4096,
            16384, 32768, 65535, 65536, 2**31 - 1, 2**31, 2**32 - 1, 2**32, 2**53, 2**63 - 1, 2**63, 2**64 - 512,
            2**64 - 1]
TEXTS = [b'aes', b'xts-plain64', b'cbc-essiv:sha256', b'sha256', b'SHA1', b'sha512', b'', b'\xff' * 9, b'\x1b[31m',
         b'a\\b', b'serpent', b'\xc3\xa9']
MODES = ['xts-plain64', 'xts-plain', 'cbc-essiv:sha256', 'cbc-plain64']
HASHES = ['sha1', 'sha224', 'sha256', 'sha384', 'sha512', 'SHA256']
draw = random.Random()


def number(): return draw.choice(EXTREMES + [draw.getrandbits(64), draw.getrandbits(32), draw.getrandbits(10)])
def text(capacity):
    return (draw.choice(TEXTS + [draw.randbytes(draw.randrange(capacity + 1))]) + bytes(capacity))[:capacity]
def few(): return draw.randrange(1, 20)


# Headers that are generated

def generated1():
    """A header of LUKS1."""
    slots = b''.join(struct.pack('>II32sII', draw.choice([IN_USE, IN_USE, NOT_IN_USE, number() % 2**32]),
                                 number() % 2**32,
                                 text(32), number() % 2**32, number() % 2**32) for _ in range(8))
    header = struct.pack('>6sH32s32s32sII20s32sI40s', MAGIC, 1, text(32), text(32), text(32), number() % 2**32,
                         draw.choice([16, 32, 64, number() % 2**32]), text(20), text(32), number() % 2**32,
                         text(40)) + slots
    return header + bytes(draw.randrange(3) * 1000)


def value(depth=0):
    """A JSON value of any shape."""
    kind = draw.randrange(9 if depth < 4 else 6)
    if kind < 3: return draw.choice([None, True, False, 0, -1, 1.0, 1e300, number(), str(number()), '007', '',
                                     'dynamic', 'crypt', 'luks2', 'raw', 'pbkdf2',
                                     'argon2id', 'sha256', 'aes-xts-plain64', 'AAAA', 'AA==', 'A', '\x1b\u202e',
                                     '0' * 21])
    if kind < 6: return draw.choice([number(), str(number())])
    if kind == 6: return [value(depth + 1) for _ in range(draw.randrange(4))]
    return {draw.choice(['type', 'offset', 'size', 'hash', '0', '1', '31', '01', '32', 'x\n']): value(depth + 1)
            for _ in range(draw.randrange(4))}


def usual(n):
    """The JSON of a usual header, with this number of slots."""
    area = lambda i: {'type': 'raw', 'offset': str(32768 + i * 131072), 'size': '131072',
                      'encryption': 'aes-xts-plain64', 'key_size': 32}
    slots = {str(i): {'type': 'luks2', 'key_size': 32, 'af': {'type': 'luks1', 'stripes': 4000, 'hash': 'sha256'},
                      'area': area(i),
                      'kdf': {'type': draw.choice(['pbkdf2', 'pbkdf2', 'argon2id', 'argon2i', 'scrypt']),
                              'hash': 'sha256', 'iterations': 1000, 'salt': 'AAAA'}}
             for i in range(n)}
    return {'keyslots': slots, 'tokens': {}, 'config': {'json_size': '12288', 'keyslots_size': '4161536'},
            'segments': {'0': {'type': 'crypt', 'offset': '8388608', 'size': 'dynamic', 'iv_tweak': '0',
                               'encryption': 'aes-xts-plain64', 'sector_size': 512}},
            'digests': {'0': {'type': 'pbkdf2', 'keyslots': list(slots), 'segments': ['0'], 'hash': 'sha256',
                              'iterations': 1000, 'salt': 'AAAA',
                              'digest': 'A' * 43 + '='}}}


def members(tree, found):
    """The objects of a tree, each with one of its names."""
    if isinstance(tree, dict):
        for name in tree: found.append((tree, name)); members(tree[name], found)
    return found


def change_member(tree):
    """Removes a member, or gives it another value."""
    owner, name = draw.choice(members(tree, []))
    if draw.random() < 0.3: del owner[name]
    else: owner[name] = value()


def metadata():
    if draw.random() < 0.1: return draw.randbytes(draw.randrange(200))
    tree = usual(draw.randrange(4))
    for _ in range(draw.randrange(4)): change_member(tree)
    out = json.dumps(tree, ensure_ascii=draw.random() < 0.5, separators=(',', ':')).encode('utf-8', 'surrogatepass')
    if draw.random() < 0.05: out = b'[' * draw.randrange(300) + out
    return out


def with_checksum(h):
    """Computes a header's checksum again, by the hash that it names."""
    algorithm = bytes(h[72:104]).split(b'\0')[0].decode('latin-1').lower()
    if algorithm in ('sha1', 'sha224', 'sha256', 'sha384', 'sha512'):
        h[448:512] = bytes(64)
        h[448:512] = hashlib.new(algorithm, h).digest().ljust(64, b'\0')


def generated2():
    """An image with headers of LUKS2, each with a checksum that mostly agrees."""
    text_of = metadata()
    def header(offset, magic):
        named = draw.choice([SIZE] * 12 + [32768, number()])
        h = bytearray(SIZE)
        h[:4096] = (struct.pack('>6sHQQ48s32s64s40s48sQ', magic, 2, named, draw.choice([1, 2, number()]), text(48),
                                draw.choice([b'sha256'] * 9 + [b'sha1', b'sha512', b'md5']).ljust(32, b'\0'), text(64),
                                text(40), text(48),
                                draw.choice([offset] * 12 + [number()])) + bytes(4096))[:4096]
        h[4096:4096 + len(text_of)] = text_of[:SIZE - 4096]
        if draw.random() < 0.2: h[draw.randrange(SIZE)] = draw.getrandbits(8)
        with_checksum(h)
        if draw.random() < 0.1: h[draw.randrange(SIZE)] ^= 1
        return bytes(h)
    image = header(0, MAGIC) + header(SIZE, SECOND_MAGIC)
    return image[:draw.choice([len(image)] * 9 + [draw.randrange(len(image))])]


def generated():
    image = bytearray(generated1() if draw.random() < 0.4 else generated2())
    if image and draw.random() < 0.2:
        for _ in range(draw.randrange(1, 4)): image[draw.randrange(len(image))] = draw.getrandbits(8)
    return image


# Volumes that are changed

def flip(image, start, length):
    image[min(start + draw.randrange(length), len(image) - 1)] ^= 1 << draw.randrange(8)


def put(image, offset, n):
    image[offset:offset + 4] = struct.pack('>I', n % 2**32)


class Volume1:
    """A LUKS1 volume; its two key areas and its payload are moved together."""
    slots = {'pass': 0, 'pass2': 5}

    def __init__(self, name, plain_length):
        with open(name, 'rb') as file: image = bytearray(file.read())
        first, second, third, payload = (struct.unpack_from('>I', image, offset)[0] for offset in (248, 296, 488, 104))
        length = 512 * (second - first)
        put(image, 488, second)
        put(image, 104, 2 * second - first)
        self.start = 512 * (2 * second - first)
        parts = (image[:512 * second], image[512 * third:512 * third + length],
                 image[512 * payload:512 * payload + plain_length])
        self.image = b''.join(parts)

    def changed(self):
        image, slot = bytearray(self.image), 208 + 48 * draw.choice([0, 0, 0, 5, draw.randrange(8)])
        area = struct.unpack_from('>I', image, slot + 40)[0] * 512
        draw.choice([
            lambda: put(image, slot + 4, draw.choice([few(), few(), number()])), lambda: flip(image, slot + 8, 32),
            lambda: put(image, slot + 40, draw.choice([8, 9, self.start // 512 - 1, draw.randrange(self.start // 512),
                                                       number()])),
            lambda: put(image, slot + 44, draw.choice([few(), draw.randrange(4000), number()])),
            lambda: put(image, slot, draw.choice([IN_USE, NOT_IN_USE, number()])), lambda: flip(image, area, 64000),
            lambda: flip(image, 112, 20),
            lambda: flip(image, 132, 32), lambda: put(image, 164, draw.choice([few(), number()])),
            lambda: image.__setitem__(slice(72, 104), draw.choice(HASHES).encode().ljust(32, b'\0')),
            lambda: image.__setitem__(slice(40, 72), draw.choice(MODES).encode().ljust(32, b'\0')),
            lambda: put(image, 108, draw.choice([16, 32, 64])),
            lambda: flip(image, 0, 592)])()
        return image

    def kept(self):
        """A change of what does not matter: the UUID, what is between the header and the areas, and slots that are not
        in use."""
        image, slot = bytearray(self.image), 208 + 48 * draw.choice([1, 2, 3, 4, 6, 7])
        image[168:208] = draw.randbytes(40)
        image[slot + 4:slot + 48] = draw.randbytes(44)
        flip(image, 592, 3504)
        return image

    def moved(self):
        """The payload starts elsewhere: at the end of the key areas or later, also past the end of the image."""
        image = bytearray(self.image)
        put(image, 104, self.start // 512 + draw.choice([0, 1, draw.randrange(40), len(image) // 512,
                                                         draw.getrandbits(10)]))
        return image


class Volume2:
    """A LUKS2 volume, whose payload is moved down to the end of the key areas."""
    slots = {'pass': 0, 'pass2': 1}

    def __init__(self, name, plain_length):
        with open(name, 'rb') as file: image = file.read()
        self.tree = json.loads(image[4096:image.index(0, 4096)])
        old = int(self.tree['segments']['0']['offset'])
        self.start = max(int(slot['area']['offset']) + int(slot['area']['size'])
                         for slot in self.tree['keyslots'].values())
        self.tree['segments']['0']['offset'] = str(self.start)
        self.image = image[:self.start] + image[old:old + plain_length]

    def build(self, tree, change=lambda h: None):
        """The volume with this JSON in both headers, each of which is changed before its checksum is computed."""
        image = bytearray(self.image)
        out = json.dumps(tree, separators=(',', ':')).encode('utf-8', 'surrogatepass')[:SIZE - 4096]
        for offset in (0, SIZE):
            h = image[offset:offset + SIZE]
            h[4096:] = out.ljust(SIZE - 4096, b'\0')
            change(h)
            with_checksum(h)
            image[offset:offset + SIZE] = h
        return image

    def copy(self):
        tree = json.loads(json.dumps(self.tree))
        slot = tree['keyslots'][draw.choice(['0', '0', '1'])]
        return tree, slot, tree['digests']['0'], tree['segments']['0']

    def changed(self):
        tree, slot, digest, segment = self.copy()
        broken = lambda text: base64.b64encode(bytes([base64.b64decode(text)[0] ^ 1])
                                               + base64.b64decode(text)[1:]).decode()
        draw.choice([
            lambda: slot['kdf'].update(iterations=draw.choice([few(), few(), number()])),
            lambda: slot['kdf'].update(salt=broken(slot['kdf']['salt'])),
            lambda: slot['kdf'].update(hash=draw.choice(HASHES)),
            lambda: slot['af'].update(stripes=draw.choice([few(), draw.randrange(4000), number()])),
            lambda: slot['af'].update(hash=draw.choice(HASHES)),
            lambda: slot['area'].update(offset=str(draw.choice([32768, 36864, 98304, number()]))),
            lambda: slot['area'].update(encryption='aes-' + draw.choice(MODES)),
            lambda: slot['area'].update(key_size=draw.choice([16, 32, 64])),
            lambda: slot.update(priority=draw.choice([0, 1, 2, 3])),
            lambda: digest.update(iterations=draw.choice([few(), number()])),
            lambda: digest.update(digest=broken(digest['digest'])),
            lambda: digest.update(keyslots=draw.choice([['0'], ['1'], []])),
            lambda: digest.update(hash=draw.choice(HASHES)), lambda: change_member(tree)])()
        image = self.build(tree)
        if draw.random() < 0.1: flip(image, 32768, self.start - 32768)
        return image

    def kept(self):
        """A change of what does not matter: texts, tokens, sizes in config, names that are no slots; also one damaged
        header."""
        tree, slot, _, _ = self.copy()
        draw.choice([lambda: tree.update(tokens=value()), lambda: slot.update(priority=draw.choice([1, 2])),
                     lambda: tree['config'].update(json_size=value()),
                     lambda: tree['keyslots'].update({draw.choice(['32', '01', 'x', '']): value()}),
                     lambda: tree.update(x=value())])()
        texts, sequence = (draw.randbytes(48), draw.randbytes(104), draw.randbytes(48)), draw.randbytes(7)
        def change(h): h[24:72], h[104:208], h[208:256], h[17:24] = *texts, sequence
        image = self.build(tree, change)
        if draw.random() < 0.3: flip(image, draw.choice([0, SIZE]), SIZE)
        return image

    def moved(self):
        """The payload starts elsewhere, has a fixed size, other sectors, other numbers or another mode."""
        tree, _, _, segment = self.copy()
        start = self.start
        further = lambda: draw.choice([0, 512, 4096, draw.getrandbits(16), len(self.image), number() // 512 * 512])
        size = lambda: draw.choice([0, 4096, 8192, 16384, 20480, number() // 4096 * 4096])
        draw.choice([lambda: segment.update(offset=str(start + further())), lambda: segment.update(size=str(size())),
                     lambda: segment.update(sector_size=draw.choice([512, 1024, 2048, 4096])),
                     lambda: segment.update(iv_tweak=str(number())),
                     lambda: segment.update(encryption='aes-' + draw.choice(MODES))])()
        return self.build(tree)
