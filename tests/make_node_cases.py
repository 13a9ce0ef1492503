"""Works out what the program node_cases prints, from the layout of strings alone."""
import os
import struct

SHAPES = {0: (0, 0), 1: (1, 2), 2: (4, 2), 3: (1, 0), 4: (2, 3), 5: (2, 2), 6: (3, 0)}
NUMBERS = [-2**31, 2**31 - 1, -1, 0, 1, -500000, 65535]


def digest(first):
    return bytes((first + 7 * i) % 256 for i in range(32))


def sample(kind, turn):
    count, successors = SHAPES[kind]
    numbers = [NUMBERS[(turn + i) % 7] for i in range(count)]
    digests = [digest(turn % 8 + 64 * i) for i in range(successors)]
    return struct.pack(f">I{count}i", kind, *numbers) + b"".join(digests)


def fault(number, layer, place):
    return f"refused {number} ({layer}) at step 1, byte {place}"


def read(data):
    if len(data) < 4:
        return fault(13, "reader", 0)
    (kind,) = struct.unpack_from(">I", data)
    if kind not in SHAPES:
        return fault(14, "search", 0)
    count, successors = SHAPES[kind]
    size = 4 + 4 * count + 32 * successors
    if len(data) < size:
        return fault(13, "reader", 0)
    if len(data) > size:
        return fault(19, "reader", size)
    line = f"bytes 0 to {size}: kind {kind}"
    for number in struct.unpack_from(f">{count}i", data, 4):
        line += f", number {number}"
    for i in range(successors):
        at = 4 + 4 * count + 32 * i
        line += ", digest " + data[at:at + 32].hex()
    return line


def lines():
    for kind in SHAPES:
        for turn in range(4):
            string = sample(kind, turn)
            yield "string " + string.hex()
            for cut in range(len(string) + 1):
                yield read(string[:cut])
    for data in (bytes([0, 0, 0, 7]), bytes([255] * 4), bytes(5)):
        yield read(data)


if __name__ == "__main__":
    here = os.path.dirname(os.path.abspath(__file__))
    with open(os.path.join(here, "..", "crates", "node_cases", "stdout"), "w") as out:
        for line in lines():
            print(line, file=out)
