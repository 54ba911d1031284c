#!/usr/bin/env python3
"""Makes the list of cases that crates/blocks_list runs: its stdin, and its stdout with the answers.

Usage: tools/blocks_list.py [FOLDER]

FOLDER has blocks-read.txt, blocks-write.txt and later/2.2-last-block.txt, one case to a line:
`ROOM ; FILE IN HEX => ANSWER`, `ROOM ; WORDS => ANSWER` and `NUMBER ; WORDS => ANSWER`. Their cases come first in the
list, with the answers that they give. Without a FOLDER those that the list has already stay. The other cases are made
here, always the same ones. The answers come from a model of the stored form, written from document 01 alone, and of a
last block word by word from 2.2 of document 02; a given answer that the model does not give is an error.

The forms of a case are described at the top of crates/blocks_list/src/main.rt.
"""
import pathlib
import random
import struct
import sys
from collections import Counter

CRATE = pathlib.Path(__file__).resolve().parent.parent / "crates" / "blocks_list"
LONGEST_LINE = 7_000
MOST_NUMBERS = 262_144
MOST_TEXT = 800_000
MOST_BYTES = 66_560
MOST_WORDS = 16_640

SIZES = [1, 2, 125, 126, 127, 251, 252, 253, 16_127, 16_128]
LENGTHS = [0, 1, 511, 512, 513, 65_535, 65_536, 65_537, 66_048]
REFUSALS = [1, 2, 3, 4, 5, 11]


# ---- the stored form: blocks of 128 words, of which 126 are rule words


def words_of(data):
    return list(struct.unpack(f"<{len(data) // 4}I", data))


def bytes_of(words):
    return struct.pack(f"<{len(words)}I", *words)


def block(number, used, rule, kept=None):
    """A block with any number and count; the rule words are filled up with zeros, and the sum is right if not given."""
    words = [number + 65_536 * used] + rule + [0] * (126 - len(rule))
    return bytes_of(words + [sum(words) % 2**32 if kept is None else kept])


def pieces(words):
    return [words[i : i + 126] for i in range(0, len(words), 126)]


def file_of(words):
    return b"".join(block(number, len(rule), rule) for number, rule in enumerate(pieces(words)))


def file_size(count):
    return 512 * ((count + 125) // 126)


def read_blocks(data, room):
    """The rule words of a file, or a refusal: its number and its place."""
    if not 1 <= len(data) <= 65_536 or len(data) % 512:
        return 1, len(data)
    blocks = [words_of(data[at : at + 512]) for at in range(0, len(data), 512)]
    rule = []
    for number, words in enumerate(blocks):
        used = words[0] // 65_536
        right = 1 <= used <= 126 if number + 1 == len(blocks) else used == 126
        if words[0] % 65_536 != number or not right:
            return 2, 512 * number
        if sum(words[:127]) % 2**32 != words[127]:
            return 3, 512 * number
        rule += words[1 : 1 + used]
    if any(blocks[-1][1 + used : 127]):
        return 4, 512 * (len(blocks) - 1)
    return rule if len(rule) <= room else (11, len(rule))


def write_blocks(words, room):
    """The bytes of a file, or a refusal."""
    if not 1 <= len(words) <= 16_128:
        return 5, len(words)
    size = file_size(len(words))
    return list(file_of(words)) if size <= room else (11, size)


def last_block(number, words):
    """What is known of a last block of which these words were handed over: None, its count, or a refusal."""
    words = words[:128]
    if len(words) < 128:
        return None
    used = words[0] // 65_536
    if words[0] % 65_536 != number or not 1 <= used <= 126:
        return 2, 512 * number
    if sum(words[:127]) % 2**32 != words[127]:
        return 3, 512 * number
    return (4, 512 * number) if any(words[1 + used : 127]) else used


# ---- the line that a call prints


def last_line(answer):
    if answer is None:
        return "nothing"
    return "refused {} at {}".format(*answer) if isinstance(answer, tuple) else f"count {answer}"


def line(unit, answer, lent):
    """The line for an answer, or a refusal, where `lent` is what the result held before."""
    if isinstance(answer, tuple):
        text = "refused {} at {}".format(*answer)
    else:
        text = f"{unit} {len(answer)}"
        lent = answer + lent[len(answer) :]
    total = 1
    for element in lent:
        total = (total * 31 + element) % 2**32
    return f"{text} sum {total}"


def pattern(room):
    return [(k * 7 + 13) % 251 for k in range(room)]


def made_words(seed, count):
    return [seed * (i + 1) % 2**32 * 2_654_435_761 % 2**32 for i in range(count)]


# ---- the cases: the numbers of a case, and its answer


def read_numbers(room, data):
    return [1, room, len(data)] + words_of(data + bytes(-len(data) % 4))


def write_numbers(room, words):
    return [2, room, len(words)] + words


def made_numbers(room, count, seed, length, at=MOST_BYTES, value=0):
    return [3, room, count, seed, length, at, value]


def last_numbers(number, words):
    return [4, number, len(words)] + words


def run(numbers):
    """The line that the model gives for a case."""
    form, room, size = numbers[:3]
    if form == 1:
        return line("words", read_blocks(bytes_of(numbers[3:])[:size], room), pattern(room))
    if form == 2:
        return line("bytes", write_blocks(numbers[3:], room), pattern(room))
    if form == 4:
        return last_line(last_block(room, numbers[3:]))
    seed, length, at, value = numbers[3:]
    written = write_blocks(made_words(seed, size), MOST_BYTES)
    if isinstance(written, tuple):
        return line("bytes", written, [0] * MOST_BYTES)
    data = bytearray(written + [0] * (MOST_BYTES - len(written)))
    if at < MOST_BYTES:
        data[at] = value
    return line("words", read_blocks(bytes(data[:length]), room), pattern(room))


# ---- given cases


def given_answer(text):
    if text.startswith("refused "):
        _, number, _, place = text.split()
        return int(number), int(place)
    head, body = text.split(" : ")
    answer = [int(word) for word in body.split()] if head.startswith("words ") else list(bytes.fromhex(body))
    if int(head.split()[1]) != len(answer):
        sys.exit(f"an answer is not as long as it says: {head}")
    return answer


def given_last(folder):
    """The cases of the file for a last block."""
    for row, text in enumerate((folder / "later" / "2.2-last-block.txt").read_text().splitlines(), 1):
        left, answer = (part.strip() for part in text.split("=>"))
        number, body = (part.strip() for part in left.split(";"))
        numbers = last_numbers(int(number), [int(word) for word in body.split()])
        if answer != run(numbers):
            sys.exit(f"2.2-last-block.txt, line {row}: given is `{answer}`, and the model has `{run(numbers)}`")
        yield numbers, answer


def given_cases(folder):
    """The cases of the two files whose lines are not too long, with the answers that they give."""
    for name, unit in (("blocks-read.txt", "words"), ("blocks-write.txt", "bytes")):
        for row, text in enumerate((folder / name).read_text().splitlines(), 1):
            if len(text) >= LONGEST_LINE:
                continue
            left, right = text.split("=>")
            room, body = (part.strip() for part in left.split(";"))
            room = int(room)
            if unit == "words":
                numbers = read_numbers(room, bytes.fromhex(body))
            else:
                numbers = write_numbers(room, [int(word) for word in body.split()])
            answer = line(unit, given_answer(right.strip()), pattern(room))
            if answer != run(numbers):
                sys.exit(f"{name}, line {row}: given is `{answer}`, and the model has `{run(numbers)}`")
            yield numbers, answer


def kept_cases():
    """The given cases that the list has already: those before its first case of form 3."""
    cases = (CRATE / "stdin").read_text().splitlines()
    answers = (CRATE / "stdout").read_text().splitlines()
    for row, (text, answer) in enumerate(zip(cases, answers), 1):
        numbers = [int(word) for word in text.split()]
        if numbers[0] == 3:
            return
        if answer != run(numbers):
            sys.exit(f"stdout, line {row}: kept is `{answer}`, and the model has `{run(numbers)}`")
        yield numbers, answer


# ---- cases made here. The first one is of form 3, where the given cases end.


def rooms(size):
    """A room that is exact, one short, longer, and none."""
    return [size, size - 1, size + 7, 0]


def sound_files(rng):
    """Files of each size, and of lengths that are not theirs."""
    for size in SIZES:
        for room in rooms(size):
            yield made_numbers(room, size, rng.getrandbits(32), file_size(size))
    for size in (0, 16_129, MOST_WORDS):
        yield made_numbers(8, size, rng.getrandbits(32), 512)
    for length in LENGTHS + [65_024, MOST_BYTES]:
        yield made_numbers(MOST_WORDS, 16_128, rng.getrandbits(32), length)
    for size, length in ((1, 513), (1, 1_024), (126, 1_024), (252, 512), (252, 1_536)):
        yield made_numbers(260, size, rng.getrandbits(32), length)


def damaged_files(rng):
    """One byte changed: in each part of the first, a middle and the last block, and past the end."""
    for size in (100, 200, 300, 16_100):
        seed = rng.getrandbits(32)
        data = file_of(made_words(seed, size)) + bytes(MOST_BYTES - file_size(size))
        last = file_size(size) // 512 - 1
        unused = 1 + size - 126 * last
        room = (size, 0, size + 3)
        for number in sorted({0, (last + 1) // 2, last}):
            # the number, the count, a rule word, the sum, and an unused word
            places = [rng.randrange(2), 2 + rng.randrange(2), rng.randrange(4, 120), 508 + rng.randrange(4)]
            if number == last:
                places += [4 * unused, 4 * 126 + 3]
            for turn, place in enumerate(places):
                at = 512 * number + place
                value = (data[at] + rng.randrange(1, 256)) % 256
                yield made_numbers(room[turn % 3], size, seed, file_size(size), at, value)
        yield made_numbers(size, size, seed, file_size(size), file_size(size), 255)
    yield made_numbers(100, 100, 1, 512, MOST_BYTES - 1, 255)
    yield made_numbers(100, 100, 1, 512, MOST_BYTES, 255)


def mostly_small(rng, count):
    """Words of which most are small, so that the list stays short."""
    return [rng.getrandbits(32) if rng.random() < 0.1 else rng.randrange(10) for _ in range(count)]


def crafted_files(rng):
    """Files that no single byte makes, and faults of which one hides the other: the room, and the file."""
    full = [mostly_small(rng, 126) for _ in range(3)]
    part = mostly_small(rng, 40)
    first, second, third = (block(number, 126, rule) for number, rule in enumerate(full))
    for number, front in ((0, b""), (2, first + second)):
        fits = words_of(block(number, 40, part))[127]
        # a last block that is right, full, empty, or has more words than there are
        yield 126 * number + 40, front + block(number, 40, part)
        yield 126 * number + 39, front + block(number, 40, part)
        yield 126 * number + 126, front + block(number, 126, full[0])
        yield 500, front + block(number, 0, [])
        yield 500, front + block(number, 0, part)
        yield 500, front + block(number, 127, full[0])
        # an unused word that is not zero, where the sum fits it and where not
        for behind in ([1], [0] * 85 + [2**31], [7] * 86):
            yield 500, front + block(number, 40, part + behind)
            yield 500, front + block(number, 40, part + behind, fits)
        yield 0, front + block(number, 40, part + [1])
        # two unused words that cancel each other in the sum
        yield 500, front + block(number, 40, part + [5, 2**32 - 5], fits)
        # a wrong number, with a wrong sum, and with an unused word that is not zero
        yield 500, front + block(number + 1, 40, part)
        yield 500, front + block(number + 256, 40, part, fits)
        yield 500, front + block(number + 3, 40, part + [9])
    torn = block(0, 126, full[0], 12_345)
    short = block(0, 125, full[0][:125])
    yield 500, torn + block(2, 40, part)
    yield 500, block(1, 126, full[0]) + block(1, 40, part, 0)
    yield 500, second + first
    yield 500, first + first
    yield 500, short + block(1, 40, part)
    yield 500, block(0, 125, full[0]) + block(1, 40, part)
    yield 500, short + block(1, 0, [], 1)
    yield 500, torn + block(1, 40, part + [1])
    yield 500, first + block(1, 40, part + [1])
    yield 500, first + block(1, 126, full[1], 1) + block(1, 126, full[2])
    yield 500, first + block(1, 125, full[1][:125]) + block(2, 40, part, 1)
    yield 500, first + second + block(2, 0, [], 1)
    yield 378, first + second + third
    yield 500, b"\xff" * 512
    yield 126, block(0, 126, [2**32 - 1] * 126)
    # lengths that no file has, whatever the bytes
    for length in (0, 1, 511, 513, 1_026):
        yield 300, (first + block(1, 40, part) + b"\xff" * 3)[:length]
    # 128 blocks
    rule = [[rng.randrange(10) for _ in range(126)] for _ in range(127)]
    front = b"".join(block(number, 126, words) for number, words in enumerate(rule))
    yield MOST_WORDS, front + block(127, 40, part + [3])
    yield MOST_WORDS, front[:-512] + block(126, 126, rule[126], 0) + block(126, 40, part)


def written_words(rng):
    """Words to write, of each size."""
    yield write_numbers(0, [])
    yield write_numbers(512, [])
    for size in SIZES[:8]:
        for room in rooms(file_size(size)):
            yield write_numbers(room, mostly_small(rng, size))
    for room, size in ((65_536, 16_127), (65_535, 16_128), (MOST_BYTES, 16_128), (MOST_BYTES, 16_129)):
        yield write_numbers(room, [rng.randrange(10) for _ in range(size)])


def last_blocks(rng):
    """Last blocks word by word: too few words, more than there are, and each word changed that an answer depends on."""
    for number, used in ((0, 1), (1, 40), (127, 126), (128, 125), (65_535, 2)):
        rule = mostly_small(rng, used)
        words = words_of(block(number, used, rule))
        for size in (0, 1, 2, 126, 127, 128):
            yield last_numbers(number, words[:size])
        yield last_numbers(number, words + [1])
        yield last_numbers(number, words + words)
        # another number than expected, in the lower and in the upper half
        yield last_numbers(number ^ 1, words)
        yield last_numbers(number ^ 32_768, words)
        # each of the places where the block's parts meet, with the sum as it was and with the sum that it makes
        for place in sorted({0, 1, used, used + 1, 125, 126, 127}):
            changed = list(words)
            changed[place] = (changed[place] + (65_536 if place == 0 else 1)) % 2**32
            yield last_numbers(number, changed)
            if place < 127:
                yield last_numbers(number, changed[:127] + [sum(changed[:127]) % 2**32])
    # sums over one word less and over all 128, two unused words that cancel each other, a count of 0, of 127, of 65,535
    words = words_of(block(3, 40, [5] * 40))
    yield last_numbers(3, words[:126] + [7, words[127]])
    yield last_numbers(3, words[:127] + [2 * words[127] % 2**32])
    yield last_numbers(3, words[:60] + [5, 2**32 - 5] + words[62:])
    yield last_numbers(3, words[:41] + [2**32 - 1, 1] + words[43:])
    for used in (0, 127, 128, 32_768, 65_535):
        yield last_numbers(3, words_of(block(3, used, [5] * 40)))
        yield last_numbers(3, words_of(block(3, used, [])))
    yield last_numbers(7, [0] * 128)
    yield last_numbers(0, [2**32 - 1] * 129)


def made_cases():
    rng = random.Random(126)
    crafted = (read_numbers(room, data) for room, data in crafted_files(rng))
    for cases in (sound_files(rng), damaged_files(rng), crafted, written_words(rng), last_blocks(rng)):
        for numbers in cases:
            yield numbers, run(numbers)


# ---- the list


def check_whole(cases):
    """Fails where a refusal or a size that the list must have is missing, or where the program would stop."""
    refused = Counter(int(answer.split()[1]) for _, answer in cases if answer.startswith("refused "))
    missing = [f"refusal {number}" for number in REFUSALS if not refused[number]]
    lasts = {" ".join(answer.split()[:2]) for numbers, answer in cases if numbers[0] == 4}
    wanted = ["nothing", "count 1", "count 126", "refused 2", "refused 3", "refused 4"]
    missing += [f"{answer} of a last block" for answer in wanted if answer not in lasts]
    for form in (2, 3):
        sizes = {numbers[2] for numbers, _ in cases if numbers[0] == form}
        missing += [f"{size} words in form {form}" for size in [0] + SIZES + [16_129] if size not in sizes]
    lengths = {numbers[2] if numbers[0] == 1 else numbers[4] for numbers, _ in cases if numbers[0] in (1, 3)}
    missing += [f"{length} bytes" for length in LENGTHS if length not in lengths]
    if missing:
        sys.exit("the list lacks " + ", ".join(missing))
    for numbers, _ in cases:
        limits = {
            1: (MOST_WORDS, MOST_BYTES),
            2: (MOST_BYTES, MOST_WORDS),
            3: (MOST_WORDS, MOST_WORDS),
            4: (65_535, MOST_WORDS),
        }[numbers[0]]
        if numbers[1] > limits[0] or numbers[2] > limits[1] or (numbers[0] == 3 and numbers[4] > MOST_BYTES):
            sys.exit(f"a case asks for too much: {numbers[:7]}")
    if sum(len(numbers) for numbers, _ in cases) >= MOST_NUMBERS:
        sys.exit("the list has too many numbers")


def main():
    if len(sys.argv) > 2:
        sys.exit(__doc__)
    if len(sys.argv) == 2:
        folder = pathlib.Path(sys.argv[1])
        given = list(given_cases(folder)) + list(given_last(folder))
    else:
        given = list(kept_cases())
    cases = []
    seen = set()
    for numbers, answer in given + list(made_cases()):
        text = " ".join(map(str, numbers))
        if text not in seen:
            seen.add(text)
            cases.append((numbers, answer))
    check_whole(cases)
    stdin = "".join(" ".join(map(str, numbers)) + "\n" for numbers, _ in cases)
    stdout = "".join(answer + "\n" for _, answer in cases)
    if len(stdin) >= MOST_TEXT:
        sys.exit(f"the list is too long: {len(stdin)} bytes")
    (CRATE / "stdin").write_text(stdin)
    (CRATE / "stdout").write_text(stdout)
    kinds = Counter(" ".join(answer.split()[: 2 if answer.startswith("refused") else 1]) for _, answer in cases)
    print(f"{len(cases)} cases, {len(given)} of them given; {sum(len(numbers) for numbers, _ in cases)} numbers")
    print("; ".join(f"{kind}: {kinds[kind]}" for kind in sorted(kinds)))


if __name__ == "__main__":
    main()
