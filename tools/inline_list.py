#!/usr/bin/env python3
"""Makes the list of cases that crates/inline_list runs: its stdin, and its stdout with the answers.

Usage: tools/inline_list.py [FOLDER [ORACLE]] [--sample SAMPLE]

FOLDER has safe.txt, inline.txt and later/2.4-safe.txt, one case to a line: `NUMBERS ; WORDS => ANSWER`. ORACLE is a
program: `ORACLE random expr SEED COUNT SIZE` prints expressions, one to a line, `ORACLE random rule ..` rules, and
`ORACLE safe PARAMS` and `ORACLE inline PARAMS POSITIONAL STAR VARIABLES` answer for such lines. SAMPLE is a file that
`compare sample` printed: its lines `safe NUMBERS ; WORDS => ANSWER` and `inline ..` are taken. Their cases come first
in the list, with the answers that they give: the folder's, the oracle's, the sample's, and an empty line behind each of
the three. Those of a source that is not named stay as the list has them. The other cases are made here, always the same
ones. The answers come from a model of the two checks, written from document 01 and request 2.4 of document 02 over the
reader of verdicts_list.py; a given answer that the model does not give is an error. On a no the visits are the nodes
entered in word order up to and including the forbidden one, or 101 if the limit came first.

The forms of a case are described at the top of crates/inline_list/src/main.rt.
"""
import pathlib
import subprocess
import sys
from collections import Counter

sys.path.insert(0, str(pathlib.Path(__file__).resolve().parent))
import verdicts_list as reading
from verdicts_list import answer_line, given, numbers_of, sample_lines, varied

LIST = reading.CRATES / "inline_list"
MOST_NUMBERS = 262_144
MOST_TEXT = 500_000
SAFE, INLINE = 1, 2
LIMIT = 101
FORBIDDEN = (3, 4, 5)
RETURN = 33
LONGEST_WORDS = 300

ORACLE_SIZES = [3, 10, 40, 150]
ORACLE_PARAMS = [0, 1, 2, 7]
ORACLE_BODIES = [(1, 1, 0, 1), (1, 0, 0, 1), (1, 1, 1, 1), (2, 1, 0, 3), (0, 0, 0, 0)]
ORACLE_DRAWN = 200
ORACLE_TAKEN = 6
SAMPLE_TAKEN = 300
SAMPLE_LONGEST = 170


# ---- the two checks


class Unsafe(Exception):
    """The walk ended with a no."""


class Visitor:
    def __init__(self, params):
        self.params = params
        self.visits = 0

    def enter(self, node):
        if self.visits == LIMIT:
            raise Unsafe
        self.visits += 1
        if node.kind in FORBIDDEN or (node.kind == 2 and node.own[0] >= self.params):
            raise Unsafe
        for part in node.parts:
            self.enter(part)


def safe(params, tree):
    """Whether the expression is safe to inline, and the nodes entered."""
    visitor = Visitor(params)
    try:
        visitor.enter(tree)
    except Unsafe:
        return False, visitor.visits
    return True, visitor.visits


class Bodies(reading.Reader):
    """Reads a rule, and keeps its first statement if that is a Return: where its expression begins, and that."""

    def __init__(self, words):
        super().__init__(words)
        self.returned = None

    def expression(self, depth):
        start = self.at
        tree = super().expression(depth)
        if start == 2 and self.words[1] == RETURN:
            self.returned = start, tree
        return tree


def inline(params, positional, star, variables, words):
    reading.read(words, True)
    reader = Bodies(words)
    reader.statements(1)
    if reader.returned:
        at, tree = reader.returned
        if params == 1 and positional and tree.kind == 11 and tree.detail == reading.TYPE_IS:
            part = tree.parts[0]
            if part.kind == 2 and part.own[0] == 0:
                return f"type {tree.own[0]}"
        return f"safe {at}" if not star and safe(variables, tree)[0] else "neither"
    return "none" if not star and words[0] == 0 else "neither"


def answer_of(numbers):
    """The line that the model gives for a case."""
    form, params, positional, star, variables = numbers[:5]
    words = numbers[6:]
    try:
        if form == INLINE:
            return inline(params, positional, star, variables, words)
        answer, visits = safe(params, reading.read(words, False)[1])
    except reading.Refused as refused:
        return "refused {} at {}".format(*refused.args)
    return f"{'yes' if answer else 'no'} {visits}"


def case(form, given, words):
    given = list(given) + [0] * (4 - len(given))
    return [form] + given + [len(words)] + words


# ---- given cases


def file_cases(folder):
    for name, form in (("safe.txt", SAFE), ("inline.txt", INLINE), ("later/2.4-safe.txt", SAFE)):
        for row, text in enumerate((folder / name).read_text().splitlines(), 1):
            left, answer = text.split("=>")
            head, words = left.split(";")
            numbers = case(form, numbers_of(head), numbers_of(words))
            yield given(f"{name}, line {row}", numbers, answer.strip(), answer_of)


def ask(oracle, arguments, lines=()):
    text = "".join(line + "\n" for line in lines)
    arguments = [str(argument) for argument in arguments]
    done = subprocess.run([oracle] + arguments, input=text, capture_output=True, text=True, check=True)
    return done.stdout.splitlines()


def oracle_cases(oracle, known):
    """Random expressions and rules with the oracle's answers, as many of each answer as there are."""
    asked = (SAFE, "expr", "safe", [(params,) for params in ORACLE_PARAMS]), (INLINE, "rule", "inline", ORACLE_BODIES)
    for form, sort, command, heads in asked:
        for seed, size in enumerate(ORACLE_SIZES, 1):
            for tame in ([], ["tame"]):
                lines = list(dict.fromkeys(ask(oracle, ["random", sort, seed, ORACLE_DRAWN, size] + tame)))
                lines = [line for line in lines if len(line.split()) <= LONGEST_WORDS]
                if form == INLINE:
                    lines = bodies(lines)
                for head in heads:
                    answers = ask(oracle, [command, *head], lines)
                    yield from taken(zip(lines, answers, strict=True), form, head, known)


def bodies(lines):
    """Rules that begin with a Return, then others."""
    first = [line for line in lines if line.split()[1:2] == ["33"]]
    return first + [line for line in lines if line not in first][:5]


def taken(asked, form, head, known):
    cases = []
    for text, answer in asked:
        answer = answer.replace("typetest", "type")
        cases.append(given(f"oracle, {text}", case(form, head, numbers_of(text)), answer, answer_of))
    return varied(cases, answer_line, ORACLE_TAKEN, known)


def sample_cases(sample, known):
    """Expressions and bodies of the sample, as many of each answer as there are."""
    for form, kind, line in (SAFE, "safe", safe_line), (INLINE, "inline", inline_line):
        cases = []
        for text, head, words, answer in sample_lines(sample, kind):
            cases.append(given(text, case(form, head, words), line(answer), answer_of))
        yield from varied(cases, answer_line, SAMPLE_TAKEN, known, SAMPLE_LONGEST)


def safe_line(answer):
    """The line for `0 7` or `1 7`."""
    safe, visits = answer.split()
    return f"{['no', 'yes'][int(safe)]} {visits}"


def inline_line(answer):
    """The line for `Neither`, `NoneValue`, `Safe(2)` or `TypeTest(7)`."""
    name, *number = answer.strip(")").split("(")
    names = {"Neither": "neither", "NoneValue": "none", "Safe": "safe", "TypeTest": "type"}
    return " ".join([names[name]] + number)


# ---- cases made here


LOCAL = reading.LOCAL
INT = reading.INT


def local(slot):
    return reading.node(2, own=[slot])


def many(count, part=reading.TUPLE):
    """A list with so many parts."""
    return reading.node(7, count, parts=[part] * count)


def made_cases():
    yield case(SAFE, [], [])
    for count in (98, 99, 100, 101, 102):
        for words in (many(count), many(count, LOCAL)):
            for params in (0, 1):
                yield case(SAFE, [params], words)
    # a forbidden node as node 100, 101 and 102, and a local that is not below the count there
    for kind in FORBIDDEN:
        for before in (98, 99, 100):
            for odd in (reading.node(kind, own=[0]), local(5)):
                yield case(SAFE, [5], reading.node(7, before + 2, parts=[reading.TUPLE] * before + [odd, INT]))
    # nothing behind the first forbidden node counts, nor a second one
    for odd in (local(5), *(reading.node(kind, own=[0]) for kind in FORBIDDEN)):
        for before, behind in ((0, 200), (1, 1), (40, 200)):
            parts = [INT] * before + [odd] + [INT] * behind + [odd]
            yield case(SAFE, [5], reading.node(7, len(parts), parts=parts))
    # nests
    for times in (99, 100, 101, 198, 199, 200):
        yield case(SAFE, [1], [779] * times + LOCAL)
    for count in (0, 1, 2, 3, reading.LAST):
        for slot in (0, 1, 2, 3, reading.LAST - 1, reading.LAST):
            yield case(SAFE, [count], local(slot))
            yield case(SAFE, [count], reading.node(12, parts=[local(1), local(slot)]))
    # each part of each node is visited, in word order
    for words in parts_of_all(local(9)):
        for params in (9, 10):
            yield case(SAFE, [params], words)
    for words in parts_of_all(reading.node(4, own=[0])):
        yield case(SAFE, [10], words)
    # bodies
    for head in heads():
        for body in made_bodies():
            yield case(INLINE, head, body)


def parts_of_all(odd):
    """A node of each kind that has parts, with `odd` as one of them."""
    for kind, detail, own, count in (
        (6, 3, [], 3), (7, 3, [], 3), (8, 2, [], 4), (9, 0, [], 3), (10, 7, [], 4), (10, 2, [], 2), (11, 3, [], 1),
        (11, 4, [8], 1), (11, 5, [8, 8], 1), (11, 7, [8], 1), (12, 1, [], 2), (13, 0, [], 2), (14, 0, [], 2),
        (15, 0, [], 3), (16, 2, [196_609, 5], 5),
    ):
        for place in range(count):
            parts = [odd if i == place else INT for i in range(count)]
            yield reading.node(kind, detail, own, parts)


def heads():
    for params in (0, 1, 2):
        for positional in (0, 1):
            for star in (0, 1):
                for variables in (0, 1, 2):
                    yield params, positional, star, variables


def made_bodies():
    yield [0]
    test = reading.builtin1(reading.TYPE_IS, LOCAL, [9])
    for expression in (test, reading.builtin1(reading.TYPE_IS, local(1), [9]), LOCAL, local(1), INT):
        yield [1, RETURN] + expression
        yield [2, RETURN] + expression + [39]
    yield [1, RETURN] + reading.builtin1(reading.NOT, test)
    yield [1, RETURN] + reading.builtin1(reading.TYPE_IS, reading.builtin1(reading.NOT, LOCAL), [2])
    yield [1, RETURN] + reading.builtin1(reading.DOT, LOCAL, [2])
    yield [1, RETURN] + reading.node(3, own=[0])
    yield [1, 34] + test
    yield [2, 32, RETURN] + test
    yield [1, 37] + LOCAL + [1, RETURN] + test + [0]
    yield [1, RETURN]
    yield [1, RETURN, 39]


def main():
    parts = reading.list_parts(__doc__, LIST, answer_of, file_cases, oracle_cases, sample_cases, made_cases)
    cases = [case for part in parts for case in part]
    stdin = reading.text_of(parts)
    stdout = "".join(answer + "\n" for _, answer in cases)
    total = sum(len(numbers) for numbers, _ in cases)
    if total >= MOST_NUMBERS or len(stdin) > MOST_TEXT:
        sys.exit(f"too long: {total} numbers, {len(stdin)} bytes")
    (LIST / "stdin").write_text(stdin)
    (LIST / "stdout").write_text(stdout)
    print(f"{reading.count_line(parts)}, {len(stdin)} bytes")
    kinds = Counter(answer.split(" ")[0] for _, answer in cases)
    print("\n".join(f"{count:5} {kind}" for kind, count in sorted(kinds.items())))


if __name__ == "__main__":
    main()
