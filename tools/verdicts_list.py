#!/usr/bin/env python3
"""Makes the list of cases that crates/verdicts_list runs: its stdin, and its stdout with the answers.

Usage: tools/verdicts_list.py [FOLDER [ORACLE]] [--sample SAMPLE]

FOLDER has read-expr.txt, read-rule.txt and verdicts.txt, and later/2.3-verdicts.txt, one case to a line: `WORDS =>
ANSWER`. The first three know document 01 alone: their lines whose answer 02's request 2.3 changed are left out. ORACLE
is a program: `ORACLE random expr SEED COUNT SIZE` prints expressions, one to a line, and `ORACLE --no-string-length
verdict` answers for such lines. SAMPLE is a file that `compare sample` printed: its lines `verdicts WORDS => ANSWER`
are taken. Their cases come first in the list, with the answers that they give: the folder's, the oracle's, the
sample's, and an empty line behind each of the three. Those of a source that is not named stay as the list has them. The
other cases are made here, always the same ones. The answers come from a model of reading and of the four verdicts,
written from document 01 and from 02's request 2.3 alone; a given answer that the model does not give is an error.

The forms of a case are described at the top of crates/verdicts_list/src/main.rt. The script also makes the stdout of
crates/verdict_limits: its expressions are in `limits`, near the end.
"""
import argparse
import itertools
import pathlib
import re
import subprocess
import sys
from collections import Counter

CRATES = pathlib.Path(__file__).resolve().parent.parent / "crates"
LIST = CRATES / "verdicts_list"
LONGEST_LINE = 3_000
MOST_NUMBERS = 262_144
MOST_TEXT = 700_000
MOST_WORDS = 16_640

DEPTH = 200
WORDS = 16_128
ORACLE_SIZES = [3, 10, 30, 80, 200]
ORACLE_DRAWN = 2_000
ORACLE_TAKEN = 80
SAMPLE_TAKEN = 300
SAMPLE_LONGEST = 100

FILES = {"verdicts.txt": 1, "read-expr.txt": 2, "read-rule.txt": 3, "later/2.3-verdicts.txt": 1}
# files of requests of document 02, below this folder, know these; all others know document 01 alone
LATER = "later/"
LAST = 2**32 - 1


# ---- the words: which kinds there are, each with its details, and what follows a header

ANY = range(2**24)
ZERO = range(1)
EXPRESSIONS = {1: range(7), 2: ZERO, 3: ZERO, 4: ZERO, 5: ZERO, 6: ANY, 7: ANY, 8: ANY, 9: ZERO, 10: range(8)}
EXPRESSIONS |= {11: range(8), 12: range(2), 13: ZERO, 14: range(18), 15: ZERO, 16: ANY}
STATEMENTS = {kind: ZERO for kind in range(32, 41)} | {36: range(11)}
SINGLES = {64: ZERO, 65: ZERO, 67: ZERO, 68: ZERO, 69: ZERO}
TARGETS = SINGLES | {66: ANY}

NOT, TYPE_IS, PERCENT_ONE, FORMAT_ONE, DOT = 3, 4, 5, 6, 7
EQUALS, IN = 0, 1
COMPARES = range(13, 17)
TEXTS = {TYPE_IS: 1, PERCENT_ONE: 2, FORMAT_ONE: 2, DOT: 1}


class Refused(Exception):
    """A refusal: its number and its place."""


class Node:
    def __init__(self, kind, detail):
        self.kind = kind
        self.detail = detail
        self.own = []
        self.parts = []


class Reader:
    """Reads words from the first on. Counts the nodes, and stops at the first refusal."""

    def __init__(self, words):
        self.words = words
        self.at = 0
        self.nodes = 0

    def word(self):
        if self.at == len(self.words):
            raise Refused(8, self.at)
        self.at += 1
        return self.words[self.at - 1]

    def payload(self, node, right):
        """A word behind the header for which `right` must hold."""
        word = self.word()
        if not right(word):
            raise Refused(9, self.at - 1)
        node.own.append(word)

    def text(self, node):
        self.payload(node, lambda word: word <= 65_535)

    def any(self, node):
        self.payload(node, lambda word: True)

    def header(self, depth, kinds):
        word = self.word()
        if depth > DEPTH:
            raise Refused(7, self.at - 1)
        kind, detail = word % 256, word // 256
        if detail not in kinds.get(kind, ()):
            raise Refused(9, self.at - 1)
        self.nodes += 1
        return Node(kind, detail)

    def expressions(self, node, depth, count):
        for _ in range(count):
            node.parts.append(self.expression(depth + 1))

    def expression(self, depth):
        node = self.header(depth, EXPRESSIONS)
        kind, detail = node.kind, node.detail
        if kind == 1:
            self.constant(node)
        elif kind <= 5:
            self.any(node)
        elif kind == 11:
            for _ in range(TEXTS.get(detail, 0)):
                self.text(node)
        elif kind == 16:
            self.payload(node, lambda word: word < 2**18 and word % 65_536 <= detail)
            for _ in range(node.own[0] % 65_536):
                self.text(node)
        count = {6: detail, 7: detail, 8: 2 * detail, 9: 3, 10: 1 + bin(detail).count("1"), 11: 1, 12: 2, 13: 2}
        count |= {14: 2, 15: 3, 16: 1 + detail}
        self.expressions(node, depth, count.get(kind, 0))
        if kind == 16:
            self.expressions(node, depth, bin(node.own[0] >> 16).count("1"))
        return node

    def constant(self, node):
        if node.detail == 1:
            self.payload(node, lambda word: word <= 1)
        elif node.detail == 2:
            self.any(node)
        elif node.detail == 3:
            self.text(node)
        elif node.detail == 6:
            self.any(node)
            self.payload(node, lambda word: word < 2**18)
        else:
            self.payload(node, lambda word: word == 0)

    def target(self, depth, kinds=TARGETS):
        node = self.header(depth, kinds)
        if node.kind == 64:
            self.text(node)
            self.expressions(node, depth, 1)
        elif node.kind == 65:
            self.expressions(node, depth, 2)
        elif node.kind == 66:
            for _ in range(node.detail):
                node.parts.append(self.target(depth + 1))
        else:
            self.any(node)
            if node.kind == 69:
                self.text(node)
        return node

    def statement(self, depth):
        """A statement; a list in it is a part."""
        node = self.header(depth, STATEMENTS)
        kind = node.kind
        if kind == 35:
            self.any(node)
        if kind in (35, 36, 38):
            node.parts.append(self.target(depth + 1, SINGLES if kind == 36 else TARGETS))
        if kind in range(33, 39):
            self.expressions(node, depth, 1)
        for _ in range({37: 2, 38: 1}.get(kind, 0)):
            node.parts.append(self.statements(depth + 1))
        return node

    def statements(self, depth):
        """A list of statements."""
        return [self.statement(depth) for _ in range(self.word())]


def read(words, is_rule):
    """The number of nodes, and the expression or the list of statements."""
    if not 1 <= len(words) <= WORDS:
        raise Refused(5, len(words))
    reader = Reader(words)
    tree = reader.statements(1) if is_rule else reader.expression(1)
    if reader.at < len(words):
        raise Refused(10, reader.at)
    return reader.nodes, tree


# ---- the four verdicts


def is_pure(node):
    kind, detail, parts = node.kind, node.detail, node.parts
    if kind == 1:
        return True
    if kind in (6, 7, 9, 12, 13) or (kind == 11 and detail in (NOT, TYPE_IS)):
        return all(map(is_pure, parts))
    if kind == 8:
        return not parts
    return kind == 16 and is_type_call(node) and is_pure(parts[1])


def is_type_call(node):
    """The type function as callee, one positional argument and no other."""
    callee = node.parts[0]
    return (callee.kind, callee.detail) == (1, 4) and node.detail == 1 and node.own[0] == 0


def truth(node):
    """True, False, or None where it is unknown."""
    kind, detail, parts = node.kind, node.detail, node.parts
    if kind == 1:
        return constant_truth(detail, node.own)
    if kind in (6, 7):
        return bool(parts) if is_pure(node) else None
    if kind == 8:
        return None if parts else False
    if kind == 11 and detail == NOT:
        inner = truth(parts[0])
        return None if inner is None else not inner
    if kind == 12:
        left = truth(parts[0])
        decides = detail == 1
        return left if left is None or left == decides else truth(parts[1])
    return None


def constant_truth(detail, own):
    if detail == 6:
        return own[1] >> 16 & 1 == 1
    return detail in (4, 5) or own[0] != 0


def is_bool(node):
    if node.kind == 11:
        return node.detail in (NOT, TYPE_IS)
    if node.kind == 14:
        return node.detail in (EQUALS, IN) or node.detail in COMPARES
    return node.kind == 1 and node.detail == 1


# whether the empty string is an empty iterable: so under document 01 alone, and not since 02's request 2.3
EMPTY_STRING_COUNTS = False


def is_empty(node):
    if node.kind == 1 and node.detail == 3:
        return EMPTY_STRING_COUNTS and node.own[0] == 0
    if node.kind == 1:
        return node.detail == 6 and node.own[1] >> 17 == 1
    return node.kind in (6, 7, 8) and not node.parts


# ---- the line that a case prints


def verdicts_line(pure, known, definite, empty):
    names = {True: "yes", False: "no", None: "unknown"}
    return f"pure {names[pure]} truth {names[known]} bool {names[definite]} empty {names[empty]}"


def answer_of(form, words):
    """The line for words in form 1, 2 or 3, and their number of nodes."""
    try:
        nodes, tree = read(words, form == 3)
    except Refused as refused:
        return "refused {} at {}".format(*refused.args), 0
    if form == 1:
        return verdicts_line(is_pure(tree), truth(tree), is_bool(tree), is_empty(tree)), nodes
    return "accepted", nodes


def run(numbers):
    """The line that the model gives for a case."""
    form = numbers[0]
    if form <= 3:
        return answer_of(form, numbers[2:])[0]
    at, times, words = numbers[1], numbers[2], numbers[4:]
    return answer_of(form - 3, words[:at] + words[at : at + 1] * times + words[at + 1 :])[0]


# ---- the parts of a list: what this script and those for inlining and pruning share


def numbers_of(text):
    return [int(word) for word in text.split()]


def given(name, numbers, answer, model):
    """A given case, if the model gives the same answer."""
    own = model(numbers)
    if own != answer:
        sys.exit(f"{name}: given is `{answer}`, and the model has `{own}`")
    return numbers, answer


def outdated(numbers, answer, model):
    """Whether a case has the answer of document 01 alone, and a request of 02 changed it."""
    global EMPTY_STRING_COUNTS
    now = model(numbers)
    EMPTY_STRING_COUNTS = True
    before = model(numbers)
    EMPTY_STRING_COUNTS = False
    return answer == before != now


def kept_parts(crate):
    """The given parts of the list as it is: the folder's, the oracle's and the sample's cases."""
    rows, lines = (iter((crate / name).read_text().splitlines()) for name in ("stdin", "stdout"))
    for _ in range(3):
        part = []
        for text in itertools.takewhile(bool, rows):
            first = next(lines)
            # behind such a line, which `cardtidy` prints, each word has a line of its own
            size = re.fullmatch(r"words (\d+) foldable \d+", first)
            words = itertools.islice(lines, int(size[1]) if size else 0)
            part.append((numbers_of(text), "\n".join([first, *words])))
        yield part


def held(part, model):
    """The cases of a part, if the model gives their answers."""
    return [given(f"kept, {numbers}", numbers, answer, model) for numbers, answer in part]


def list_parts(doc, crate, model, file_cases, oracle_cases, sample_cases, made_cases):
    """The four parts of the list: the folder's, the oracle's and the sample's cases, and those made here."""
    parser = argparse.ArgumentParser(description=doc, formatter_class=argparse.RawDescriptionHelpFormatter)
    parser.add_argument("folder", nargs="?", type=pathlib.Path)
    parser.add_argument("oracle", nargs="?")
    parser.add_argument("--sample", type=pathlib.Path)
    named = parser.parse_args()
    kept = list(kept_parts(crate))
    # a case is known as soon as it is listed: no later draw of the oracle repeats it
    known = set()
    first = unlisted(file_cases(named.folder) if named.folder else held(kept[0], model), known)
    asked = unlisted(oracle_cases(named.oracle, known) if named.oracle else held(kept[1], model), known)
    made = unlisted(((numbers, model(numbers)) for numbers in made_cases()), known)
    sampled = unlisted(sample_cases(named.sample, known) if named.sample else held(kept[2], model), known)
    return [first, asked, sampled, made]


def unlisted(cases, known):
    """The cases that are not in `known`, where they are then."""
    result = []
    for numbers, answer in cases:
        if tuple(numbers) not in known:
            known.add(tuple(numbers))
            result.append((numbers, answer))
    return result


def varied(cases, kind_of, most, known, longest=MOST_NUMBERS):
    """At most so many of the cases that are not in `known`, one of each kind in turn; none has too many numbers."""
    by_kind = {}
    for case in cases:
        if tuple(case[0]) not in known and len(case[0]) <= longest:
            by_kind.setdefault(kind_of(case), []).append(case)
    turns = itertools.zip_longest(*by_kind.values())
    return [case for turn in turns for case in turn if case][:most]


def answer_line(case):
    return case[1]


def sample_lines(sample, kind):
    """The lines of a kind, each once, with the numbers before the words, the words and the answer."""
    for text in dict.fromkeys(sample.read_text().splitlines()):
        name, case = text.split(" ", 1)
        if name == kind:
            left, answer = case.split("=>")
            *head, words = left.split(";")
            yield text, numbers_of("".join(head)), numbers_of(words), answer.strip()


def count_line(parts):
    """How many cases and numbers the list has."""
    names = ("the folder's", "the oracle's", "the sample's", "made here")
    numbers = sum(len(numbers) for part in parts for numbers, _ in part)
    each = ", ".join(f"{len(part)} {name}" for part, name in zip(parts, names))
    return f"{sum(map(len, parts))} cases ({each}), {numbers} numbers"


def text_of(parts):
    """The text of the list: a case to a line, and an empty line between two parts."""
    return "\n".join("".join(" ".join(map(str, numbers)) + "\n" for numbers, _ in part) for part in parts)


# ---- given cases


def file_cases(folder):
    """The cases of the files whose lines are not too long or outdated, with the answers that they give."""
    for name, form in FILES.items():
        for row, text in enumerate((folder / name).read_text().splitlines(), 1):
            if len(text) >= LONGEST_LINE:
                continue
            left, answer = text.split("=>")
            words, answer = numbers_of(left), answer.strip()
            if answer == f"ok nodes {answer_of(form, words)[1]}":
                answer = "accepted"
            numbers = plain(form, words)
            if name.startswith(LATER) or not outdated(numbers, answer, run):
                yield given(f"{name}, line {row}", numbers, answer, run)


def ask(oracle, arguments, text=""):
    done = subprocess.run([oracle] + arguments, input=text, capture_output=True, text=True, check=True)
    return done.stdout.splitlines()


def oracle_answer(text):
    """The line for `pure=0 truth=unknown bool=0 empty=0`."""
    pure, known, definite, empty = (field.split("=")[1] for field in text.split())
    known = {"yes": True, "no": False, "unknown": None}[known]
    return verdicts_line(pure == "1", known, definite == "1", empty == "1")


def oracle_cases(oracle, known):
    """Random expressions with the oracle's answers, as many of each answer as there are."""
    for seed, size in enumerate(ORACLE_SIZES, 1):
        drawn = dict.fromkeys(ask(oracle, ["random", "expr", str(seed), str(ORACLE_DRAWN), str(size)]))
        answers = ask(oracle, ["--no-string-length", "verdict"], "".join(text + "\n" for text in drawn))
        cases = []
        for text, answer in zip(drawn, answers, strict=True):
            cases.append(given(f"oracle, {text}", plain(1, numbers_of(text)), oracle_answer(answer), run))
        yield from varied(cases, answer_line, ORACLE_TAKEN, known)


def sample_cases(sample, known):
    """Expressions of the sample, as many of each answer as there are."""
    cases = []
    for text, _, words, answer in sample_lines(sample, "verdicts"):
        line = verdicts_line(*([False, True, None][number] for number in numbers_of(answer)))
        cases.append(given(text, plain(1, words), line, run))
    return varied(cases, answer_line, SAMPLE_TAKEN, known, SAMPLE_LONGEST)


# ---- cases made here


def node(kind, detail=0, own=(), parts=()):
    return [kind + 256 * detail, *own] + [word for part in parts for word in part]


def constant(detail, *own):
    return node(1, detail, own)


def builtin1(detail, part, texts=None):
    return node(11, detail, [8] * TEXTS.get(detail, 0) if texts is None else texts, [part])


def call(names, callee, *arguments, texts=(), more=()):
    """A call of so many positional arguments, with the names word and the name texts; `more` are args and kwargs."""
    return node(16, len(arguments), [names, *texts], [callee, *arguments, *more])


YES = constant(1, 1)
NO = constant(1, 0)
INT = constant(2, 7)
TYPE_FUNCTION = constant(4, 0)
LEN_FUNCTION = constant(5, 0)
LOCAL = node(2, own=[0])
PURE = builtin1(TYPE_IS, YES)
TUPLE = node(6)

ARGS = 65_536
KWARGS = 131_072


def plain(form, words):
    return [form, len(words)] + words


def repeated(form, words, at, times):
    return [form, at, times, len(words)] + words


def deep_expressions():
    """Nests of depth 200, and of 201: one header over and over, then the last part and the parts behind it."""
    for times in (199, 200):
        for form in (4, 5):
            yield repeated(form, [779] + YES, 0, times)
            yield repeated(form, [263] + TUPLE, 0, times)
            yield repeated(form, [12] + [6] * (times + 1), 0, times)
        for last in (LOCAL, TUPLE):
            yield repeated(4, [779] + last, 0, times)
        for header in (11, 267, 523, 262, 10):
            yield repeated(4, [header] + TUPLE, 0, times)
        for header in (268, 13, 14, 264, 266):
            yield repeated(4, [header] + [6] * (times + 1), 0, times)
        for header in (9, 15):
            yield repeated(4, [header] + [7] * (2 * times + 1), 0, times)
        for detail, texts in TEXTS.items():
            # each text is the number of the header
            yield repeated(4, [11 + 256 * detail] + NO, 0, (1 + texts) * times)
        # And with a right side that is as deep as can be, or one deeper
        yield repeated(4, [12, 6, 779] + YES, 2, times - 1)
    for left in (YES, NO, LOCAL):
        for header in (12, 268):
            yield repeated(4, [header] + left + YES * 198 + LOCAL, 0, 199)


def first_refusals():
    """Which refusal comes first: 5 before all others, then by word, and at one word 8, 7, 9."""
    for form in (4, 5):
        for times in (199, 200):
            yield repeated(form, [779], 0, times)
            yield repeated(form, [779, 99], 0, times)
        yield repeated(form, TUPLE, 0, WORDS + 1)
        yield repeated(form, TUPLE, 0, WORDS)
        yield repeated(form, TUPLE, 0, 0)
    for times in (199, 200):
        for wrong in (2**31, 34, 64):
            yield repeated(4, [779, wrong], 0, times)
        yield repeated(4, [779, 257, 1, 0], 0, times)
    yield repeated(4, [779, 257], 0, 199)
    yield repeated(4, [779, 257, 2], 0, 199)
    # the first part is wrong, the second too deep, and the other way round
    yield repeated(4, [12, 99, 779] + YES, 2, 200)
    yield repeated(4, [12, 779] + YES + [99], 1, 200)
    for word in (99, 779, 0):
        yield repeated(4, [word], 0, WORDS + 1)
        yield repeated(4, [word], 0, WORDS)
    yield repeated(4, TUPLE, 0, MOST_WORDS)


def wide_expressions():
    """As many parts as there is space for, and one more."""
    for form in (4, 5):
        for header, part in ((7, 6), (6, 7)):
            yield repeated(form, [header + 256 * 16_000, part], 1, 16_000)
        for count in (16_126, 16_127, 16_128):
            yield repeated(form, [7 + 256 * count, 6], 1, WORDS - 1)
        yield repeated(form, [7 + 256 * WORDS, 6], 1, WORDS)
    yield repeated(4, [6 + 256 * 16_000, 8], 1, 16_000)
    yield repeated(4, [7 + 256 * 16_000, 6] + LOCAL, 1, 15_999)
    yield repeated(4, [7 + 256 * 16_000] + LOCAL + [6], 3, 15_999)
    yield repeated(4, [7 + 256 * 16_000, 6, 99], 1, 15_999)
    yield repeated(4, [8 + 256 * 8_000, 6], 1, 16_000)
    yield repeated(4, [8 + 256 * 8_000, 6], 1, 15_999)
    yield repeated(4, [16 + 256 * 16_000, 0] + TYPE_FUNCTION + [6], 4, 16_000)
    yield repeated(4, [16 + 256 * 16_000, ARGS + KWARGS, 6], 2, 16_003)
    # names that are text 6, then a callee and arguments that are empty tuples
    yield repeated(4, [16 + 256 * 8_000, 8_000, 6], 2, 16_001)
    yield repeated(4, [16 + 256 * 8_000, 8_001, 6], 2, 16_001)
    yield repeated(4, [7 + 256 * (2**24 - 1), 6], 1, 16_000)
    yield repeated(4, [8 + 256 * (2**24 - 1), 6], 1, 16_000)


def large_rules():
    """Rules as deep and as wide as they may be, and one more."""
    for times in (199, 200):
        yield repeated(6, [1, 34, 779] + YES, 2, times - 1)
        yield repeated(6, [1, 35, 0, 322, 67, 0] + YES, 3, times - 1)
        yield repeated(6, [1, 38, 322, 67, 0] + YES + [0], 2, times - 1)
        nest = [1] + [37, 6, 1] * (times - 1)
        yield plain(3, nest + [39] + [0] * (times - 1))
        yield plain(3, nest + [34, 6] + [0] * (times - 1))
        yield plain(3, [1] + [37, 6, 0, 1] * (times - 1) + [40])
        yield plain(3, [1] + [38, 67, 0, 6, 1] * (times - 1) + [32])
    for word in (32, 39, 40):
        yield repeated(6, [16_127, word], 1, 16_127)
        yield repeated(6, [16_128, word], 1, 16_127)
        yield repeated(6, [16_126, word], 1, 16_127)
        yield repeated(6, [16_128, word], 1, 16_128)
    yield repeated(6, [1, 35, 0, 66 + 256 * 16_000, 66, 6], 4, 16_000)
    yield repeated(6, [1, 37, 6, 16_000, 39, 0], 4, 16_000)
    yield repeated(6, [1, 34, 779], 2, 199)
    yield repeated(6, [1, 34, 779, 99], 2, 199)
    yield repeated(6, [0], 0, 0)
    for words in ([2, 99], [LAST, 99], [2, 39], [LAST, 39], [LAST], [0], [0, 0], [0, 39], [1], [1, 39, 39], []):
        yield plain(3, words)


def payloads():
    """Each rule on a payload word, just inside and just outside."""
    for detail in (0, 4, 5):
        yield from (constant(detail, word) for word in (0, 1, LAST))
    yield from (constant(1, word) for word in (0, 1, 2, LAST))
    yield from (constant(2, word) for word in (0, 1, 2**31, LAST))
    yield from (constant(3, word) for word in (0, 1, 65_535, 65_536, LAST))
    for facts in (0, 65_535, 65_536, 131_072, 2**18 - 1, 2**18, 2**18 + 1, 2**31, LAST):
        yield constant(6, 0, facts)
    yield constant(6, LAST, 4)
    for kind in (2, 3, 4, 5):
        yield from (node(kind, own=[word]) for word in (0, LAST))
    for detail, count in TEXTS.items():
        for text in (0, 65_535, 65_536):
            for place in range(count):
                yield builtin1(detail, YES, [1] * place + [text] + [1] * (count - place - 1))
    for names in (0, 1, 2, 3, 65_535):
        yield call(names, TUPLE, TUPLE, TUPLE, texts=[5] * min(names, 4))
    yield call(1, TUPLE)
    for texts in ([65_535, 5], [65_536, 5], [5, 65_535], [5, 65_536]):
        yield call(2, TUPLE, YES, YES, texts=texts)
    for bits, more in ((ARGS, [TUPLE]), (KWARGS, [TUPLE]), (ARGS + KWARGS, [TUPLE, YES]), (ARGS + KWARGS, [TUPLE])):
        yield call(bits, LOCAL, more=more)
        yield call(bits + 1, LOCAL, INT, texts=[9], more=more)
    for bit in (18, 19, 24, 31):
        yield call(2**bit, TUPLE, TUPLE)
        yield call(2**bit + ARGS + 1, TUPLE, TUPLE, texts=[5], more=[TUPLE])


def details():
    """Each kind of expression with each detail that it may have, up to a number, and with some that it may not have."""
    for kind, allowed in EXPRESSIONS.items():
        for detail in list(allowed[:4]) + [allowed[-1]] if allowed != ANY else [0, 1, 2]:
            yield node(kind, detail, *smallest(kind, detail))
        wrong = [allowed[-1] + 1, 2**23, 2**24 - 1] if allowed != ANY else [2**24 - 1]
        for detail in wrong:
            yield node(kind, detail, *smallest(kind, 0))


def smallest(kind, detail):
    """The payload and the parts of a small node."""
    if kind == 1:
        return [0] * (2 if detail == 6 else 1), []
    if kind <= 5 or kind == 16:
        return [0], [TUPLE] * (1 + detail) if kind == 16 else []
    if kind == 11:
        return [2] * TEXTS.get(detail, 0), [INT]
    count = {6: detail, 7: detail, 8: 2 * detail, 9: 3, 10: 1 + bin(detail).count("1"), 15: 3}
    return [], [INT] * count.get(kind, 2)


def wrong_kinds():
    """A kind that there is not, or that does not belong at its place."""
    for kind in (0, 17, 18, 31, 32, 34, 37, 40, 41, 63, 64, 66, 69, 70, 99, 255):
        yield plain(2, [kind, 0, 0])
    for kind in (0, 17, 33, 39, 67, 128):
        yield plain(1, [779, kind, 0])
    for kind in (0, 1, 2, 6, 16, 17, 31, 41, 64, 67, 99, 255):
        yield plain(3, [1, kind, 0])
    for kind in (0, 6, 34, 63, 70):
        yield plain(3, [1, 35, 0, kind, 0, 6])
        yield plain(3, [1, 36, kind, 0, 6])
        yield plain(3, [1, 38, kind, 0, 6, 0])


def statements():
    """Statements and targets: details, payload words, and a tuple as a target of AssignModify."""
    targets = [node(64, own=[3], parts=[LOCAL]), node(65, parts=[LOCAL, INT]), node(67, own=[LAST])]
    targets += [node(68, own=[0]), node(69, own=[LAST, 65_535])]
    tuples = [node(66), node(66, 2, parts=[targets[2], node(66, 1, parts=[targets[3]])])]
    for target in targets + tuples:
        yield node(35, own=[0], parts=[target, INT])
        yield node(36, 10, parts=[target, INT])
        yield node(38, parts=[target, LOCAL, [1, 39]])
        yield node(35, own=[0], parts=[[target[0] + 256] + target[1:], INT])
    yield node(35, own=[LAST], parts=[targets[0], INT])
    yield node(35, own=[0], parts=[node(64, own=[65_535], parts=[LOCAL]), INT])
    yield node(35, own=[0], parts=[node(64, own=[65_536], parts=[LOCAL]), INT])
    yield node(35, own=[0], parts=[node(69, own=[0, 65_536]), INT])
    yield node(36, parts=[node(69, own=[0, 65_536]), INT])
    yield node(66, 1, parts=[targets[2]])
    for detail in (0, 5, 10, 11, 2**24 - 1):
        yield node(36, detail, parts=[targets[2], INT])
    for kind in (32, 39, 40):
        yield from (node(kind, detail) for detail in (0, 1))
    for kind in (33, 34):
        yield from (node(kind, detail, parts=[LOCAL]) for detail in (0, 1, 2**24 - 1))
    for detail in (0, 1):
        yield node(37, detail, parts=[LOCAL, [1, 39], [2, 40, 32]])
        yield node(38, detail, parts=[targets[2], TUPLE, [2, 34, 6, 39]])
        yield node(35, detail, [0], [targets[2], INT])
    yield node(34, parts=[node(33, parts=[LOCAL])])
    yield node(37, parts=[LOCAL, [1, 6], [0]])


def cut_and_continued():
    """An expression and a rule, cut short at each word, and with words that remain."""
    part = node(10, 5, parts=[YES, TUPLE, constant(6, 1, 4)])
    expression = node(9, parts=[PURE, call(1, LOCAL, INT, texts=[3]), part])
    rule = [3] + node(35, own=[9], parts=[node(65, parts=[LOCAL, INT]), node(8, 1, parts=[YES, NO])])
    rule += node(38, parts=[node(69, own=[1, 2]), LOCAL, [1, 39]]) + node(37, parts=[LOCAL, [1, 32], [1, 33] + INT])
    for size in range(1, len(expression) + 1):
        yield plain(1 + size % 2, expression[:size])
    for size in range(1, len(rule) + 1):
        yield plain(3, rule[:size])
    for behind in ([0], [6], [99], [LAST, LAST], expression):
        yield plain(1, expression + behind)
        yield plain(2, TUPLE + behind)
        yield plain(3, rule + behind)


def judged():
    """Expressions for the verdicts."""
    leaves = [YES, NO, PURE, LOCAL]
    for detail in (0, 1):
        for left in leaves:
            for right in leaves:
                yield node(12, detail, parts=[left, right])
        for left in leaves[:2]:
            for right in leaves:
                yield builtin1(NOT, node(12, detail, parts=[left, right]))
                yield node(12, detail, parts=[node(12, 1 - detail, parts=[left, right]), right])
    for leaf in leaves:
        yield builtin1(NOT, leaf)
        yield builtin1(NOT, builtin1(NOT, leaf))
        yield node(13, parts=[YES, leaf])
        yield node(13, parts=[leaf, YES])
        for place in range(3):
            parts = [YES, YES, YES]
            parts[place] = leaf
            yield node(9, parts=parts)
    for kind in (6, 7):
        for parts in ([], [YES], [NO], [LOCAL], [YES, LOCAL], [LOCAL, YES], [PURE, NO], [node(kind)], [TUPLE, TUPLE]):
            yield node(kind, len(parts), parts=parts)
            yield builtin1(NOT, node(kind, len(parts), parts=parts))
        yield node(kind, 1, parts=[node(13 - kind, 1, parts=[LOCAL])])
        yield node(kind, 1, parts=[node(8, 1, parts=[YES, YES])])
    for pairs in ([], [[YES, YES]], [[LOCAL, LOCAL]], [[YES, INT], [NO, INT]]):
        yield node(8, len(pairs), parts=[part for pair in pairs for part in pair])
        yield builtin1(NOT, node(8, len(pairs), parts=[part for pair in pairs for part in pair]))
    for detail in range(8):
        yield builtin1(detail, YES)
        yield builtin1(detail, LOCAL)
    for detail in range(18):
        yield node(14, detail, parts=[INT, INT])
    yield node(14, IN, parts=[LOCAL, LOCAL])
    yield builtin1(NOT, builtin1(NOT, node(14, IN, parts=[LOCAL, LOCAL])))
    for word in (0, 1, 2**31, LAST):
        yield constant(2, word)
        yield constant(3, word % 65_536)
    for facts in range(8):
        yield constant(6, 5, facts % 2 * 65_535 + facts // 2 * 65_536)
    for detail in (0, 4, 5):
        yield constant(detail, 0)
        yield builtin1(NOT, constant(detail, 0))
    for kind in (2, 3, 4, 5):
        yield node(kind, own=[1])
    yield node(10, 7, parts=[YES] * 4)
    yield node(15, parts=[YES] * 3)


def type_calls():
    """Type calls, and calls that are nearly so."""
    for argument in (YES, LOCAL, TUPLE, PURE, call(0, TYPE_FUNCTION, YES), call(0, TYPE_FUNCTION, LOCAL)):
        yield call(0, TYPE_FUNCTION, argument)
        yield builtin1(NOT, call(0, TYPE_FUNCTION, argument))
    for callee in (LEN_FUNCTION, LOCAL, constant(6, 5, 5), constant(3, 5), builtin1(NOT, TYPE_FUNCTION)):
        yield call(0, callee, YES)
    yield node(13, parts=[YES, TYPE_FUNCTION])
    yield call(0, node(13, parts=[YES, TYPE_FUNCTION]), YES)
    yield call(0, TYPE_FUNCTION)
    yield call(0, TYPE_FUNCTION, YES, YES)
    yield call(1, TYPE_FUNCTION, YES, texts=[0])
    yield call(1, TYPE_FUNCTION, YES, YES, texts=[0])
    yield call(ARGS, TYPE_FUNCTION, more=[TUPLE])
    yield call(KWARGS, TYPE_FUNCTION, more=[node(8)])
    yield call(ARGS, TYPE_FUNCTION, YES, more=[TUPLE])
    yield call(KWARGS, TYPE_FUNCTION, YES, more=[node(8)])
    yield node(7, 1, parts=[call(0, TYPE_FUNCTION, YES)])
    yield node(7, 1, parts=[call(0, LEN_FUNCTION, YES)])


def made_cases():
    yield from deep_expressions()
    yield from first_refusals()
    yield from wide_expressions()
    yield from large_rules()
    for words in payloads():
        yield plain(1, words)
        if answer_of(1, words)[0].startswith("refused"):
            yield plain(3, [1, 33] + words)
    yield from (plain(1, words) for words in details())
    yield from wrong_kinds()
    yield from (plain(3, [1] + words) for words in statements())
    yield from cut_and_continued()
    yield from (plain(1, words) for words in [*judged(), *type_calls()])
    yield from (plain(form, []) for form in (1, 2, 3))


# ---- the list


def check_whole(cases):
    """Fails where a refusal or a verdict that the list must have is missing, or where the program would stop."""
    found = Counter()
    for numbers, answer in cases:
        found[(numbers[0] - 1) % 3 + 1, answer.rsplit(" at ")[0]] += 1
    wanted = [(form, f"refused {number}") for form in (1, 2, 3) for number in (5, 7, 8, 9, 10)]
    wanted += [(2, "accepted"), (3, "accepted")]
    for pure, known in ((True, None), (True, True), (True, False), (False, None), (False, True), (False, False)):
        wanted.append((1, verdicts_line(pure, known, False, False)))
    for known, definite, empty in ((True, True, False), (None, True, False), (False, False, True), (True, False, True)):
        wanted.append((1, verdicts_line(True, known, definite, empty)))
    missing = [f"`{answer}` in form {form}" for form, answer in wanted if not found[form, answer]]
    if missing:
        sys.exit("the list lacks " + ", ".join(missing))
    for numbers, _ in cases:
        if numbers[0] > 3 and (numbers[1] >= numbers[3] or numbers[2] + numbers[3] - 1 > MOST_WORDS):
            sys.exit(f"a case asks for too much: {numbers[:8]}")
    if sum(len(numbers) for numbers, _ in cases) >= MOST_NUMBERS:
        sys.exit("the list has too many numbers")


def limits():
    """The expressions of crates/verdict_limits, with their titles."""
    yield "Not 199 times", [779] * 199 + [513] * 2
    yield "Not 200 times", [779] * 200 + [513] * 2
    yield "And 199 times", [12] * 199 + [513] * 400
    yield "List of 16000 tuples", [7 + 256 * 16_000] + [6] * 16_000
    yield "Tuple of 16000 lists", [6 + 256 * 16_000] + [7] * 16_000
    yield "Dict of 8000 pairs", [8 + 256 * 8_000] + [6] * 16_000
    yield "Call with 16000 arguments", [16 + 256 * 16_000, 0] + TYPE_FUNCTION + [6] * 16_000
    yield "List of 16128 words", [7 + 256 * 16_127] + [6] * 16_127
    yield "List of 16129 words", [7 + 256 * 16_128] + [6] * 16_128


def main():
    parts = list_parts(__doc__, LIST, run, file_cases, oracle_cases, sample_cases, made_cases)
    cases = [case for part in parts for case in part]
    check_whole(cases)
    stdin = text_of(parts)
    if len(stdin) >= MOST_TEXT:
        sys.exit(f"the list is too long: {len(stdin)} bytes")
    (LIST / "stdin").write_text(stdin)
    (LIST / "stdout").write_text("".join(answer + "\n" for _, answer in cases))
    lines = (f"{title}: {answer_of(1, words)[0]}\n" for title, words in limits())
    (CRATES / "verdict_limits" / "stdout").write_text("".join(lines))
    print(count_line(parts))
    kinds = Counter(answer.split(" at ")[0] for _, answer in cases)
    print("\n".join(f"{count:5} {kind}" for kind, count in sorted(kinds.items())))


if __name__ == "__main__":
    main()
