#!/usr/bin/env python3
"""Makes the list of cases that crates/prune_list runs: its stdin, and its stdout with the answers.

Usage: tools/prune_list.py [FOLDER [ORACLE]] [--sample SAMPLE]

FOLDER has prune.txt, cardtidy.txt and later/2.3-prune.txt, one case to a line: `WORK ROOM ; WORDS => ANSWER`, and in
cardtidy.txt `FILE IN HEX => ANSWER`, where ` / ` ends a line of the answer. The first two know document 01 alone: their
lines whose answer 02's request 2.3 changed are left out. ORACLE is a program: `ORACLE random rule SEED COUNT SIZE`
prints rules, one to a line, and `ORACLE --no-string-length prune` answers for such lines. SAMPLE is a file that
`compare sample` printed: its lines `prune WORDS => FOLDABLE ; WORDS` are taken. Their cases come first in the list,
with the answers that they give: the folder's, the oracle's, the sample's, and an empty line behind each of the three.
Those of a source that is not named stay as the list has them. The other cases are made here, always the same ones. The
answers come from a model of the pass and of the foldable count, written from document 01 and from 02's request 2.3
alone, and of reading, which tools/verdicts_list.py and tools/blocks_list.py have; a given answer that the model does
not give is an error.

The forms of a case are described at the top of crates/prune_list/src/main.rt. The script also makes the list of
crates/prune_limits, its stdin and its stdout: the rules and their names are in `limits`, near the end.
"""
import pathlib
import sys
from collections import Counter

sys.dont_write_bytecode = True
from blocks_list import block, bytes_of, file_of, file_size, read_blocks, words_of
from verdicts_list import ARGS, DOT, EQUALS, IN, INT, KWARGS, LATER, LEN_FUNCTION, LOCAL, NO, NOT, TUPLE, TYPE_FUNCTION
from verdicts_list import TYPE_IS, WORDS, YES, Node, Refused, ask, builtin1, call, constant, constant_truth, count_line
from verdicts_list import given, is_bool, is_empty, is_pure, is_type_call, list_parts, node, numbers_of, outdated
from verdicts_list import read, sample_lines, text_of, truth, varied

CRATES = pathlib.Path(__file__).resolve().parent.parent / "crates"
LIST = CRATES / "prune_list"
LIMITS = CRATES / "prune_limits"
LONGEST_LINE = 4_200
MOST_NUMBERS = 262_144
MOST_TEXT = 400_000
MOST_WORDS = 16_640
MOST_WORK = 258_112
MOST_RESULT = 27_648
MOST_BYTES = 66_560

LENT = 16_384
LIMITS_NUMBERS = 8_192
LIMITS_RESULT = 50_000
ORACLE_SIZES = [5, 15, 40, 80, 150]
ORACLE_DRAWN = 1_000
ORACLE_TAKEN = 60
SAMPLE_TAKEN = 300
SAMPLE_LONGEST = 70

ADD, PERCENT = 3, 5
AND, OR, SEQ, IF = 12, 268, 13, 9
GC, RETURN, EXPR, ASSIGN, MODIFY, IF_STMT, FOR, BREAK, CONTINUE = range(32, 41)


# ---- a condition: a bool, or a Node


def is_constant(tree, detail=None):
    return tree.kind == 1 and detail in (None, tree.detail)


def is_not(tree):
    return (tree.kind, tree.detail) == (11, NOT)


def made(kind, detail, own, parts):
    tree = Node(kind, detail)
    tree.own = own
    tree.parts = parts
    return tree


def boolean(value):
    return made(1, 1, [int(value)], [])


def condition(tree):
    """The condition that an expression becomes."""
    known = truth(tree)
    if known is not None:
        return known
    if is_not(tree):
        part = condition(tree.parts[0])
        return (not part) if isinstance(part, bool) else made(11, NOT, [], [part])
    if tree.kind == 12:
        decides = tree.detail == 1
        left, right = map(condition, tree.parts)
        if isinstance(left, bool):
            return left if left == decides else right
        if isinstance(right, bool):
            return left if right != decides else sequence(left, boolean(right))
        return made(12, tree.detail, [], [left, right])
    return tree


# ---- the constructors of expressions


def inverse(part):
    if is_constant(part):
        return boolean(not constant_truth(part.detail, part.own))
    if is_not(part) and is_bool(part.parts[0]):
        return part.parts[0]
    return made(11, NOT, [], [part])


def sequence(left, right):
    return right if is_pure(left) else made(13, 0, [], [left, right])


def logical(detail, left, right):
    known = truth(left)
    if known is None:
        return made(12, detail, [], [left, right])
    return left if known == (detail == 1) else right


def choice(test, yes, no):
    test = condition(test)
    if isinstance(test, bool):
        return yes if test else no
    if is_not(test):
        return choice(test.parts[0], no, yes)
    if test.kind == 13:
        return sequence(test.parts[0], choice(test.parts[1], yes, no))
    return made(9, 0, [], [test, yes, no])


def type_text(tree):
    """The text of a constant's type."""
    return tree.own[1] % 65_536 if tree.detail == 6 else [1, 2, 3, 4, 5, 5][tree.detail]


def known_type(part):
    """The text of the type that a type call of the part is known to give, or None."""
    if is_constant(part):
        return type_text(part)
    if part.kind in (6, 7, 8) and is_pure(part):
        # the texts of these types have the numbers of the kinds
        return part.kind
    if part.kind == 11 and part.detail in (NOT, TYPE_IS) and is_pure(part.parts[0]):
        return 2
    return None


def type_test(text, part):
    return boolean(type_text(part) == text) if is_constant(part) else made(11, TYPE_IS, [text], [part])


# ---- the pass: parts first. It counts the foldable places that it meets.


class Pass:
    def __init__(self):
        self.foldable = 0

    def expressions(self, trees):
        return [self.expression(tree) for tree in trees]

    def expression(self, tree):
        kind, detail = tree.kind, tree.detail
        tree = made(kind, detail, tree.own, self.expressions(tree.parts))
        self.foldable += is_foldable(tree)
        parts = tree.parts
        if kind == 9:
            return choice(*parts)
        if kind == 11 and detail == NOT:
            return inverse(parts[0])
        if kind == 11 and detail == TYPE_IS:
            return type_test(tree.own[0], parts[0])
        if kind == 12:
            return logical(detail, *parts)
        if kind == 13:
            return sequence(*parts)
        if kind == 16 and is_type_call(tree):
            text = known_type(parts[1])
            return tree if text is None else made(1, 3, [text], [])
        return tree

    def target(self, tree):
        parts = map(self.target if tree.kind == 66 else self.expression, tree.parts)
        return made(tree.kind, tree.detail, tree.own, list(parts))

    def statement(self, tree):
        """The statements that a statement becomes."""
        parts = [self.part(part) for part in tree.parts]
        if tree.kind == EXPR:
            return expression_statements(parts[0])
        if tree.kind == IF_STMT:
            return choice_statements(*parts)
        if tree.kind == FOR and is_empty(parts[1]):
            return []
        return [made(tree.kind, tree.detail, tree.own, parts)]

    def part(self, part):
        if isinstance(part, list):
            return self.statements(part)
        return self.target(part) if part.kind >= 64 else self.expression(part)

    def statements(self, trees):
        """The list that a list becomes. The pass leaves it behind an exit."""
        result = []
        for tree in trees:
            result = extended(result, self.statement(tree))
            if exits(result):
                break
        return result


def is_foldable(tree):
    kind, detail, parts = tree.kind, tree.detail, tree.parts
    if kind == 6:
        return all(map(is_constant, parts))
    if kind in (10, 15):
        return is_constant(parts[0])
    if kind == 11:
        return detail not in (NOT, TYPE_IS) and is_constant(parts[0])
    if kind == 16:
        callee = parts[0]
        return (is_constant(callee) or (callee.kind, callee.detail) == (11, DOT)) and not is_type_call(tree)
    if kind != 14:
        return False
    if all(map(is_constant, parts)) or (detail == PERCENT and is_constant(parts[0], 3)):
        return True
    if detail == ADD:
        return all(is_constant(part) or part.kind == 7 for part in parts)
    sides = (parts, parts[::-1])
    return detail == EQUALS and any(a.kind == 16 and is_type_call(a) and is_constant(b, 3) for a, b in sides)


# ---- lists of statements


def exits(trees):
    return bool(trees) and trees[-1].kind in (RETURN, BREAK, CONTINUE)


def extended(left, right):
    return left if exits(left) else left + right


def expression_statements(tree):
    kind, parts = tree.kind, tree.parts
    if is_pure(tree):
        return []
    if kind in (6, 7):
        return [one for part in parts for one in expression_statements(part)]
    if kind == 11 and tree.detail in (NOT, TYPE_IS):
        return expression_statements(parts[0])
    if kind == 16 and is_type_call(tree):
        return expression_statements(parts[1])
    if kind == 12:
        right = expression_statements(parts[1])
        return choice_statements(parts[0], [], right) if tree.detail else choice_statements(parts[0], right, [])
    return [made(EXPR, 0, [], [tree])]


def choice_statements(test, yes, no):
    test = condition(test)
    if isinstance(test, bool):
        return yes if test else no
    if is_not(test):
        return choice_statements(test.parts[0], no, yes)
    if test.kind == 13:
        return extended(expression_statements(test.parts[0]), choice_statements(test.parts[1], yes, no))
    if not yes and not no:
        return expression_statements(test)
    return [made(IF_STMT, 0, [], [test, yes, no])]


# ---- pruning, and the lines that a case prints


def put(tree, words):
    """Puts the words of a tree, or of a list of statements, behind the words."""
    if isinstance(tree, list):
        words.append(len(tree))
        parts = tree
    else:
        words.append(tree.kind + 256 * tree.detail)
        words += tree.own
        parts = tree.parts
    for part in parts:
        put(part, words)


def prune(words, work, room):
    """The pruned words and the foldable count. Raises a refusal."""
    if not 1 <= len(words) <= WORDS:
        raise Refused(5, len(words))
    if work < 16 * len(words) + 64:
        raise Refused(6, 16 * len(words) + 64)
    _, rule = read(words, True)
    run_of = Pass()
    result = []
    put(run_of.statements(rule), result)
    if room < len(result):
        raise Refused(11, len(result))
    return result, run_of.foldable


def refusal(refused):
    return "refused {} at {}".format(*refused.args)


def size_line(words, work, room):
    try:
        result, foldable = prune(words, work, room)
    except Refused as refused:
        return refusal(refused)
    return f"words {len(result)} foldable {foldable}"


def line(words, work, room):
    try:
        result, foldable = prune(words, work, room)
    except Refused as refused:
        return refusal(refused)
    return " ".join(map(str, ["words", len(result), "foldable", foldable, ":"] + result))


def tidied(data):
    """What `cardtidy` prints for a file, without the last line end."""
    words = read_blocks(data, LENT)
    if isinstance(words, tuple):
        return refusal(Refused(*words))
    try:
        result, foldable = prune(words, LENT, LENT)
    except Refused as refused:
        return refusal(refused)
    return "\n".join(map(str, [f"words {len(result)} foldable {foldable}"] + result))


# ---- the cases: the numbers of a case, and what the model prints for it


def plain(words, work=None, room=MOST_RESULT):
    """The words with just enough work words, if none are given."""
    return [1, 16 * len(words) + 64 if work is None else work, room, len(words)] + words


def repeated(words, at, times, work=MOST_WORK, room=MOST_RESULT):
    return [2, work, room, at, times, len(words)] + words


def file_numbers(data):
    return [3, len(data)] + words_of(data + bytes(-len(data) % 4))


def made_file(length, words, at=0, times=1, place=MOST_BYTES, value=0):
    return [4, length, place, value, at, times, len(words)] + words


def repeat(words, at, times):
    return words[:at] + words[at : at + 1] * times + words[at + 1 :]


def run(numbers):
    """What the model prints for a case."""
    form = numbers[0]
    if form == 1:
        return line(numbers[4:], *numbers[1:3])
    if form == 2:
        return line(repeat(numbers[6:], *numbers[3:5]), *numbers[1:3])
    if form == 3:
        return tidied(bytes_of(numbers[2:])[: numbers[1]])
    length, place, value = numbers[1:4]
    words = repeat(numbers[7:], *numbers[4:6])
    if not 1 <= len(words) <= WORDS:
        return refusal(Refused(5, len(words)))
    data = bytearray(file_of(words).ljust(MOST_BYTES, b"\0"))
    if place < MOST_BYTES:
        data[place] = value
    return tidied(bytes(data[:length]))


# ---- given cases


def file_cases(folder):
    """The cases of the files whose lines are not too long or outdated, with the answers that they give."""
    for name in ("prune.txt", "cardtidy.txt", "later/2.3-prune.txt"):
        for row, text in enumerate((folder / name).read_text().splitlines(), 1):
            if len(text) >= LONGEST_LINE:
                continue
            left, answer = (side.strip() for side in text.split("=>"))
            if name != "cardtidy.txt":
                lent, words = left.split(";")
                work, room = map(int, lent.split())
                numbers = plain(numbers_of(words), work, room)
                # more than the program lends says no more than all that it lends
                if work > MOST_WORK or room > MOST_RESULT:
                    continue
            else:
                numbers = file_numbers(bytes.fromhex(left)[: 65_537])
                answer = answer.replace(" / ", "\n")
            if name.startswith(LATER) or not outdated(numbers, answer, run):
                yield given(f"{name}, line {row}", numbers, answer, run)


def oracle_cases(oracle, known):
    """Random rules with the oracle's answers, as different as they come."""
    for seed, size in enumerate(ORACLE_SIZES, 1):
        drawn = dict.fromkeys(ask(oracle, ["random", "rule", str(seed), str(ORACLE_DRAWN), str(size)]))
        answers = ask(oracle, ["--no-string-length", "prune"], "".join(text + "\n" for text in drawn))
        cases = []
        for text, answer in zip(drawn, answers, strict=True):
            case = given(f"oracle, {text}", plain(numbers_of(text)), answer, run)
            if len(text) < LONGEST_LINE:
                cases.append(case)
        yield from varied(cases, change, ORACLE_TAKEN, known)


def sample_cases(sample, known):
    """Rules of the sample, as different as they come."""
    cases = []
    for text, _, words, answer in sample_lines(sample, "prune"):
        foldable, kept = answer.split(" ; ")
        answer = f"words {len(kept.split())} foldable {foldable} : {kept}"
        cases.append(given(text, plain(words), answer, run))
    return varied(cases, change, SAMPLE_TAKEN, known, SAMPLE_LONGEST)


def change(case):
    """How much of the rule is kept, and how many places are foldable, roughly."""
    numbers, answer = case
    kept, foldable = int(answer.split()[1]), int(answer.split()[3])
    return 10 * kept // numbers[3], min(foldable, 4)


# ---- cases made here

NONE = constant(0, 0)
STRING = constant(3, 9)
EMPTY_STRING = constant(3, 0)
OTHER = constant(6, 3, 9)
OTHER_LOCAL = node(2, own=[1])
HELD = builtin1(TYPE_IS, node(7, 1, parts=[INT]))
CALL_A = call(0, node(4, own=[1]))
CALL_B = call(0, node(4, own=[2]))
IN_TEST = node(14, IN, parts=[LOCAL, OTHER_LOCAL])
CONSTANTS = [NONE, YES, NO, INT, STRING, TYPE_FUNCTION, LEN_FUNCTION, OTHER]
LEAVES = [YES, NO, HELD, LOCAL]
LOCAL_TARGET = node(67, own=[0])


def binary(header, left, right):
    return [header] + left + right


def rule(*statements):
    return [len(statements)] + [word for statement in statements for word in statement]


def returns(words):
    return rule([RETURN] + words)


def shows(words):
    return rule([EXPR] + words)


def branch(test, yes=(), no=()):
    return [IF_STMT] + test + rule(*yes) + rule(*no)


def loop(over, *body, target=LOCAL_TARGET):
    return [FOR] + target + over + rule(*body)


def seq_if(links):
    """An If up to its first arm, with a chain of Seqs as condition."""
    return [IF] + [SEQ, 2, 0] * links + LOCAL


def conditioned(times, links):
    """Such Ifs, each in the first arm of the one before it: they become as deep as all their Seqs."""
    return seq_if(links) * times + LOCAL * (times + 1)


def large_rules():
    """Deep and wide rules, some just past a limit, and just enough or too few work and result words."""
    for kind in (RETURN, EXPR):
        for times in (198, 199):
            yield repeated([1, kind, 779] + LOCAL, 2, times)
        for header in (AND, OR, SEQ):
            # word 2 is a local's header and its slot
            yield repeated([1, kind] + [header] * 198 + [2], 200, 398)
            yield repeated([1, kind] + [header] * 199 + [2], 201, 400)
        yield repeated([1, kind] + [IF] * 198 + [2], 200, 794)
        yield plain([1, kind] + conditioned(3, 195))
    for times in (199, 200):
        yield plain([1] + [IF_STMT, 2, 0, 1] * times + [BREAK] + [0] * times)
        yield plain([1] + [IF_STMT, 2, 0, 0, 1] * times + [BREAK])
        yield plain([1] + [FOR, 67, 0, 2, 0, 1] * times + [GC])
        yield repeated([1, IF_STMT, 779] + LOCAL + [1, BREAK, 0], 2, times - 1)
    for kind in (RETURN, EXPR):
        yield repeated([1, kind, 7 + 256 * 8_062, 2], 3, 16_124, room=100)
        yield repeated([1, kind, 6 + 256 * 8_062, 2], 3, 16_124, room=100)
        yield repeated([1, kind, 8 + 256 * 4_031, 2], 3, 16_124, room=100)
        yield repeated([1, kind, 7 + 256 * 8_062, 2], 3, 16_125, room=100)
    yield repeated([1, EXPR, 7 + 256 * 16_000, 6], 3, 16_000)
    yield repeated([1, RETURN, 6 + 256 * 1_000, 6], 3, 1_000)
    yield repeated([1, EXPR, 16 + 256 * 8_000, 8_000, 6], 4, 16_001, room=0)
    yield repeated([1, ASSIGN, 0, 66 + 256 * 16_000, 66, 6], 4, 16_000, room=0)
    for count in (16_126, 16_127, 16_128):
        yield repeated([count, GC], 1, 16_127, room=0)
    yield repeated([16_127, BREAK], 1, 16_127)
    yield repeated([16_127, CONTINUE], 1, 16_127)
    yield repeated([16_128, GC], 1, 16_128)
    yield repeated([3_000, GC], 1, 3_000, room=3_001)
    yield repeated([0], 0, 0)
    yield repeated([1, EXPR, 779], 2, 198)
    yield repeated([1, EXPR, 779, 99], 2, 198)
    yield repeated([1, EXPR, 779, 99], 2, 199)
    for short in (0, 1):
        yield repeated([16_127, GC], 1, 16_127, work=MOST_WORK - short, room=0)
        yield repeated([1_000, GC], 1, 1_000, work=16 * 1_001 + 64 - short, room=1_001)
        yield repeated([1_000, GC], 1, 1_000, room=1_001 - short)
        yield repeated([1, RETURN, 779] + LOCAL, 2, 100, work=16 * 104 + 64 - short)


def conditions():
    """Conditions: leaves under Not, And and Or."""
    once = [binary(header, left, right) for header in (AND, OR) for left in LEAVES for right in LEAVES]
    yield from LEAVES
    yield from once
    for test in LEAVES + once:
        yield builtin1(NOT, test)
    for test in once:
        yield binary(AND, test, LOCAL)
        yield binary(OR, LOCAL, test)
        yield builtin1(NOT, builtin1(NOT, test))
    yield binary(AND, builtin1(NOT, binary(OR, LOCAL, YES)), LOCAL)
    for left in LEAVES:
        for right in LEAVES:
            yield binary(SEQ, left, right)
            yield builtin1(NOT, binary(SEQ, left, right))
            yield binary(AND, binary(SEQ, LOCAL, left), right)
    yield [IF] + LOCAL + YES + NO
    yield binary(OR, binary(AND, builtin1(TYPE_IS, node(7), [7]), node(7)), LOCAL)
    yield builtin1(NOT, binary(OR, binary(AND, builtin1(TYPE_IS, node(7), [7]), node(7)), LOCAL))


def choices():
    """Each condition in an If expression and in an If statement, with some arms."""
    for test in conditions():
        yield returns([IF] + test + CALL_A + CALL_B)
        yield rule(branch(test, [[EXPR] + CALL_A], [[EXPR] + CALL_B]))
    for test in (LOCAL, HELD, IN_TEST, builtin1(NOT, LOCAL), binary(AND, LOCAL, NO), binary(OR, LOCAL, OTHER_LOCAL)):
        yield rule(branch(test))
        yield rule(branch(test, [[EXPR] + YES], [[EXPR] + LOCAL]))
        yield rule(branch(test, [[BREAK]]))
        yield rule(branch(test, [], [[RETURN] + LOCAL]))
        yield rule(branch(test, [[RETURN] + LOCAL], [[RETURN] + LOCAL]), [BREAK])


def constructed():
    """Expressions that constructors change, or just do not."""
    for part in CONSTANTS + [LOCAL, HELD, IN_TEST, TUPLE, node(7, 1, parts=[LOCAL]), node(8)]:
        yield builtin1(NOT, part)
        yield builtin1(NOT, builtin1(NOT, part))
        for text in (1, 2, 3, 4, 5, 9):
            yield builtin1(TYPE_IS, part, [text])
        yield call(0, TYPE_FUNCTION, part)
        yield binary(SEQ, part, LOCAL)
        for header in (AND, OR):
            yield binary(header, part, LOCAL)
            yield binary(header, LOCAL, part)
    for part in (node(6, 1, parts=[LOCAL]), node(6, 1, parts=[INT]), node(7, 2, parts=[INT, HELD])):
        yield call(0, TYPE_FUNCTION, part)
    yield call(0, TYPE_FUNCTION, builtin1(NOT, HELD))
    yield call(0, TYPE_FUNCTION, builtin1(NOT, LOCAL))
    yield call(0, TYPE_FUNCTION, node(8, 1, parts=[YES, YES]))
    yield call(0, TYPE_FUNCTION, call(0, TYPE_FUNCTION, INT))
    yield call(0, [IF] + YES + TYPE_FUNCTION + LOCAL, INT)
    yield call(1, TYPE_FUNCTION, INT, texts=[3])
    yield call(ARGS, TYPE_FUNCTION, INT, more=[LOCAL])
    yield call(KWARGS, TYPE_FUNCTION, more=[LOCAL])
    yield call(0, TYPE_FUNCTION, INT, INT)
    yield call(ARGS + KWARGS + 1, LOCAL, builtin1(NOT, YES), texts=[3], more=[builtin1(NOT, NO), node(8)])
    yield binary(SEQ, binary(SEQ, LOCAL, INT), LOCAL)
    yield node(10, 7, parts=[builtin1(NOT, part) for part in (YES, NO, LOCAL, LOCAL)])
    yield node(15, parts=[builtin1(NOT, part) for part in (LOCAL, YES, NO)])


def foldable():
    """Each kind of foldable place, and what is nearly one."""
    for detail in range(8):
        yield builtin1(detail, INT)
        yield builtin1(detail, LOCAL)
        yield builtin1(detail, builtin1(NOT, INT))
    sides = [INT, STRING, LOCAL, node(7), node(7, 1, parts=[LOCAL]), call(0, TYPE_FUNCTION, LOCAL)]
    for detail in (EQUALS, IN, ADD, PERCENT, 2, 13, 17):
        for left in sides:
            for right in sides:
                yield node(14, detail, parts=[left, right])
    for part in (INT, LOCAL, TUPLE):
        yield node(10, 0, parts=[part])
        yield node(10, 5, parts=[part, LOCAL, LOCAL])
        yield node(15, parts=[part, LOCAL, LOCAL])
        yield node(6, 2, parts=[INT, part])
        yield node(7, 2, parts=[INT, part])
        yield call(0, part)
        yield call(0, builtin1(DOT, part), LOCAL)
    yield node(6, 1, parts=[TUPLE])
    yield call(0, TYPE_FUNCTION, LOCAL)
    yield call(0, TYPE_FUNCTION)
    yield call(0, LEN_FUNCTION, STRING)
    # dropped arms count, and what a condition is made of counts once
    yield [IF] + YES + LOCAL + TUPLE
    yield [IF] + NO + node(14, ADD, parts=[INT, INT]) + LOCAL
    yield binary(AND, NO, TUPLE)
    yield binary(SEQ, TUPLE, LOCAL)
    yield builtin1(NOT, builtin1(NOT, node(14, EQUALS, parts=[INT, INT])))


def statement_expressions():
    """Expressions as statements."""
    yield from LEAVES + CONSTANTS
    for left in (LOCAL, HELD, CALL_A, node(7, 2, parts=[LOCAL, CALL_A])):
        for right in (LOCAL, YES, CALL_B, node(7, 1, parts=[YES]), node(6, 2, parts=[CALL_A, CALL_B])):
            for header in (AND, OR, SEQ):
                yield binary(header, left, right)
                yield builtin1(NOT, binary(header, left, right))
    yield node(7, 3, parts=[CALL_A, INT, CALL_B])
    yield node(6, 2, parts=[binary(AND, LOCAL, CALL_A), builtin1(NOT, CALL_B)])
    yield node(7, 1, parts=[node(6, 2, parts=[LOCAL, node(7, 1, parts=[OTHER_LOCAL])])])
    yield node(8, 1, parts=[YES, YES])
    yield node(8)
    yield builtin1(TYPE_IS, node(7, 2, parts=[LOCAL, CALL_A]))
    yield call(0, TYPE_FUNCTION, node(7, 2, parts=[LOCAL, CALL_A]))
    yield call(0, TYPE_FUNCTION, CALL_A, CALL_B)
    yield [IF] + LOCAL + CALL_A + CALL_B
    yield [IF] + LOCAL + YES + NO
    yield binary(AND, LOCAL, binary(AND, OTHER_LOCAL, binary(OR, IN_TEST, CALL_A)))
    yield binary(OR, binary(AND, LOCAL, OTHER_LOCAL), binary(AND, IN_TEST, CALL_A))
    yield binary(AND, binary(SEQ, CALL_A, LOCAL), CALL_B)


def statements():
    """Whole rules: exits, loops, targets, and parts of each kind of statement."""
    exit_statements = ([BREAK], [CONTINUE], [RETURN] + LOCAL)
    for last in exit_statements:
        yield rule(last, [EXPR] + LOCAL)
        yield rule([EXPR] + LOCAL, last, last, [GC])
        yield rule(branch(LOCAL, [last, [GC]], [[GC], last, [EXPR] + TUPLE]), [BREAK], [GC])
        yield rule(branch(YES, [last], [[EXPR] + node(6, 1, parts=[LOCAL])]), [EXPR] + LOCAL)
        yield rule(branch(NO, [last], [[GC]]), [EXPR] + LOCAL)
        yield rule(loop(LOCAL, last, [GC]), [EXPR] + LOCAL)
        yield rule(loop(LOCAL, branch(YES, [last]), [GC]), last, [GC])
    for over in (node(7), TUPLE, node(8), EMPTY_STRING, constant(6, 3, 2**17), constant(6, 3, 2**16)):
        yield rule(loop(over, [EXPR] + TUPLE, [EXPR] + LOCAL), [GC])
    # strings: "", and type texts, one of which is ""
    for over in (EMPTY_STRING, call(0, TYPE_FUNCTION, constant(6, 5, 0)), call(0, TYPE_FUNCTION, LOCAL)):
        yield rule(loop(over, target=node(67, own=[2])))
        yield rule(loop(over), [EXPR] + CALL_A)
    for over in (node(7, 1, parts=[LOCAL]), STRING, LOCAL, [IF] + YES + node(7) + LOCAL, binary(SEQ, LOCAL, node(7))):
        yield rule(loop(over, [GC], [EXPR] + YES))
        yield rule(loop(over))
    changing = builtin1(NOT, YES)
    targets = [node(64, own=[3], parts=[changing]), node(65, parts=[LOCAL, changing]), LOCAL_TARGET]
    targets += [node(68, own=[7]), node(69, own=[7, 3])]
    targets.append(node(66, 3, parts=[targets[1], node(66), node(66, 2, parts=targets[:2])]))
    for target in targets:
        yield rule(node(35, own=[9], parts=[target, changing]))
        yield rule(loop(LOCAL, [EXPR] + LOCAL, target=target))
        if target[0] % 256 != 66:
            yield rule(node(36, 4, parts=[target, builtin1(NOT, NO)]))
    yield rule()
    yield rule(*[[GC]] * 3)
    yield rule([EXPR] + node(7, 2, parts=[LOCAL, OTHER_LOCAL]), [RETURN] + LOCAL, [EXPR] + LOCAL)
    yield rule(branch(binary(SEQ, CALL_A, builtin1(NOT, LOCAL)), [[EXPR] + CALL_B]), [GC])
    yield rule(branch(binary(AND, CALL_A, NO), [[BREAK]], [[EXPR] + CALL_B]), [GC])
    yield rule(branch(LOCAL, [branch(YES, [branch(NO, [], [[EXPR] + CALL_A])])]))
    yield rule(branch(LOCAL, [loop(node(7), [GC])], [[EXPR] + INT]))


def refused_rules():
    """Words that are no rule, and which refusal comes first."""
    base = rule(branch(LOCAL, [[RETURN] + INT], [[EXPR] + call(1, LOCAL, INT, texts=[3])]), [BREAK])
    for size in range(len(base)):
        yield plain(base[:size])
    yield plain(base + [0])
    yield plain(base + [99])
    for at in range(len(base)):
        yield plain(base[:at] + [255] + base[at + 1 :])
    yield plain(base, work=16 * len(base) + 63)
    yield plain(base[:-1], work=16 * len(base) + 47)
    yield plain(base[:-1], work=0, room=0)
    yield plain([], work=0, room=0)
    yield plain([], work=63)
    yield plain([], work=64)
    yield plain([0], work=79)
    yield plain([0], room=0)
    yield plain([0], room=1)
    kept = len(prune(base, MOST_WORK, MOST_RESULT)[0])
    for room in (0, 1, kept - 1, kept, kept + 1):
        yield plain(base, room=room)
    for words in ([2, 99], [2**32 - 1, 99], [2, 39], [2**32 - 1, 39], [2**32 - 1], [1, 17, 0], [1, 34, 17]):
        yield plain(words)


def files():
    """Files, sound ones and ones damaged in each way, of each length."""
    example = [1, 37, 257, 1, 1, 33, 2, 0, 1, 39]
    last = 2**32 - 1
    for length in (512, 0, 1, 511, 513, 1_024, 65_536, 65_537, 66_560):
        yield made_file(length, example)
    for place in (0, 1, 2, 3, 4, 5, 43, 44, 45, 507, 508, 511):
        yield made_file(512, example, place=place, value=1)
        yield made_file(512, example, place=place, value=10)
    yield made_file(512, example, place=508, value=0x74)
    for count in (125, 126, 251, 252, 1_018, 1_019, 1_020, 1_021, 16_126, 16_127):
        # 1,020 words are the most that 16,384 work words are enough for
        words = [count, BREAK]
        size = file_size(count + 1)
        yield made_file(size, words, 1, count)
        yield made_file(size - 1, words, 1, count)
        yield made_file(size - 512, words, 1, count)
        yield made_file(size, words, 1, count, place=size - 4, value=255)
        yield made_file(size, words, 1, count, place=size - 512, value=200)
    yield made_file(65_536, [16_127, GC], 1, 16_128)
    yield made_file(512, [0], 0, 0)
    yield made_file(1_024, [200, GC], 1, 200)
    yield made_file(1_024, [1, EXPR, 7 + 256 * 100, 2], 3, 200)
    for words in ([1], [1, 99], [1, RETURN, 2], [0, 0], [1, RETURN] + [779] * 199 + LOCAL, [0]):
        yield file_numbers(file_of(words))
    # 2 comes before 3 in a block, and 3 of a block before 2 of the next; 4 comes last
    full = [200] + [GC] * 125
    yield file_numbers(block(1, 10, example, 0))
    yield file_numbers(block(0, 126, full, 5) + block(2, 1, [GC]))
    yield file_numbers(block(0, 125, full[:125]) + block(1, 1, [GC]))
    yield file_numbers(block(0, 10, example + [7]))
    yield file_numbers(block(0, 10, example + [7], last))
    yield file_numbers(block(0, 0, []))
    yield file_numbers(block(0, 127, full))
    yield file_numbers(file_of(example)[:510])


def made_cases():
    yield from large_rules()
    for words in statement_expressions():
        yield plain(shows(words))
    for words in [*constructed(), *foldable()]:
        yield plain(returns(words))
        if run(plain(shows(words))) != run(plain(returns(words))):
            yield plain(shows(words))
    for words in [*choices(), *statements()]:
        yield plain(words)
    yield from refused_rules()
    yield from files()


# ---- the list


def check_whole(cases):
    """Fails where an answer that the list must have is missing, or where the program would stop."""
    found = Counter((numbers[0], " ".join(answer.split()[:2])) for numbers, answer in cases)
    wanted = [(1, f"refused {number}") for number in range(5, 12)] + [(2, f"refused {n}") for n in (5, 6, 7, 8, 9, 11)]
    wanted += [(4, f"refused {number}") for number in (1, 2, 3, 5, 6)] + [(3, f"refused {n}") for n in range(1, 5)]
    missing = [f"`{answer}` in form {form}" for form, answer in wanted if not found[form, answer]]
    if missing:
        sys.exit("the list lacks " + ", ".join(missing))
    for numbers, _ in cases:
        form = numbers[0]
        if form <= 2:
            wrong = numbers[1] > MOST_WORK or numbers[2] > MOST_RESULT
        else:
            wrong = numbers[1] > MOST_BYTES
        if form in (2, 4):
            at, times, count = numbers[3:6] if form == 2 else numbers[4:7]
            wrong = wrong or at >= count or times + count - 1 > MOST_WORDS
        if wrong:
            sys.exit(f"a case asks for too much: {numbers[:8]}")
    if sum(len(numbers) for numbers, _ in cases) >= MOST_NUMBERS:
        sys.exit("the list has too many numbers")


def limits():
    """The rules of crates/prune_limits, each with its name, and as runs: words, and how many times they stand."""

    def opened(kind, times, header, parts, locals_):
        return [(1, [1, kind]), (times, header), (int(parts > 0), [7 + 256 * parts]), (locals_, LOCAL)]

    def nest(kind, header, times, parts, locals_):
        return opened(kind, times, [header], parts, locals_)

    def chain(kind, header, times, parts, locals_):
        return opened(kind, times, [header] + LOCAL, parts, locals_)

    def levels(level, times, more, others):
        return [(times, level), (1, [more + 1]), (more, [GC]), (1, [BREAK]), (others * times, [0])]

    def tested(*shape):
        return nest(IF_STMT, *shape) + arms

    def tests(kind, around, times, links):
        locals_ = times + 1 + 2 * around
        return [(1, [1, kind]), (around, [IF]), (times, seq_if(links)), (locals_, LOCAL)]

    def row(count, kind):
        return [(1, [count]), (count, [kind])]

    arms = [(1, [1, EXPR] + LOCAL + [0])]

    yield "Return, Not 198", nest(RETURN, 779, 198, 0, 1)
    yield "Return, Not 199", nest(RETURN, 779, 199, 0, 1)
    yield "Return, Not 197, list", nest(RETURN, 779, 197, 7_964, 7_964)
    yield "Return, And 198 left", nest(RETURN, AND, 198, 0, 199)
    yield "Return, And 200 left", nest(RETURN, AND, 200, 0, 201)
    yield "Return, Seq 198 left", nest(RETURN, SEQ, 198, 0, 199)
    yield "Return, If 198 in conditions", nest(RETURN, IF, 198, 0, 397)
    yield "Return, And 198 right", chain(RETURN, AND, 198, 0, 1)
    yield "Return, And 197 right, list", chain(RETURN, AND, 197, 7_767, 7_767)
    yield "Return, Seq 197 right, list", chain(RETURN, SEQ, 197, 7_767, 7_767)
    yield "Return, If 198 in arms", chain(RETURN, IF, 198, 0, 199)
    yield "Return, If 197 in arms, list", chain(RETURN, IF, 197, 7_570, 7_767)
    yield "Not 198", nest(EXPR, 779, 198, 0, 1)
    yield "Not 197, list", nest(EXPR, 779, 197, 7_964, 7_964)
    for name, header in (("And", AND), ("Or", OR), ("Seq", SEQ)):
        yield f"{name} 198 left", nest(EXPR, header, 198, 0, 199)
        yield f"{name} 197 left, list", nest(EXPR, header, 197, 7_767, 7_964)
    yield "If 198 in conditions", nest(EXPR, IF, 198, 0, 397)
    yield "If 197 in conditions, list", nest(EXPR, IF, 197, 7_570, 7_964)
    yield "And 198 right", chain(EXPR, AND, 198, 0, 1)
    yield "And 199 right", chain(EXPR, AND, 199, 0, 1)
    yield "And 197 right, list", chain(EXPR, AND, 197, 7_767, 7_767)
    yield "Or 197 right, list", chain(EXPR, OR, 197, 7_767, 7_767)
    yield "Seq 198 right", chain(EXPR, SEQ, 198, 0, 1)
    yield "Seq 197 right, list", chain(EXPR, SEQ, 197, 7_767, 7_767)
    yield "If 198 in arms", chain(EXPR, IF, 198, 0, 199)
    yield "If 197 in arms, list", chain(EXPR, IF, 197, 7_570, 7_767)
    for name, kind in (("List", 7), ("Tuple", 6)):
        chains = [(27, [AND, 2, 0] * 197 + LOCAL), (37, [AND, 2, 0]), (1, LOCAL)]
        yield f"{name} of 27 And chains and a short one", [(1, [1, EXPR, kind + 256 * 28])] + chains
    yield "If statement, Not 198", tested(779, 198, 0, 1)
    yield "If statement, And 198 left", tested(AND, 198, 0, 199)
    yield "If statement, And 197 left, list", tested(AND, 197, 7_764, 7_961)
    yield "If statement, Or 198 left", tested(OR, 198, 0, 199)
    yield "If statement, Seq 198 left", tested(SEQ, 198, 0, 199)
    yield "If statement, Seq 197 left, list", tested(SEQ, 197, 7_764, 7_961)
    yield "If statement, If 198 in conditions", tested(IF, 198, 0, 397)
    for name, kind, behind in (("Return, ", RETURN, []), ("", EXPR, []), ("If statement, ", IF_STMT, arms)):
        yield f"{name}If 32 with Seq 166", tests(kind, 0, 32, 166) + behind
        yield f"{name}If 60 around If 60 with Seq 78", tests(kind, 60, 60, 78) + behind
    yield "If statements 199 in first arms", levels([1, IF_STMT, 2, 0], 199, 0, 1)
    yield "If statements 200 in first arms", levels([1, IF_STMT, 2, 0], 200, 0, 1)
    yield "If statements 199 in first arms, row", levels([1, IF_STMT, 2, 0], 199, 15_131, 1)
    yield "If statements 199 in second arms", levels([1, IF_STMT, 2, 0, 0], 199, 0, 0)
    yield "If statements 199 in second arms, row", levels([1, IF_STMT, 2, 0, 0], 199, 15_131, 0)
    yield "For 199", levels([1, FOR, 67, 0, 2, 0], 199, 0, 0)
    yield "For 199, row", levels([1, FOR, 67, 0, 2, 0], 199, 14_932, 0)
    yield "Return, list of 8062", nest(RETURN, 7 + 256 * 8_062, 1, 0, 8_062)
    yield "Return, tuple of 8062", nest(RETURN, 6 + 256 * 8_062, 1, 0, 8_062)
    yield "List of 8062", nest(EXPR, 7 + 256 * 8_062, 1, 0, 8_062)
    yield "Dict of 4031 pairs", nest(EXPR, 8 + 256 * 4_031, 1, 0, 8_062)
    yield "Call with 5373 names", [(1, [1, RETURN, 16 + 256 * 5_373, 5_373]), (5_373, [0]), (5_374, LOCAL)]
    yield "Call with 8061 arguments", [(1, [1, RETURN, 16 + 256 * 8_061, 0]), (8_062, LOCAL)]
    yield "Tuple target of 8061", [(1, [1, ASSIGN, 0, 66 + 256 * 8_061]), (8_061, LOCAL_TARGET), (1, LOCAL)]
    yield "Statements 16127", row(16_127, GC)
    yield "Statements 16128", row(16_128, GC)
    yield "Breaks 16127", row(16_127, BREAK)
    yield from stack_limits()


def stack_limits():
    """Those of the rules of crates/prune_limits that were found by a search for what takes most stack."""

    def nested(times, opening, base, closing):
        return [(times, opening), (1, base), (times, closing)]

    def shown(*shape):
        return [(1, [1, EXPR])] + nested(*shape)

    def joined(links, second, *shape, first=()):
        tests = [run for link in links for run in ((1, [IF]), (link, [SEQ] + LOCAL), (1, YES))]
        return [(1, [1, IF_STMT])] + tests + nested(*shape) + [(len(links), second), (1, [len(first), *first, 0])]

    list_of_one, tuple_of_one = 7 + 256, 6 + 256
    falling = range(197, 169, -1)
    ors = [OR, list_of_one]
    yield "If statement, Ifs with Seq 197 to 170, Or 85 over lists", joined(falling, OTHER_LOCAL, 85, ors, LOCAL, TUPLE)
    ands = [list_of_one, list_of_one, AND]
    yield "If statement, Ifs with Seq 138, lists 53 over And", joined([138] * 37, OTHER_LOCAL, 53, ands, LOCAL, NO)
    lists = [list_of_one]
    yield "If statement, Ifs with Seq 197 to 170, lists 134", joined(falling, OTHER_LOCAL, 134, lists, LOCAL, [])
    both = [list_of_one, tuple_of_one]
    yield "If statement, Ifs with Seq 197 to 170, lists of tuples 67", joined(falling, OTHER_LOCAL, 67, both, LOCAL, [])
    ands = [AND, list_of_one]
    break_ = joined(range(197, 186, -1), LOCAL, 93, ands, LOCAL, NO, first=[BREAK])
    yield "If statement, Ifs with Seq 197 to 187, And 93 over lists, Break", break_
    for text in (2, 3):
        yield f"Or 197 left, type {text}", shown(197, [OR], LOCAL, builtin1(TYPE_IS, node(7), texts=[text]))
    tested, empty = builtin1(TYPE_IS, LOCAL, texts=[9]), builtin1(TYPE_IS, node(7), texts=[2])
    yield "Or 197 left over a type test", shown(197, [OR], tested, empty)
    yield "And 99 over lists", shown(99, ands, LOCAL, LEN_FUNCTION)
    yield "Tuples 99 over And", shown(99, [tuple_of_one, AND], OTHER_LOCAL, YES)
    for name, kind in (("Tuples", 6), ("Lists", 7)):
        yield f"{name} of two, 198", shown(198, [kind + 2 * 256], LOCAL, LOCAL)


def limit_cases():
    """The numbers of each case of crates/prune_limits, and what the model prints for it."""
    for number, (name, every) in enumerate(limits(), 1):
        runs = [(times, words) for times, words in every if times]
        laid = [word for times, words in runs for word in words * times]
        if len(laid) > LENT:
            sys.exit(f"{name}: too many words: {len(laid)}")
        numbers = [len(runs)] + [one for times, words in runs for one in [times, len(words)] + words]
        yield numbers, f"{number}: {size_line(laid, MOST_WORK, LIMITS_RESULT)}"


def write_list(crate, parts):
    """Writes the stdin and the stdout of a list."""
    (crate / "stdin").write_text(text_of(parts))
    (crate / "stdout").write_text("".join(answer + "\n" for part in parts for _, answer in part))


def main():
    sys.setrecursionlimit(20_000)
    parts = list_parts(__doc__, LIST, run, file_cases, oracle_cases, sample_cases, made_cases)
    cases = [case for part in parts for case in part]
    check_whole(cases)
    size = len(text_of(parts))
    if size >= MOST_TEXT:
        sys.exit(f"the list is too long: {size} bytes")
    deep_and_wide = list(limit_cases())
    if sum(len(numbers) for numbers, _ in deep_and_wide) >= LIMITS_NUMBERS:
        sys.exit("the list of prune_limits has too many numbers")
    write_list(LIST, parts)
    write_list(LIMITS, [deep_and_wide])
    print(count_line(parts))
    kinds = Counter(" ".join(answer.split()[: 2 if answer.startswith("refused") else 1]) for _, answer in cases)
    print("; ".join(f"{kind}: {kinds[kind]}" for kind in sorted(kinds)))


if __name__ == "__main__":
    main()
