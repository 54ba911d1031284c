#!/usr/bin/env python3
"""Lists the places that docs/DESIGN-PASS.md counts, by point: tools/design_places.py [ROOT] [POINT]

Without POINT it prints a number for each row, with it the places of that point, one a line.
"""
import collections
import glob
import os
import re
import sys

ROOT = sys.argv[1] if len(sys.argv) > 1 else '.'
POINT = sys.argv[2] if len(sys.argv) > 2 else None

FILES = sorted(glob.glob(os.path.join(ROOT, 'crates/*/src/*.rt')))


def short(path):
    return os.path.relpath(path, os.path.join(ROOT, 'crates')).replace('/src/', '/')


def declared(text):
    """Whether a function is only declared: a line ends in a semicolon before its body begins."""
    for line in text.split('\n'):
        if line.endswith(';'):
            return True
        if line.endswith('{'):
            return False
    return True


def functions():
    """Each function with a body, but for tests: file, line, name, signature with clauses, body."""
    for path in FILES:
        text = open(path).read().split('#[cfg(test)]')[0]
        for m in re.finditer(r'^( *)(?:pub(?:\(crate\))? )?(?:extern "C" )?fn (\w+)', text, re.M):
            if declared(text[m.start():]):
                continue
            indent = m.group(1)
            brace = re.compile(r'^%s\{$|\{$' % indent, re.M)
            end = re.compile(r'^%s\}$' % indent, re.M).search(text, m.end())
            body = re.compile(r'^%s\{$' % indent, re.M).search(text, m.end())
            stop = end.end() if end else len(text)
            if body and body.start() < stop:
                head, inner = text[m.start():body.start()], text[body.start():stop]
            else:
                cut = text.find('{\n', m.end())
                head, inner = text[m.start():cut], text[cut:stop]
            yield path, text.count('\n', 0, m.start()) + 1, m.group(2), head, inner


FUNCTIONS = list(functions())


def code(line):
    return line.split('//')[0]


def lines(pattern, more=()):
    """The lines that a pattern fits, and those of `more` that are not among them."""
    found = []
    for path in FILES:
        source = open(path).read().split('#[cfg(test)]')[0]
        for number, line in enumerate(source.split('\n'), 1):
            for m in re.finditer(pattern, code(line)):
                found.append('%s:%d: %s' % (short(path), number, line.strip()))
    places = {f.split(': ')[0] for f in found}
    return found + [f for f in more if f.split(': ')[0] not in places]


def refusal_enums():
    found = []
    for path in FILES:
        text = open(path).read()
        for m in re.finditer(r'enum (\w+) \{(.*?)\n\}', text, re.S):
            if 'Refused(' in m.group(2):
                found.append('%s: enum %s' % (short(path), m.group(1)))
    return found


def sentinels():
    """Functions and structs whose comment says that a number stands for nothing."""
    found = []
    words = re.compile(r'\b(0|65536) (where|if|past)|else\s+(// )?0|or(,)? (// )?0 where|is 0\b|0\s+(// )?(stands|says)|past the (list|space)')
    for path in FILES:
        block = []
        for number, line in enumerate(open(path), 1):
            if line.strip().startswith('//'):
                block.append(line.strip()[2:].strip())
                continue
            m = re.search(r'\b(fn|struct) (\w+)', line)
            if m and block and words.search(' '.join(block)):
                found.append('%s:%d: %s %s' % (short(path), number, m.group(1), m.group(2)))
            if not line.strip().startswith('#['):
                block = []
    return found


def normal(text):
    text = re.sub(r'//.*', '', text)
    text = re.sub(r'\b(u8|u16|u32|u64|usize|bool)\b', 'T', text)
    text = re.sub(r'\b\d[\d_a-fx]*\b', 'N', text)
    return re.sub(r'\s+', ' ', text)


def twins():
    groups = collections.defaultdict(list)
    for path, line, name, head, body in FUNCTIONS:
        key = normal(body)
        if len(key) > 24 and not name.startswith('tinzoher'):
            groups[key].append('%s:%d: fn %s' % (short(path), line, name))
    found = []
    for key, group in groups.items():
        if len(group) > 1:
            found += ['%s (with %s)' % (g, ', '.join(x for x in group if x != g)) for g in group]
    return sorted(found)


def type_twins():
    """Structs and enums that have the same fields or cases, of the same types."""
    groups = collections.defaultdict(list)
    for path in FILES:
        text = open(path).read()
        for m in re.finditer(r'^(?:pub(?:\(crate\))? )?(?:struct|enum) (\w+)[^{;(]*\{(.*?)\n\}', text, re.M | re.S):
            fields = re.sub(r'//.*|\bpub(\(crate\))? ', '', m.group(2))
            fields = tuple(sorted(f.strip() for f in fields.split(',\n') if f.strip(' \n,')))
            groups[fields].append('%s:%d: %s' % (short(path), text.count('\n', 0, m.start()) + 1, m.group(1)))
    found = []
    for group in groups.values():
        if len(group) > 1:
            found += ['%s (with %s)' % (g, ', '.join(x for x in group if x != g)) for g in group]
    return sorted(found)


def counted_loops():
    found = []
    for path, line, name, head, body in FUNCTIONS:
        text = body.split('\n')
        for n, row in enumerate(text):
            m = re.match(r"( *)(?:'\w+: )?while (.*) \{$", row)
            if not m:
                continue
            end = next(k for k in range(n + 1, len(text)) if text[k] == m.group(1) + '}')
            inner = '\n'.join(code(r) for r in text[n + 1:end])
            names = set(re.findall(r'\b([a-z_]+)\b', m.group(2)))
            if any(re.search(r'\b%s (\+|-)= 1\b|\b%s = after;' % (v, v), inner) for v in names):
                found.append('%s:%d: fn %s: while %s' % (short(path), line + n, name, m.group(2)))
    return found + counted_beside()


def counted_beside():
    """`for` loops that add one to a variable of their own beside what they go over."""
    found = []
    for path, line, name, head, body in FUNCTIONS:
        text = body.split('\n')
        for n, row in enumerate(text):
            m = re.match(r"( *)(?:'\w+: )?for (.*) \{$", row)
            if not m:
                continue
            end = next(k for k in range(n + 1, len(text)) if text[k] == m.group(1) + '}')
            inner = '\n'.join(code(r) for r in text[n + 1:end])
            if re.search(r'^ *\w+ (\+|-)= 1;', inner, re.M):
                found.append('%s:%d: fn %s: for %s' % (short(path), line + n, name, m.group(2)))
    return found


def by_case():
    """Functions that are a match in which each case of an enum gives a number, a text or another enum's case."""
    found = []
    arm = r'[A-Z]\w*::\w+(\([^)]*\))?(\s*\|\s*[A-Z]\w*::\w+(\([^)]*\))?)*'
    arm = r'(%s|None|Some\(\w+\))( if [\w.]+)?' % arm
    gives = r'(\d+|"[^"]*"|true|false|[A-Z]\w*::\w+|print!\(.*|println!\(.*|put\w*\(.*)'
    for path, line, name, head, body in FUNCTIONS:
        inner = '\n'.join(code(r).rstrip() for r in body.strip().strip('{}').split('\n') if code(r).strip())
        m = re.match(r'\s*match [^\n]* \{\n(.*)\n\s*\}\s*$', inner, re.S)
        if m and all(re.match(r'\s*%s => %s,?$' % (arm, gives), row) for row in m.group(1).split('\n')):
            found.append('%s:%d: fn %s' % (short(path), line, name))
    return found


def clauses(head):
    return re.findall(r'^\s+(?:requires|ensures)[^\n]*\{(.*?)\}(?=\n|$)', head, re.M | re.S)


def repeated_facts():
    facts = collections.defaultdict(set)
    for path, line, name, head, body in FUNCTIONS:
        for clause in clauses(head):
            for fact in re.findall(r'\b([A-Z]\w+)\b', clause):
                facts[fact].add('%s fn %s' % (short(path), name))
    return ['%s: %d functions' % (fact, len(where)) for fact, where in sorted(facts.items()) if len(where) > 2]


def travelling():
    pairs = collections.Counter()
    for path, line, name, head, body in FUNCTIONS:
        m = re.search(r'\((.*?)\)\s*(->|$|\n)', head, re.S)
        if not m:
            continue
        names = [p.split(':')[0].strip() for p in m.group(1).split(',') if ':' in p]
        names = [n for n in names if n not in ('rt', 'self')]
        for i in range(len(names) - 1):
            for j in range(i + 2, len(names) + 1):
                pairs[tuple(names[i:j])] += 1
    out = []
    for names, n in sorted(pairs.items(), key=lambda x: (-len(x[0]), -x[1])):
        if n > 2 and not any(set(names) < set(o) and pairs[o] == n for o in pairs):
            out.append('%s: %d functions' % (', '.join(names), n))
    return out


def answers():
    found = []
    for path in sorted(glob.glob(os.path.join(ROOT, 'crates/*/proofs/*/*.antt'))
                       + glob.glob(os.path.join(ROOT, 'crates/*/proofs/*/*/*.antt'))
                       + glob.glob(os.path.join(ROOT, 'crates/*/proofs/*/*/*/*.antt'))):
        for number, line in enumerate(open(path), 1):
            if re.match(r'^pub [\w·-]+ : goal', line):
                found.append('%s:%d: %s' % (os.path.relpath(path, os.path.join(ROOT, 'crates')), number, line.strip()))
    return found


ROWS = [
    ('1', 'enums with a refusal among the cases', refusal_enums),
    ('1', 'functions and structs in which a number stands for nothing, by their comments', sentinels),
    ('1', 'answers of 0 for nothing', lambda: lines(r'\breturn 0;|\b(next|end|first|place): 0,')),
    ('1', 'refusals by number', lambda: lines(r'Refused\(\d+')),
    ('1', 'tests of a kind, a class or a header against a bare number',
     lambda: lines(r'\b(kind|k|h|head|class|callee|target|lead)\b (==|!=|<=|<) \d+|\b\d+ (<=|<) (kind|k|h|class)\b')),
    ('1', 'tests of a detail against a bare number',
     lambda: lines(r'\b(detail|d)\b (==|!=|<=|<) \d+|\b\d+ (<=|<) (detail|d)\b')),
    ('1', 'match arms that are bare numbers',
     lambda: lines(r'^ +\d+( \| \d+|\.\.=\d+)*( if [^=]*)? =>|^ +\((\d+|_), (\d+|_)\).* =>')),
    ('1', 'headers as bare numbers', lambda: lines(r'\b(779|769|1025|1035|1281|1537)\b')),
    ('1', 'tests of the form of a case against a bare number', lambda: lines(r'\bform == \d|\bhead == \d')),
    ('2', 'functions whose bodies differ in a type or a number alone', twins),
    ('2', 'structs and enums with the same fields or cases', type_twins),
    ('3', 'loops that count an index by hand', counted_loops),
    ('4', 'functions that compare, convert or print an enum case by case, or take bytes from a word',
     lambda: lines(r'fn (is_list|is_text|is_type_call|is_bad|same|none|refused_by|truth_refused_by|yes_or_no'
                   r'|truth_known|answer|byte_of|wide|widened|print_refused|print_refusal|print_verdict|print_truth'
                   r'|least|rule_word|number_at|word_or_zero|is_space)\b', by_case())),
    ('5', 'facts in the contracts of three functions or more', repeated_facts),
    ('5', 'parameters that stand together in three functions or more', travelling),
    ('6', 'fixed buffers with a length beside them', lambda: lines(r'let mut \w+ = \[[^\]]*; [\w:]+\]')),
    ('7', 'matches on a step that an enum names', lambda: lines(r'match (step|way|test|condition|made)\b'
                   r'|match (new|settle|settle_back|test_at|way_at|if_left|if_step|first_of)\(')),
    ('8', 'answers written by hand', answers),
]

for point, what, find in ROWS:
    places = find()
    if POINT is None:
        print('%s  %5d  %s' % (point, len(places), what))
    elif POINT == point:
        print('-- %s' % what)
        print('\n'.join(places))
