#!/usr/bin/env python3
"""The supplied files, changed by rule so that they compile over the stand-ins.

    transform.py SUPPLIED OUT [--folding]

SUPPLIED has the files as eval/compiler/expr.rs and so on, below up to two folders named src, or flat. OUT gets
eval/compiler/*.rs. With --folding no line is inserted into any function body (neither hooks nor patches).

Every step checks how often it applies and stops if that is not the number expected: a changed file is noticed.
"""
import os
import re
import sys

FILES = ["args", "call", "compr", "def_inline", "def_inline/local_as_value",
         "expr", "expr_bool", "stmt"]


def candidates(root, name):
    flat = "src--src--eval--compiler--" + name.replace("/", "--") + ".rs"
    for base in (flat, "src/eval/compiler/%s.rs" % name,
                 "src/src/eval/compiler/%s.rs" % name,
                 "eval/compiler/%s.rs" % name, "%s.rs" % name):
        for ext in ("", ".txt"):
            yield os.path.join(root, base + ext)


def find(root, name):
    for path in candidates(root, name):
        if os.path.isfile(path):
            return path
    sys.exit("transform: no file for %s.rs under %s" % (name, root))


def fail(name, what):
    sys.exit("transform: %s.rs: %s" % (name, what))


# --- items dropped whole -------------------------------------------------
# An item starts at the line given (a prefix) and ends at the next line that
# is a closing brace in column 0, or on the same line if that ends in `{}`.
# Attributes, doc comments and folding comments right above go with it.
DROP_ITEMS = {
    # compile from the AST
    "args": [("impl Compiler<", 1)],
    "compr": [("impl Compiler<", 1)],
    "stmt": [
        ("impl Compiler<", 2),
        # need the real runtime
        ("pub(crate) fn possible_gc(", 1),
        ("pub(crate) fn bit_or_assign<", 1),
        ("pub(crate) fn add_assign<", 1),
    ],
    "expr": [
        ("impl<'v, 'a, 'e> Compiler<", 1),
        # literals of the AST
        ("trait AstLiteralCompile ", 1),
        ("impl AstLiteralCompile for AstLiteral ", 1),
        ("trait CompilerExprUtil<", 1),
        ("impl<P: AstPayload> CompilerExprUtil<P> for ExprP<P> ", 1),
        # attribute look-up in the real runtime; attributes.rs has get_attr_hashed_raw
        ("fn get_attr_no_attr_error<", 1),
        ("impl<'v, 'a> MemberOrValue<'v, 'a> ", 1),
        ("pub(crate) fn get_attr_hashed_raw<", 1),
        ("pub(crate) fn get_attr_hashed_bind<", 1),
    ],
    "def_inline/local_as_value": [
        ("impl<'v> StarlarkValue<'v> for LocalAsValue {}", 1),
        ("starlark_simple_value!(LocalAsValue);", 1),
    ],
}


def drop_items(name, text):
    lines = text.split("\n")
    for prefix, times in DROP_ITEMS.get(name, []):
        seen = 0
        i = 0
        while i < len(lines):
            if not lines[i].startswith(prefix):
                i += 1
                continue
            seen += 1
            end = i
            if not (lines[i].endswith("{}") or lines[i].endswith(";")):
                while lines[end] != "}":
                    end += 1
            start = i
            while start > 0 and lines[start - 1].startswith(("#[", "//")):
                start -= 1
            del lines[start:end + 1]
            i = start
        if seen != times:
            fail(name, "item `%s` found %d times, expected %d" % (prefix, seen, times))
    return "\n".join(lines)


# --- derives and attributes of other crates ------------------------------
FOREIGN_DERIVES = {"VisitSpanMut", "StarlarkPagable", "starlark_derive::StarlarkPagable",
                   "Dupe", "Error", "derive_more::Display", "ProvidesStaticType",
                   "NoSerialize", "Allocative"}
OWN_DERIVES = {"Copy", "Clone", "Debug", "Default", "Eq", "PartialEq"}


def strip_derives(name, text):
    def repl(m):
        parts = [p.strip() for p in m.group(1).split(",") if p.strip()]
        for p in parts:
            if p not in FOREIGN_DERIVES and p not in OWN_DERIVES:
                fail(name, "unknown derive `%s`" % p)
        kept = [p for p in parts if p in OWN_DERIVES]
        return "#[derive(%s)]\n" % ", ".join(kept) if kept else ""
    text = re.sub(r"#\[derive\(([^)]*)\)\]\n", repl, text)
    # helper attributes of those derives
    text = re.sub(r"^[ ]*#\[(?:error|display|allocative)\(.*\)\]\n", "", text, flags=re.M)
    return text


# --- imports -------------------------------------------------------------
# Traits are imported for their methods: their names need not occur again.
TRAITS = {"SliceExt", "VecExt"}
RENAMED_USE = {"use once_cell::sync::Lazy;": "use std::sync::LazyLock as Lazy;"}


def fix_uses(name, text):
    """Drop each `use` whose name no longer occurs outside the imports."""
    for old, new in RENAMED_USE.items():
        text = text.replace(old, new)
    lines = text.split("\n")
    body = "\n".join(re.sub(r"//.*", "", l) for l in lines if not l.startswith("use "))
    out = []
    for line in lines:
        m = re.match(r"use (.*);$", line)
        if line.startswith("use ") and not m:
            fail(name, "use over several lines: %s" % line)
        if m:
            last = re.split(r"::| as ", m.group(1))[-1]
            method_trait = last == "VisitSpanMut" and "visit_span::" in line
            if not (last in TRAITS or method_trait or re.search(r"\b%s\b" % last, body)):
                continue
        out.append(line)
    return "\n".join(out)


# --- lines inserted at the start of a function body ----------------------
# (file, function, line, kind); kind "hook" observes only, "patch" acts.
INSERT = [
    # hooks: foldable places of document 01, seen once the parts are simplified
    ("expr", "tuple", "crate::foldable::tuple(&elems);", "hook"),
    ("expr", "un_op", "crate::foldable::un_op(op, &expr);", "hook"),
    ("expr", "bin_op", "crate::foldable::bin_op(bin_op, &l, &r);", "hook"),
    ("expr", "slice", "crate::foldable::slice(&array);", "hook"),
    ("expr", "index2", "crate::foldable::index2(&array);", "hook"),
    ("call", "call", "crate::foldable::call(&fun, &args);", "hook"),
    # patches: the three foldings that ask no stand-in
    ("expr", "as_short_list", "if !crate::FOLDING { return None; }", "patch"),
    ("expr", "tuple", "if !crate::FOLDING { return ExprCompiled::Tuple(elems); }", "patch"),
    ("expr", "format_one",
     "if !crate::FOLDING { return ExprCompiled::Builtin1("
     "Builtin1::FormatOne(before, after), Box::new(arg)); }", "patch"),
]


def insert_lines(name, text):
    for file, fun, line, kind in INSERT:
        if file != name:
            continue
        pat = re.compile(r"^    (?:pub\(crate\) )?fn %s\((?:[^{]*?)\{\n" % fun, re.M)
        found = list(pat.finditer(text))
        if len(found) != 1:
            fail(name, "fn %s found %d times" % (fun, len(found)))
        at = found[0].end()
        # after lines already inserted here, so that hooks come before patches
        while text[at:].startswith("        /* oracle"):
            at = text.index("\n", at) + 1
        text = text[:at] + "        /* oracle %s */ %s\n" % (kind, line) + text[at:]
    return text


# --- modules added inside the files --------------------------------------
ACCESS = {"expr", "stmt", "def_inline"}


def transform(name, text, folding):
    text = drop_items(name, text)
    text = strip_derives(name, text)
    text = fix_uses(name, text)
    if not folding:
        text = insert_lines(name, text)
    if name == "expr":
        text += "\nuse crate::attributes::get_attr_hashed_raw;\n"
    if name in ACCESS:
        text += "\npub(crate) mod access;\n"
    return text


def main():
    folding = "--folding" in sys.argv
    args = [a for a in sys.argv[1:] if a != "--folding"]
    if len(args) != 2:
        sys.exit(__doc__)
    supplied, out = args
    for name in FILES:
        src = find(supplied, name)
        with open(src, encoding="utf-8", newline="") as f:
            text = f.read().replace("\r\n", "\n")
        dst = os.path.join(out, "eval", "compiler", name + ".rs")
        os.makedirs(os.path.dirname(dst), exist_ok=True)
        with open(dst, "w", encoding="utf-8") as f:
            f.write(transform(name, text, folding))


main()
