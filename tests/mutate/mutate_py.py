"""Plants one small bug at a time in the Python module, by its syntax tree.

usage: mutate_py.py FOLDER LIST [SEED [MOST]]

FOLDER is bindings/python/src/vortex_select, or a copy of some files of it. LIST is what is written: all mutants,
or a random sample of MOST.
"""

import ast
import io
import json
import pathlib
import random
import re
import sys
import tokenize

COMPARED = {
    ast.Lt: ("<", ["<="]), ast.LtE: ("<=", ["<"]), ast.Gt: (">", [">="]), ast.GtE: (">=", [">"]),
    ast.Eq: ("==", ["!="]), ast.NotEq: ("!=", ["=="]), ast.In: ("in", ["not in"]),
    ast.NotIn: ("not in", ["in"]), ast.Is: ("is", ["is not"]), ast.IsNot: ("is not", ["is"]),
}
REACHED = {
    ast.Add: ("+", ["-"]), ast.Sub: ("-", ["+"]), ast.Mult: ("*", ["//"]), ast.FloorDiv: ("//", ["*"]),
    ast.Mod: ("%", ["//"]), ast.LShift: ("<<", [">>"]), ast.RShift: (">>", ["<<"]),
    ast.BitAnd: ("&", ["|"]), ast.BitOr: ("|", ["&"]), ast.Pow: ("**", ["*"]),
}


class Maker(ast.NodeVisitor):
    def __init__(self, name, text):
        self.name, self.text, self.data = name, text, text.encode()
        self.starts, at = [], 0
        for line in self.data.splitlines(keepends=True):
            self.starts.append(at)
            at += len(line)
        self.made, self.quiet = [], 0
        self.tree = ast.parse(text)
        for node in ast.walk(self.tree):
            for child in ast.iter_child_nodes(node):
                child.parent = node
        self.visit(self.tree)

    # Places are of bytes.
    def start(self, node):
        return self.starts[node.lineno - 1] + node.col_offset

    def end(self, node):
        return self.starts[node.end_lineno - 1] + node.end_col_offset

    def source(self, node):
        return self.data[self.start(node) : self.end(node)].decode()

    def put(self, op, start, end, new, node=None):
        old = self.data[start:end].decode()
        if old == new or self.quiet:
            return
        self.made.append({"file": self.name, "line": self.data.count(b"\n", 0, start) + 1, "op": op,
                          "start": start, "end": end, "old": old, "new": new})

    def between(self, left, right, word):
        """Where an operator stands between two nodes."""
        start, end = self.end(left), self.start(right)
        found = re.search(re.escape(word).replace(r"\ ", r"\s+"), self.data[start:end].decode())
        return start + found.start(), start + found.end()

    def swap(self, op, left, right, table, operator):
        if type(operator) in table:
            word, others = table[type(operator)]
            start, end = self.between(left, right, word)
            for new in others:
                self.put(op, start, end, new)

    def visit_Compare(self, node):
        parts = [node.left, *node.comparators]
        for left, operator, right in zip(parts, node.ops, parts[1:]):
            self.swap("relation", left, right, COMPARED, operator)
        if len(node.ops) > 1:
            self.put("drop_operand", self.start(node), self.start(node.comparators[0]), "")
            self.put("drop_operand", self.end(node.comparators[-2]), self.end(node), "")
        self.generic_visit(node)

    def visit_BinOp(self, node):
        if not isinstance(node.left, (ast.JoinedStr,)) and not (
            isinstance(node.op, ast.Mod) and isinstance(node.left, ast.Constant) and isinstance(node.left.value, str)
        ):
            self.swap("operator", node.left, node.right, REACHED, node.op)
        self.generic_visit(node)

    def visit_AugAssign(self, node):
        if type(node.op) in REACHED:
            word, others = REACHED[type(node.op)]
            start, end = self.between(node.target, node.value, word + "=")
            for new in others:
                self.put("operator", start, end, new + "=")
            self.put("operator", start, end, "=")
        self.generic_visit(node)

    def visit_BoolOp(self, node):
        word = "and" if isinstance(node.op, ast.And) else "or"
        for k, (left, right) in enumerate(zip(node.values, node.values[1:])):
            start, end = self.between(left, right, word)
            if len(node.values) == 2:
                self.put("and_or", start, end, "or" if word == "and" else "and")
        for k, value in enumerate(node.values):
            rest = [self.source(v) for j, v in enumerate(node.values) if j != k]
            whole = f" {word} ".join(f"({r})" for r in rest)
            self.put("drop_operand", self.start(node), self.end(node), f"({whole})")
        self.generic_visit(node)

    def visit_UnaryOp(self, node):
        if isinstance(node.op, ast.Not):
            self.put("not", self.start(node), self.start(node.operand), "")
        if isinstance(node.op, ast.USub) and not isinstance(node.operand, ast.Constant):
            self.put("minus", self.start(node), self.start(node.operand), "")
        self.generic_visit(node)

    def visit_Constant(self, node):
        if self.in_annotation(node):
            return
        value = node.value
        if value is True or value is False:
            self.put("constant", self.start(node), self.end(node), str(not value))
        elif isinstance(value, int):
            self.put("constant", self.start(node), self.end(node), str(value + 1))
            if value > 0:
                self.put("constant", self.start(node), self.end(node), str(value - 1))
        elif value is None:
            pass
        elif isinstance(value, (str, bytes)) and 0 < len(value) <= 6 and not self.in_message(node):
            source = self.source(node)
            if not source.startswith(("f", "r", "b'", '"""')) and source[-1] in "\"'":
                # A letter of a table or of a format.
                self.put("letters", self.start(node), self.end(node), source[:-2] + source[-1]
                         if len(value) > 1 and source[-2] not in "\\" and "\\" not in source else source[:-1] + "x" + source[-1])

    def in_annotation(self, node):
        while hasattr(node, "parent"):
            parent = node.parent
            if isinstance(parent, ast.arg) or (isinstance(parent, (ast.FunctionDef,)) and parent.returns is node):
                return True
            if isinstance(parent, ast.AnnAssign) and parent.annotation is node:
                return True
            node = parent
        return False

    def in_message(self, node):
        while hasattr(node, "parent"):
            if isinstance(node, (ast.Raise, ast.JoinedStr)):
                return True
            node = node.parent
        return False

    def visit_JoinedStr(self, node):
        pass  # texts, of messages mostly

    def visit_If(self, node):
        if self.is_outer(node):
            self.generic_visit(node)
            return
        start, end = self.start(node.test), self.end(node.test)
        self.put("if_never", start, end, "False")
        self.put("if_ever", start, end, "True")
        self.generic_visit(node)

    def is_outer(self, node):
        return "TYPE_CHECKING" in self.source(node.test)

    def visit_While(self, node):
        self.generic_visit(node)

    def visit_IfExp(self, node):
        self.put("condition", self.start(node.test), self.end(node.test), f"not ({self.source(node.test)})")
        self.put("condition", self.start(node), self.end(node), f"({self.source(node.body)})")
        self.put("condition", self.start(node), self.end(node), f"({self.source(node.orelse)})")
        self.generic_visit(node)

    def visit_comprehension(self, node):
        for test in node.ifs:
            self.put("condition", self.start(test), self.end(test), "True")
        self.generic_visit(node)

    def visit_Assert(self, node):
        self.put("statement", self.start(node), self.end(node), "pass")

    def visit_Expr(self, node):
        if isinstance(node.value, ast.Constant):
            return  # a docstring
        if not isinstance(node.value, (ast.Yield,)):
            self.put("statement", self.start(node), self.end(node), "pass")
        self.generic_visit(node)

    def visit_Assign(self, node):
        target = node.targets[0]
        if isinstance(target, (ast.Attribute, ast.Subscript)):
            self.put("statement", self.start(node), self.end(node), "pass")
        if isinstance(target, ast.Tuple) and isinstance(node.value, ast.Tuple) and len(node.value.elts) == 2:
            one, two = node.value.elts
            self.put("swap_values", self.start(node.value), self.end(node.value), f"{self.source(two)}, {self.source(one)}")
        if len(node.targets) == 1 and isinstance(target, ast.Name) and target.id == "__all__":
            return
        self.generic_visit(node)

    def visit_Continue(self, node):
        self.put("statement", self.start(node), self.end(node), "pass")

    def visit_Break(self, node):
        pass  # a loop without an end

    def visit_Raise(self, node):
        self.put("statement", self.start(node), self.end(node), "pass")
        self.generic_visit(node)

    def visit_Call(self, node):
        name = self.source(node.func)
        plain = [a for a in node.args if not isinstance(a, ast.Starred)]
        if name not in ("TypeError", "ValueError", "isinstance", "hasattr", "getattr", "zip", "range", "IndexError"):
            for one, two in zip(plain, plain[1:]):
                if isinstance(one, ast.Constant) or isinstance(two, ast.Constant):
                    continue
                self.put("swap_arguments", self.start(one), self.end(two),
                         self.source(two) + self.data[self.end(one) : self.start(two)].decode() + self.source(one))
        if name in ("min", "max"):
            self.put("call", self.start(node.func), self.end(node.func), "max" if name == "min" else "min")
        if name in ("any", "all"):
            self.put("call", self.start(node.func), self.end(node.func), "all" if name == "any" else "any")
        for k, word in enumerate(node.keywords):
            if word.arg is None:
                continue
            before = (node.args + [w.value for w in node.keywords[:k]])
            start = self.end(before[-1]) if before else self.starts[word.lineno - 1] + word.col_offset
            self.put("keyword", start, self.end(word.value), "")
        self.generic_visit(node)

    def visit_Tuple(self, node):
        if isinstance(node.ctx, ast.Load) and len(node.elts) > 2 and all(
            isinstance(e, (ast.Constant, ast.Name, ast.Attribute)) for e in node.elts
        ) and isinstance(getattr(node, "parent", None), (ast.Compare, ast.ExceptHandler, ast.Call)):
            for k, item in enumerate(node.elts):
                kept = ", ".join(self.source(e) for j, e in enumerate(node.elts) if j != k)
                self.put("element", self.start(node), self.end(node), f"({kept})")
        self.generic_visit(node)

    def visit_Slice(self, node):
        for part in (node.lower, node.upper):
            if part is not None:
                self.put("slice", self.start(part), self.end(part), "")
        self.generic_visit(node)

    def visit_FunctionDef(self, node):
        for part in node.body:
            self.visit(part)
        for part in node.args.defaults + node.args.kw_defaults:
            if part is not None:
                self.visit(part)

    def visit_AnnAssign(self, node):
        if node.value is not None:
            if isinstance(node.target, ast.Attribute):
                self.put("statement", self.start(node), self.end(node), "pass")
            self.visit(node.value)


def made_of(folder):
    """Return all mutants of the files of a folder, some of which may not compile, and their texts."""
    texts = {path.name: path.read_text() for path in sorted(folder.glob("*.py"))}
    made = [m for name, text in texts.items() for m in Maker(name, text).made]
    made.sort(key=lambda m: (m["file"], m["start"], m["end"], m["new"]))
    for number, m in enumerate(made):
        m["id"] = f"p{number:04}"
    return made, texts


def dumped_of(data, name):
    """Return the text of a syntax tree, or None if the file doesn't compile."""
    try:
        compile(data, name, "exec")
        return ast.dump(compile(data, name, "exec", ast.PyCF_ONLY_AST))
    except (SyntaxError, ValueError):
        return None


def main():
    folder, listed = pathlib.Path(sys.argv[1]), pathlib.Path(sys.argv[2])
    seed = int(sys.argv[3]) if len(sys.argv) > 3 else 20261201
    most = int(sys.argv[4]) if len(sys.argv) > 4 else 10**9
    made, texts = made_of(folder)
    random.Random(seed).shuffle(made)
    seen = {(name, dumped_of(text.encode(), name)) for name, text in texts.items()}
    kept = []
    for m in made:
        data = texts[m["file"]].encode()
        changed = data[: m["start"]] + m["new"].encode() + data[m["end"] :]
        dumped = dumped_of(changed, m["file"])
        if dumped is not None and (m["file"], dumped) not in seen and len(kept) < most:
            seen.add((m["file"], dumped))
            kept.append(m)
        if len(kept) == most:
            break
    listed.write_text("".join(json.dumps(m) + "\n" for m in kept))
    print(len(kept), "mutants")


main()
