"""Plants one small bug at a time in the Rust crate, by its text.

usage: mutate_rust.py FOLDER LIST [SEED]    (FOLDER: bindings/rust/vortex-select/src; LIST: what is written)
"""

import json
import pathlib
import random
import re
import sys

from tokens import closing, line_of, tokens

RELATIONS = {"<": ["<="], "<=": ["<"], ">": [">="], ">=": [">"], "==": ["!="], "!=": ["=="]}
OTHERS = {"+": ["-"], "-": ["+"], "*": ["/"], "/": ["*"], "%": ["/"], "<<": [">>"], ">>": ["<<"],
          "&": ["|"], "|": ["&"], "+=": ["-=", "="], "-=": ["+="], "|=": ["=", "&="]}
METHODS = {"min": "max", "max": "min", "any": "all", "all": "any", "is_some": "is_none", "is_none": "is_some",
           "div_ceil": "wrapping_div", "checked_add": "checked_sub"}


class Maker:
    def __init__(self, name, text):
        self.name, self.text = name, text
        self.found = [t for t in tokens(text) if not self.in_attribute(t.start)]
        self.made = []
        self.inner, stack = [], []
        for k, token in enumerate(self.found):
            if token.kind == "op" and token.text in (")", "]", "}"):
                stack.pop()
            self.inner.append(stack[-1] if stack else "")
            if token.kind == "op" and token.text in ("(", "[", "{"):
                stack.append(token.text)

    def in_attribute(self, place):
        line = self.text[self.text.rfind("\n", 0, place) + 1 : place + 1].lstrip()
        return line.startswith(("#[", "#!["))

    def in_use(self, place):
        start = self.text.rfind("\n", 0, place) + 1
        line = self.text[start:].lstrip()
        return line.startswith(("use ", "pub use ", "mod ", "pub mod "))

    def put(self, op, start, end, new):
        old = self.text[start:end]
        if old != new and not self.in_use(start):
            self.made.append({"file": self.name, "line": line_of(self.text, start), "op": op, "start": start,
                              "end": end, "old": old, "new": new})

    def span(self, first, last):
        return self.text[self.found[first].start : self.found[last].end]

    def is_spaced(self, k):
        token = self.found[k]
        return self.text[token.start - 1] == " " and self.text[token.end : token.end + 1] in (" ", "\n")

    def operand(self, k, step):
        stops = {"||", ",", ";", "=", "return", "{", "}", "=>", "if", "while", "|"}
        if self.found[k].text == "&&":
            stops.add("&&")
        depth, at = self.found[k].depth, k + step
        while True:
            token = self.found[at]
            if token.depth < depth or (token.depth == depth and token.text in stops):
                return at - step
            at += step

    def operators(self):
        for k, token in enumerate(self.found):
            word = token.text
            if token.kind == "op":
                if word in ("<", ">") and not self.is_spaced(k):
                    continue
                for new in RELATIONS.get(word, []):
                    self.put("relation", token.start, token.end, new)
                if word in OTHERS and self.is_spaced(k):
                    for new in OTHERS[word]:
                        self.put("operator", token.start, token.end, new)
                if word in ("&&", "||") and self.is_spaced(k):
                    self.put("and_or", token.start, token.end, "||" if word == "&&" else "&&")
                    left, right = self.operand(k, -1), self.operand(k, 1)
                    self.put("drop_operand", self.found[left].start, self.found[k + 1].start, "")
                    self.put("drop_operand", self.found[k - 1].end, self.found[right].end, "")
                if word == "!" and self.text[token.end] not in "(=":
                    self.put("not", token.start, token.end, "")
                if word == "..":
                    self.put("range", token.start, token.end, "..=")
            if token.kind == "number" and re.fullmatch(r"[0-9][0-9_]*", word):
                if self.found[k - 1].text == "." or self.inner[k] == "[" and self.text[token.end] == "]" \
                        and self.found[k - 1].text == ";":
                    continue
                number = int(word.replace("_", ""))
                self.put("constant", token.start, token.end, str(number + 1))
                if number:
                    self.put("constant", token.start, token.end, str(number - 1))
            if token.kind == "name":
                if word in ("true", "false"):
                    self.put("constant", token.start, token.end, "false" if word == "true" else "true")
                if word in METHODS and self.found[k - 1].text == ".":
                    self.put("call", token.start, token.end, METHODS[word])
            if token.kind == "string" and word.startswith(("b", '"')) and len(word) <= 7 and "\\" not in word \
                    and "%" not in word and len(word) > 3:
                self.put("letters", token.end - 2, token.end - 1, "x")

    def conditions(self):
        for k, token in enumerate(self.found):
            if token.kind == "name" and token.text == "if" and self.found[k + 1].text != "let":
                at = k + 1
                while not (self.found[at].text in ("{", "=>") and self.found[at].depth == token.depth):
                    at += 1
                inside = self.span(k + 1, at - 1)
                start, stop = self.found[k + 1].start, self.found[at - 1].end
                self.put("if_never", start, stop, f"false && ({inside})")
                self.put("if_ever", start, stop, f"true || ({inside})")

    def statements(self):
        for k, token in enumerate(self.found[:-1]):
            if token.text not in (";", "{", "}") or token.kind != "op" or self.inner[k + 1] != "{":
                continue
            first = k + 1
            start = self.found[first]
            if start.text in ("let", "use", "pub", "fn", "return", "const", "static", "impl", "struct", "mod",
                              "match", "if", "for", "loop", "while", "unsafe", "}", "macro_rules", "type", "continue",
                              "break", "self") and start.text != "self":
                continue
            at = first
            while at < len(self.found) and not (
                (self.found[at].text in (";", ",") and self.found[at].depth == start.depth)
                or self.found[at].depth < start.depth
            ):
                at += 1
            if at >= len(self.found) or self.found[at].text != ";" or self.found[at].depth != start.depth:
                continue
            if any(t.text == "fn" for t in self.found[first:at]):
                continue
            self.put("statement", start.start, self.found[at].end, "")

    def calls(self):
        for k, token in enumerate(self.found[:-1]):
            if token.kind != "name" or self.found[k + 1].text != "(" or token.text in ("if", "match", "while"):
                continue
            if self.found[k - 1].text == "fn" or token.text.endswith("!"):
                continue
            try:
                end = closing(self.found, k + 1)
            except ValueError:
                continue
            depth = self.found[k + 1].depth + 1
            commas = [j for j in range(k + 2, end) if self.found[j].text == "," and self.found[j].depth == depth]
            edges = [k + 1, *commas, end]
            parts = [(a + 1, b - 1) for a, b in zip(edges, edges[1:]) if b - 1 >= a + 1]
            for (a, b), (c, d) in zip(parts, parts[1:]):
                one, two = self.span(a, b), self.span(c, d)
                middle = self.text[self.found[b].end : self.found[c].start]
                self.put("swap_arguments", self.found[a].start, self.found[d].end, two + middle + one)

    def all(self):
        for make in (self.operators, self.conditions, self.statements, self.calls):
            make()
        return self.made


def main():
    folder, listed = pathlib.Path(sys.argv[1]), pathlib.Path(sys.argv[2])
    seed = int(sys.argv[3]) if len(sys.argv) > 3 else 20261201
    every, seen = [], set()
    for path in sorted(folder.rglob("*.rs")):
        name, text = str(path.relative_to(folder)), path.read_text()
        for m in Maker(name, text).all():
            key = name, text[: m["start"]] + m["new"] + text[m["end"] :]
            if key not in seen:
                seen.add(key)
                every.append(m)
    every.sort(key=lambda m: (m["file"], m["start"], m["end"], m["new"]))
    for number, m in enumerate(every):
        m["id"] = f"r{number:04}"
    random.Random(seed).shuffle(every)
    listed.write_text("".join(json.dumps(m) + "\n" for m in every))
    print(len(every), "mutants")


main()
