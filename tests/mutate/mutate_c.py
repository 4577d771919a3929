"""Lists the mutants of the C of the Arrow shim: one small fault each.

usage: mutate_c.py SHIM LIST    (SHIM: the folder shim; LIST: a file of one mutant a line, JSON)
"""

import json
import pathlib
import re
import sys

from tokens import closing, line_of, tokens

RELATIONS = {"<": ["<="], "<=": ["<"], ">": [">="], ">=": [">"], "==": ["!="], "!=": ["=="]}
OTHERS = {
    "+": ["-"], "-": ["+"], "*": ["/"], "/": ["*"], "%": ["/"], "<<": [">>"], ">>": ["<<"],
    "&": ["|"], "|": ["&"], "++": ["--"], "--": ["++"], "+=": ["-=", "="], "-=": ["+="],
    "|=": ["=", "&="], "&=": ["|=", "="],
}
TYPES = set(
    "char int void const struct static long unsigned size_t uint64_t int64_t uint8_t int32_t "
    "uintptr_t owner part supply table source selected block way return sizeof else case".split()
)


class Maker:
    def __init__(self, name, text):
        self.name, self.text, self.found = name, text, tokens(text)
        self.made = []
        # Of each token the innermost bracket: "block", or another.
        self.inner, stack, popped = [], [], None
        for k, token in enumerate(self.found):
            if token.kind == "op" and token.text in (")", "]", "}"):
                stack.pop()
            self.inner.append(stack[-1] if stack else "")
            if token.kind == "op" and token.text in ("(", "[", "{"):
                before = self.found[k - 1].text if k else ""
                is_block = token.text == "{" and before in (")", "else", "do", ";", "{", "}")
                is_block = is_block and (not stack or stack[-1] == "block" or before == ")")
                stack.append("block" if is_block else token.text)

    def put(self, op, start, end, new):
        old = self.text[start:end]
        if old == new:
            return
        self.made.append(
            {"file": self.name, "line": line_of(self.text, start), "op": op, "start": start, "end": end,
             "old": old, "new": new}
        )

    def span(self, first, last):
        """The text of tokens from one up to and with another."""
        return self.text[self.found[first].start : self.found[last].end]

    # -- what stands around a token

    def is_binary(self, k):
        before = self.found[k - 1]
        if before.kind in ("number", "string", "char"):
            return True
        if before.kind == "name":
            return before.text not in TYPES
        if before.text == ")":
            # A cast's bracket holds types and stars alone.
            depth, at = before.depth, k - 2
            while not (self.found[at].depth == depth and self.found[at].text == "("):
                at -= 1
            inner = self.found[at + 1 : k - 1]
            is_cast = all(t.text in TYPES or t.text == "*" or t.text.startswith(("vortex_arrow", "Arrow"))
                          for t in inner)
            return not is_cast
        return before.text == "]"

    def operand(self, k, step):
        """Where the operand of a logical operator at k ends, to the left (-1) or the right (1)."""
        stops = {"&&", "||", "?", ":", ",", ";", "=", "return", "{", "}", "|=", "&="}
        if step < 0 and self.found[k].text == "||":
            stops.discard("&&")
        if step > 0 and self.found[k].text == "||":
            stops.discard("&&")
        depth, at = self.found[k].depth, k + step
        while True:
            token = self.found[at]
            if token.depth < depth or (token.depth == depth and token.text in stops):
                return at - step
            at += step

    # -- mutants

    def operators(self):
        for k, token in enumerate(self.found):
            if token.kind != "op":
                continue
            word = token.text
            for new in RELATIONS.get(word, []):
                self.put("relation", token.start, token.end, new)
            if word in OTHERS and (word in ("++", "--") or word[-1] == "=" or self.is_binary(k)):
                for new in OTHERS[word]:
                    self.put("operator", token.start, token.end, new)
            if word in ("&&", "||"):
                self.put("and_or", token.start, token.end, "||" if word == "&&" else "&&")
                left, right = self.operand(k, -1), self.operand(k, 1)
                self.put("drop_operand", self.found[left].start, self.found[k + 1].start, "")
                self.put("drop_operand", self.found[k - 1].end, self.found[right].end, "")
            if word == "!":
                self.put("not", token.start, token.end, "!!")
            if word == "-" and not self.is_binary(k):
                self.put("minus", token.start, token.end, "")
            if word == "~":
                self.put("minus", token.start, token.end, "")
            if word == "?":
                at = self.condition_of(k)
                self.put("condition", self.found[at].start, self.found[k - 1].end,
                         f"!({self.span(at, k - 1)})")

    def condition_of(self, k):
        """Where the condition of a `?` begins."""
        stops = {"?", ":", ",", ";", "=", "return", "{", "}", "+=", "|="}
        depth, at = self.found[k].depth, k - 1
        while True:
            token = self.found[at]
            if token.depth < depth or (token.depth == depth and token.text in stops):
                return at + 1
            at -= 1

    def constants(self):
        for k, token in enumerate(self.found):
            if token.kind == "number" and re.fullmatch(r"[0-9]+|0x[0-9a-f]+", token.text):
                number = int(token.text, 0)
                self.put("constant", token.start, token.end, str(number + 1))
                if number:
                    self.put("constant", token.start, token.end, str(number - 1))
            if token.kind == "char" and token.text not in ("' '",):
                self.put("letter", token.start, token.end, "'x'")
            if token.kind == "string" and self.name == "arrow_formats.c" and len(token.text) > 2:
                word = token.text[1:-1]
                if "%" in word:
                    continue
                for new in {word[:-1], word[1:]}:
                    self.put("table", token.start, token.end, f'"{new}"')

    def conditions(self):
        for k, token in enumerate(self.found):
            if token.text == "if" and token.kind == "name":
                end = closing(self.found, k + 1)
                inside = self.span(k + 2, end - 1)
                start, stop = self.found[k + 2].start, self.found[end - 1].end
                self.put("if_never", start, stop, f"0 && ({inside})")
                self.put("if_ever", start, stop, f"1 || ({inside})")

    def statements(self):
        """Expression statements, jumps and whole returns, removed."""
        for k, token in enumerate(self.found[:-1]):
            is_start = token.text in (";", "{", "}") and self.inner[k + 1] == "block"
            if token.text == ")" and token.kind == "op":
                is_start = self.ends_head(k)
            if token.text == "else":
                is_start = True
            if not is_start:
                continue
            first, at = k + 1, k + 1
            if self.found[first].text in ("if", "for", "while", "{", "}", "else", "do", "switch", "static", ";"):
                continue
            depth = self.found[first].depth
            while not (self.found[at].text == ";" and self.found[at].depth == depth):
                at += 1
            words = [t.text for t in self.found[first:at]]
            if words[0] in ("return",):
                if len(words) == 2 and re.match("[a-z]", words[1]):
                    self.put("return", self.found[first + 1].start, self.found[at - 1].end, "0")
                continue
            if self.is_declaration(first, at):
                continue
            self.put("statement", self.found[first].start, self.found[at].start, "")

    def ends_head(self, k):
        depth, at = self.found[k].depth, k - 1
        while not (self.found[at].depth == depth and self.found[at].text == "("):
            at -= 1
        return self.found[at - 1].text in ("if", "for", "while")

    def is_declaration(self, first, end):
        words = [t for t in self.found[first:end]]
        if words[0].text in ("const", "struct", "static"):
            return True
        k = 0
        while k + 1 < len(words) and words[k + 1].text == "*":
            k += 1
        return (words[0].kind == "name" and len(words) > k + 1 and words[k + 1].kind == "name") or (
            len(words) == 2 and words[0].text in TYPES
        )

    def increments(self):
        """The third part of a for that counts two things, and the steps of pointers."""
        for k, token in enumerate(self.found):
            if token.text == "for" and token.kind == "name":
                end = closing(self.found, k + 1)
                marks = [j for j in range(k + 2, end) if self.found[j].text == ";"
                         and self.found[j].depth == self.found[k + 1].depth + 1]
                commas = [j for j in range(marks[1], end) if self.found[j].text == ","
                          and self.found[j].depth == self.found[k + 1].depth + 1]
                for j in commas:
                    self.put("statement", self.found[j].start, self.found[end - 1].end, "")

    def calls(self):
        for k, token in enumerate(self.found[:-1]):
            if token.kind != "name" or self.found[k + 1].text != "(":
                continue
            if token.text in ("if", "for", "while", "sizeof", "return", "switch"):
                continue
            if self.found[k].depth == 0 or self.found[k - 1].text in TYPES | {"*"} and self.found[k].depth == 0:
                continue
            end = closing(self.found, k + 1)
            depth = self.found[k + 1].depth + 1
            commas = [j for j in range(k + 2, end) if self.found[j].text == "," and self.found[j].depth == depth]
            edges = [k + 1, *commas, end]
            parts = [(a + 1, b - 1) for a, b in zip(edges, edges[1:]) if b - 1 >= a + 1]
            for (a, b), (c, d) in zip(parts, parts[1:]):
                one, two = self.span(a, b), self.span(c, d)
                middle = self.text[self.found[b].end : self.found[c].start]
                self.put("swap_arguments", self.found[a].start, self.found[d].end, two + middle + one)

    def sizes(self):
        for k, token in enumerate(self.found):
            if token.text != "sizeof":
                continue
            after = self.found[k + 1]
            if after.text == "*":
                self.put("sizeof", after.start, after.end, "")
            elif after.text == "(":
                end = closing(self.found, k + 1)
                word = self.span(k + 2, end - 1)
                new = word[:-1].rstrip() if word.endswith("*") else word + " *"
                if not word.startswith("void"):
                    self.put("sizeof", self.found[k + 2].start, self.found[end - 1].end, new)

    def all(self):
        for make in (self.operators, self.constants, self.conditions, self.statements, self.increments,
                     self.calls, self.sizes):
            make()
        return self.made


def macros(name, text):
    """The numbers and operators of macros that compute."""
    made = []
    for found in re.finditer(r"(?m)^#define ALIGNED\(bytes\) (.*)$", text):
        for part in re.finditer(r"\d+|[+*/]", found.group(1)):
            start = found.start(1) + part.start()
            for new in {"+": ["-"], "*": ["/"], "/": ["*"]}.get(part.group(), []) or [
                str(int(part.group()) + 1), str(int(part.group()) - 1)
            ]:
                made.append({"file": name, "line": line_of(text, start), "op": "macro", "start": start,
                             "end": start + len(part.group()), "old": part.group(), "new": new})
    for word, new in (("__atomic_add_fetch", "__atomic_sub_fetch"), ("__atomic_sub_fetch", "__atomic_add_fetch"),
                      ("__ATOMIC_ACQ_REL", "__ATOMIC_RELAXED"), ("~0", "~0")):
        for found in re.finditer(r"(?m)^#define COUNT.*?(" + re.escape(word) + ")", text):
            start = found.start(1)
            made.append({"file": name, "line": line_of(text, start), "op": "macro", "start": start,
                         "end": start + len(word), "old": word, "new": new})
    # A count that is not atomic.
    for found in re.finditer(r"(?m)^#define COUNT_UP\(count\) (.*)$", text):
        made.append({"file": name, "line": line_of(text, found.start()), "op": "macro", "start": found.start(1),
                     "end": found.end(1), "old": found.group(1), "new": "((void)++(count))"})
    for found in re.finditer(r"(?m)^#define COUNT_DOWN\(count\) (.*)$", text):
        made.append({"file": name, "line": line_of(text, found.start()), "op": "macro", "start": found.start(1),
                     "end": found.end(1), "old": found.group(1), "new": "(--(count))"})
    return [m for m in made if m["old"] != m["new"]]


def main():
    folder, listed = pathlib.Path(sys.argv[1]), pathlib.Path(sys.argv[2])
    every, seen = [], set()
    files = sorted(path.name for path in folder.glob("*.c"))
    for name in files:
        text = (folder / name).read_text()
        for mutant in Maker(name, text).all() + macros(name, text):
            key = name, text[: mutant["start"]] + mutant["new"] + text[mutant["end"] :]
            if key in seen:
                continue
            seen.add(key)
            every.append(mutant)
    every.sort(key=lambda m: (files.index(m["file"]), m["start"], m["end"], m["new"]))
    for number, mutant in enumerate(every):
        mutant["id"] = f"c{number:04}"
    listed.write_text("".join(json.dumps(m) + "\n" for m in every))
    print(len(every), "mutants")


main()
