"""Which names of a definition are bound beside it, and so name no definition: parameters, fields, what `λ`, `let`, `←`, a case or the
left side of an equation binds, each as far as it reaches; and the labels of a record's fields. Used by tools/trust.py."""
import re

WORD = re.compile(r"[^\s(){}\[\],;.`\"]+(?:\.[^\s(){}\[\],;.`\"]+)*")
RUST = re.compile(r"\d\w*|[^\W\d][\w']*(?:\.[\w']+)*|[^\s\w(){}\[\],;.\"]+")
PUNCTUATION = re.compile(r"[(){}\[\];.]")
TELESCOPE = re.compile(r"[({] ?([^\s(){}\[\]:,;=.]+(?: [^\s(){}\[\]:,;=.]+)*) : ")
CASE = re.compile(r"[\[|] *((?:[^\[\]|↦]|\[\])*?) ↦")
LABEL = re.compile(r"[^\s.]+ =(?=\s|$)")


class Scopes:
    """Goes through the code of one definition, token by token. `is_variable` tells whether a word of a pattern is bound by it."""

    def __init__(self, is_rust, is_variable, patterns_of):
        self.is_rust, self.is_variable, self.patterns_of = is_rust, is_variable, patterns_of
        self.base = set()
        self.groups = [set()]
        # telescopes that are open: at which depth, and what they bind behind them
        self.telescopes = []
        # binders that wait for what is behind their value: at which depth, in which column, and what they bind
        self.waiting = []
        self.lambda_depth = None
        self.labels = False

    def tokens(self, lines):
        """Of each token: the number of its line, its place, its text, and whether it is bound or a label."""
        word = RUST if self.is_rust else WORD
        for number, line in enumerate(lines):
            self.begin_line(line)
            self.binders = self.binders_of(line)
            end = 0
            for start in self.starts(word, line):
                if start < end:
                    continue
                found = word.match(line, start)
                if found is None:
                    self.punctuation(line, start)
                    end = start + 1
                    continue
                end = found.end()
                yield number, start, found.group(), self.is_bound(line, start, found.group())
                self.word(line, start, found.group())

    def starts(self, word, line):
        """Where a token or a sign of punctuation begins."""
        return sorted({found.start() for found in word.finditer(line)} | {found.start() for found in PUNCTUATION.finditer(line)})

    def begin_line(self, line):
        column = len(line) - len(line.lstrip())
        if not line.strip():
            return
        if not self.is_rust and column == 0 and line[0] not in ")}":
            patterns = self.patterns_of(line)
            self.groups, self.waiting, self.telescopes, self.labels = [patterns or set()], [], [], False
            if patterns is None:
                self.lambda_depth = None
        field = re.match(r"  (?:pub )?([^\s:(){}]+) : ", line)
        if field and not self.is_rust:
            # behind the head of a record or of cases, whose parameters reach over all of them
            if not self.base:
                self.base |= self.groups[0]
            self.groups, self.waiting = [set()], []
        for depth, begun, names in list(self.waiting):
            if depth == len(self.groups) and column <= begun:
                self.waiting.remove((depth, begun, names))
                self.groups[-1] |= names

    def binders_of(self, line):
        """The places in a line at which a name is bound, by telescopes, `let`, `←` and cases, and what each binds."""
        places = {}
        field = re.match(r"  (?:pub )?([^\s:(){}]+) : ", line)
        if field and not self.is_rust:
            places[field.start(1)] = "field"
        for found in TELESCOPE.finditer(line):
            for name in re.finditer(r"[^\s]+", found.group(1)):
                if self.is_variable(name.group()):
                    places[found.start(1) + name.start()] = "telescope"
        if self.is_rust:
            return places
        patterns = [(found.start(1), found.group(1)) for found in CASE.finditer(line)]
        patterns += [(found.start(1), found.group(1)) for found in re.finditer(r"(?:^ +|\bdo )((?:(?!let )[^=←])*?) ←", line)]
        patterns += [(found.start(1), found.group(1)) for found in re.finditer(r"\blet ([^=:]+?) (?:=|:)", line)]
        for start, pattern in patterns:
            for name in WORD.finditer(pattern):
                if self.is_variable(name.group()):
                    places[start + name.start()] = "pattern"
        return places

    def is_bound(self, line, start, token):
        first = token.partition(".")[0]
        if start in self.binders or self.lambda_depth == len(self.groups):
            return True
        if self.labels and LABEL.match(line, start):
            return True
        return first in self.base or any(first in group for group in self.groups)

    def word(self, line, start, token):
        """What a word changes: it may be bound from here on, or begin what binds."""
        column = len(line) - len(line.lstrip())
        self.labels = False
        kind = self.binders.get(start)
        if self.lambda_depth == len(self.groups) and token != "λ":
            self.groups[-1].add(token)
        elif token == "λ":
            self.lambda_depth = len(self.groups)
        elif kind == "field":
            self.base.add(token)
        elif kind == "telescope":
            self.telescopes.append((len(self.groups), token))
        elif kind == "pattern":
            self.pattern(line, start, token, column)
        elif token == "in" and self.waiting:
            depth, _, names = self.waiting.pop()
            self.groups[-1] |= names
        elif token == "|" and len(self.groups) > 1:
            self.groups[-1].clear()

    def pattern(self, line, start, token, column):
        """A name of a pattern: that of a case reaches over the case, and that of a `let` or a `←` begins behind its value."""
        if re.match(r"(?:[^\[\]|↦]|\[\])*↦", line[start:]):
            self.groups[-1].add(token)
        elif self.waiting and self.waiting[-1][:2] == (len(self.groups), column) and "=" not in line[column:start]:
            self.waiting[-1][2].add(token)
        else:
            self.waiting.append((len(self.groups), column, {token}))

    def punctuation(self, line, start):
        sign = line[start]
        if sign in "({[":
            self.groups.append(set())
            self.labels = sign == "{" and not self.is_rust or sign == "{" and line[:start].endswith("record ")
        elif sign in ")}]" and len(self.groups) > 1:
            depth = len(self.groups)
            self.groups.pop()
            self.waiting = [one for one in self.waiting if one[0] < depth]
            self.groups[-1].update(name for deep, name in self.telescopes if deep == depth)
            self.telescopes = [one for one in self.telescopes if one[0] < depth]
            self.labels = False
        elif sign == ";":
            self.labels = True
        elif sign == "." and self.lambda_depth == len(self.groups):
            self.lambda_depth = None
