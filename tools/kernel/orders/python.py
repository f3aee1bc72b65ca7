"""The steps of the machine as Python, made from their text in C (steps.h): of the forms that the file uses and no others. For tools/lib/machine.py."""
import re

from kernel.orders import text as steps_text

TOKEN = re.compile(r'"[^"]*"|->|&&|\|\||[!=<>]=|\w+|[^\s\w]')
AS_PYTHON = {"&&": " and ", "||": " or ", "!": " not ", "->": "."} | {word: f" {word} " for word in ("==", "!=", "<", ">", "<=", ">=", "+", "-")}
CLOSES = {"(": ")", "[": "]"}


class Parser:
    """Statements of a C block as lines of Python."""

    def __init__(self, text):
        self.words, self.at = TOKEN.findall(re.sub(r"/\*.*?\*/", "", text, flags=re.S)), 0

    def next(self, wanted=None):
        word = self.words[self.at]
        assert wanted in (None, word), (word, wanted, self.words[self.at - 9 : self.at + 3])
        self.at += 1
        return word

    def peek(self):
        return self.words[self.at] if self.at < len(self.words) else ""

    def expression(self, *ends):
        """The words up to one of the ends; `a ? b : c` is the one form that has another order in Python."""
        found = ""
        while self.peek() not in ends:
            word = self.next()
            if word == "=":
                return f"{found} = {self.expression(*ends)}"
            if word == "?":
                yes = self.expression(":")
                self.next(":")
                return f"({yes} if {found} else {self.expression(*ends)})"
            if word in CLOSES:
                inner = [self.expression(",", CLOSES[word])]
                while self.peek() == ",":
                    self.next()
                    inner.append(self.expression(",", CLOSES[word]))
                word += ", ".join(inner) + self.next()
            found += AS_PYTHON.get(word, word)
        return found

    def statement(self, pad):
        word = self.next()
        if word == "{":
            return self.block(pad) or [pad + "pass"]
        if word == "if":
            self.next("(")
            lines = [f"{pad}if {self.expression(')')}:"]
            self.next(")")
            lines += self.statement(pad + "    ")
            if self.peek() == "else":
                self.next()
                lines += [pad + "else:", *self.statement(pad + "    ")]
            return lines
        start = {"return": "return ", "int": ""}.get(word, word)
        line = pad + start + self.expression(";")
        self.next(";")
        # `(void)q` says that a parameter isn't used
        return [] if word == "(" else [line]

    def block(self, pad):
        """The statements up to the end, or to a brace."""
        lines = []
        while self.peek() not in ("", "}"):
            lines += self.statement(pad)
        self.at += 1
        return lines


def python_of(text):
    """A function for each of the text, and for each position `step_NAME`. There is one queue, whose stop word is `xoff`."""
    lines = []
    for block in steps_text.blocks(re.sub(r"xoff\[[^]]*\]", "xoff", text)):
        name = f"step_{block.name}" if block.is_case else block.name
        lines += [f"def {name}({block.parameters}):", *Parser(block.body).block("    "), "    return 0"]
    return "\n".join(lines)
