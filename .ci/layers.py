"""The layers of crates.txt: the crates under each heading `# NAME: words`, with the crates that each lists."""
import re

HEADING = re.compile(r"# (\w+)(?:: (.*))?$")


class Layer:
    def __init__(self, name, words):
        self.name, self.words, self.crates = name, words, {}


def crate_of(head):
    """The crate's name in what stands before a line's colon: a word may follow it, as in `struo_c staticlib`."""
    return (head.split() or [""])[0]


def read_layers():
    """In the order of crates.txt."""
    layers = []
    with open("crates.txt", encoding="utf-8") as opened:
        for line in opened.read().split("\n"):
            head, colon, listed = line.partition(":")
            if heading := HEADING.match(line):
                layers.append(Layer(heading.group(1), heading.group(2) or ""))
            elif colon:
                layers[-1].crates[crate_of(head)] = listed.split()
    return layers
