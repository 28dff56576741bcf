#!/usr/bin/env python3
"""Puts answers that say nothing of their own, `search rules` and `omega arith`, into the call of `tie.spec`.

inline.py FILE..    files proofs/FN/Proof.antt; prints those that it changed, with their lines before and after
"""
import re
import sys

WIDTH = 150
CLOSE = re.compile(r"^(pub [\w-]+-spec : .*\n)([\w-]+-spec =)\s*tie\.close\s*\(tie\.spec([^()]*)\)\s*\Z", re.M)
PLAIN = re.compile(r"^([\w-]+) : tie\.Need-[^\n]*\n\1 c( κs)? = (search rules|omega arith)\n\n", re.M)


def laid_out(name, words):
    """The theorem's body, in one line or in lines of at most WIDTH."""
    line = f"{name} tie.close (tie.spec {' '.join(words)})"
    if len(line) <= WIDTH:
        return line + "\n"
    lines = [name, "    tie.close", "    (tie.spec"]
    for word in words:
        if len(lines[-1]) + 1 + len(word) > WIDTH:
            lines.append("    " + word)
        else:
            lines[-1] += " " + word
    return "\n".join(lines) + ")\n"


def inlined(text):
    """The file with its plain answers in place."""
    close = CLOSE.search(text)
    if not close:
        return text
    words, plain = close.group(3).split(), {}

    def moved(match):
        if match.group(1) not in words:
            return match.group(0)
        plain[match.group(1)] = f"(λ c{match.group(2) or ''}. {match.group(3)})"
        return ""

    before = PLAIN.sub(moved, text[: close.start()])
    if not plain:
        return text
    return before + close.group(1) + laid_out(close.group(2), [plain.get(word, word) for word in words])


def main():
    for path in sys.argv[1:]:
        with open(path, encoding="utf-8") as opened:
            text = opened.read()
        new = inlined(text)
        if new != text:
            with open(path, "w", encoding="utf-8") as opened:
                opened.write(new)
            print(path, text.count("\n"), new.count("\n"))


main()
