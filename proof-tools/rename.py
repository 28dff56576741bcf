#!/usr/bin/env python3
"""Translates a draft that was written against former names of crates: rename.py LIST PATH..

Changes the files under each PATH in place, and moves folders crates/FORMER. LIST has a line `former present` for each name; lines that begin
with # are comments. A name may stand on both sides, so translate a draft once.

  everywhere            `Rattle.NAME`, `NAME::`, crates/NAME, NAME/specs, NAME/File, `rt ci NAME..`
  lists crates.txt*     every word of the lines that are no comments
  pages and scripts     also `NAME`, `NAME.law` and `NAME/edit` in backticks; each such line is printed, since a field or a function may have
                        the same name as a crate
"""
import os
import re
import sys

CODE = (".rt", ".antt", ".edit", ".patch", ".diff")
WORD = re.compile(r"[A-Za-z0-9_]+")
COMMAND = re.compile(r"(?<=\brt )(ci|must-fail)((?: [a-z0-9_]+)+)")


def read_names(path):
    with open(path, encoding="utf-8") as opened:
        return dict(line.split() for line in opened if line.strip() and not line.startswith("#"))


class Names:
    def __init__(self, names):
        self.names = names
        one = "(?:" + "|".join(sorted(map(re.escape, names), key=len, reverse=True)) + ")"
        code = [
            rf"(?<=Rattle\.){one}(?![A-Za-z0-9_])",
            rf"(?<![A-Za-z0-9_:.]){one}(?=::)",
            rf"(?<=crates/){one}(?![A-Za-z0-9_])",
            rf"(?<![\w/.-]){one}(?=/(?:(?:specs|src|proofs|must-fail)\b|[A-Z]))",
        ]
        self.code = re.compile("|".join(code))
        self.page = re.compile("|".join([*code, rf"(?<=`){one}(?=`|\.(?!r[st]\b)[A-Za-z]|/[a-z])"]))

    def words(self, text):
        return WORD.sub(lambda match: self.names.get(match.group(), match.group()), text)

    def listed(self, line):
        """A line of crates.txt; crates that became one stand there once."""
        return " ".join(dict.fromkeys(self.words(line).split()))

    def line(self, pattern, line):
        """A line in which each name is read once."""
        line = pattern.sub(lambda match: self.names[match.group()], line)
        return COMMAND.sub(lambda match: match.group(1) + self.words(match.group(2)), line)

    def translated(self, path, text):
        lines = text.split("\n")
        if os.path.basename(path).startswith("crates.txt"):
            return "\n".join(line if line.startswith("#") else self.listed(line) for line in lines)
        if path.endswith(CODE):
            return "\n".join(self.line(self.code, line) for line in lines)
        for number, line in enumerate(lines, 1):
            lines[number - 1] = self.line(self.page, line)
            if lines[number - 1] != self.line(self.code, line):
                print(f"{path}:{number}: {lines[number - 1]}")
        return "\n".join(lines)

    def file(self, path):
        try:
            with open(path, encoding="utf-8") as opened:
                text = opened.read()
        except UnicodeDecodeError:
            return
        changed = self.translated(path, text)
        if changed != text:
            with open(path, "w", encoding="utf-8") as opened:
                opened.write(changed)

    def move(self, crates):
        """Moves the folders of a folder crates/."""
        former = [name for name in os.listdir(crates) if name in self.names]
        for name in former:
            os.rename(f"{crates}/{name}", f"{crates}/.{name}")
        for name in former:
            present = f"{crates}/{self.names[name]}"
            if os.path.exists(present):
                print(f"{crates}/.{name}: not moved, {present} is there")
            else:
                os.rename(f"{crates}/.{name}", present)


def main():
    if len(sys.argv) < 3:
        sys.exit(__doc__.strip())
    names = Names(read_names(sys.argv[1]))
    for path in sys.argv[2:]:
        if os.path.isfile(path):
            names.file(path)
        for folder, _, files in os.walk(path, topdown=False):
            for file in files:
                names.file(os.path.join(folder, file))
            if os.path.basename(os.path.abspath(folder)) == "crates":
                names.move(folder)


main()
