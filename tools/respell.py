#!/usr/bin/env python3
"""Brings the repository's own definitions and lemmas to today's spelling: words in snake case, as `permitted_load` for `permittedLoad` and
`load_rises` for `load-rises`; constants keep their capitals, as `MOST_MEMBERS`. Names of src/ stay. Run once, at the top, after the
toolchain's own script had turned the rest; what is declared in specs/ and in the lemma files of proofs/ is respelled wherever it is cited, in
must-fail edits and, between backticks, in comments and pages too.
"""
import collections
import os
import re
import sys

# Two names that would fall together: a lemma named as a definition gets `_lem`; the others get a name that says the same.
OTHER = {
    "oneWay": "forward_gives",
    "otherWay": "backward_gives",
    "allHold": "all_rows_hold",
    "betweenAnswered": "answered_between",
    "yardAnswered": "answered_yard",
    "every-code": "every_code_lem",
    "weight-range": "weight_range_lem",
    "later-range": "later_range_lem",
    "of-span": "of_span_lem",
    "is-reading": "is_reading_lem",
    "apex-top": "apex_top_lem",
    "wanted-version": "wanted_version_lem",
    "given-version": "given_version_lem",
    "refused-by": "refused_by_lem",
    "every-passes": "every_passes_lem",
    "at-most": "at_most_lem",
    "least-margin": "least_margin_lem",
    "first-fault": "first_fault_lem",
    "pair-answer": "pair_answer_lem",
    "record-at": "record_at_lem",
    "in-turn": "in_turn_lem",
    "vehicles-of": "vehicles_of_lem",
    "figure-with": "figure_with_lem",
    "verdict-with": "verdict_with_lem",
    "stored-survey": "stored_survey_lem",
    "row-falls": "row_falls_lem",
    "long-fault": "long_fault_lem",
    "every-field": "every_field_lem",
    "joined-field": "joined_field_lem",
    "own-length": "own_length_lem",
    "distance-behind": "distance_behind",
    "axle-within": "axle_within_lem",
}
TOKEN = re.compile(r"[^\s(){}\[\],;.:@\"`|]+")
DECLARED = re.compile(r"^(\s*)((?:abbrev |unfoldable |pub )*)([^\s(){}:,.;]+)((?: [^\s(){}:,.;]+)*)\s*:( |$)")
HEADED = re.compile(r"^(\s*)(?:(?:abbrev|unfoldable|pub) )*(record|data) ([^\s(){}:,.;]+)")
NOT_A_NAME = ("use ", "mod ", "pub mod", "unfolding", "open ", "infix", "module ")


def snake(name):
    if name in OTHER:
        return OTHER[name]
    n = name.replace("-", "_").replace("\u2032", "'")
    if re.match(r"[a-z]", n):
        n = re.sub(r"(?<=[a-z0-9])([A-Z])(?=[a-z]|$)", lambda m: "_" + m.group(1).lower(), n)
    return n


def antt_files():
    for folder, dirs, files in os.walk("crates"):
        dirs[:] = sorted(d for d in dirs if d != "out")
        for f in sorted(files):
            if f.endswith(".antt"):
                yield os.path.join(folder, f)


def walks_code(path):
    return os.path.basename(path) == "Proof.antt"


def declared():
    """The names that are declared outside the proofs of single functions, and those of them that are fields of a record."""
    names, fields = set(), set()
    for path in antt_files():
        if walks_code(path):
            continue
        depth = None
        for line in open(path, encoding="utf-8"):
            text = line.split("--")[0].rstrip()
            if not text.strip():
                continue
            indent = len(text) - len(text.lstrip())
            if depth is not None and indent <= depth:
                depth = None
            head = HEADED.match(text)
            if head:
                names.add(head.group(3))
                depth = indent if head.group(2) == "record" else None
                continue
            if text.strip().startswith(NOT_A_NAME):
                continue
            said = DECLARED.match(text)
            if said:
                for name in [said.group(3)] + said.group(4).split():
                    names.add(name)
                    if depth is not None:
                        fields.add(name)
    return names, fields


def turned(text, renamed, projections):
    """`text` with its names respelled; of those behind a dot only `projections`, where that is not None."""
    def one(m):
        name = m.group(0)
        new = renamed.get(name)
        if new is None:
            return name
        behind_dot = m.start() > 0 and text[m.start() - 1] == "." and not text[:m.start() - 1].rstrip().endswith("\u03bb")
        if projections is not None and behind_dot and name not in projections:
            before = text[: m.start()]
            in_braces = before.rfind("{") > before.rfind("}") and before.lstrip().startswith("use ")
            if not in_braces:
                return name
        return new
    return TOKEN.sub(one, text)


def in_ticks(text, renamed):
    return re.sub(r"`[^`]*`", lambda m: turned(m.group(0), renamed, None), text)


def line_of(line, renamed, projections, comment):
    at = line.find(comment)
    code, rest = (line, "") if at < 0 else (line[:at], line[at:])
    return turned(code, renamed, projections) + in_ticks(rest, renamed)


def contract_lines(lines):
    """For each line of a .rt file, whether it is of a contract or an import of one."""
    depth, out = 0, []
    for line in lines:
        text = line.split("//")[0]
        begins = re.match(r"\s*(ghost |requires\b|ensures\b)", text) is not None
        if depth == 0 and not begins:
            out.append(False)
            continue
        out.append(True)
        depth += text.count("{") - text.count("}")
        depth = max(depth, 0)
    return out


def rewrite(path, new):
    with open(path, encoding="utf-8") as f:
        if f.read() == new:
            return
    with open(path, "w", encoding="utf-8") as f:
        f.write(new)


def main():
    names, fields = declared()
    renamed = {n: snake(n) for n in names if snake(n) != n}
    for path in antt_files():
        projections = fields if walks_code(path) else None
        with open(path, encoding="utf-8") as f:
            lines = f.read().split("\n")
        rewrite(path, "\n".join(line_of(x, renamed, projections, "--") for x in lines))
    for folder, dirs, files in os.walk("crates"):
        dirs[:] = [d for d in dirs if d != "out"]
        for f in files:
            path = os.path.join(folder, f)
            if f.endswith(".rt"):
                with open(path, encoding="utf-8") as h:
                    lines = h.read().split("\n")
                of = contract_lines(lines)
                rewrite(path, "\n".join(line_of(x, renamed, None, "//") if c else in_ticks(x, renamed) if "//" in x else x for x, c in zip(lines, of)))
            elif f.endswith(".edit"):
                with open(path, encoding="utf-8") as h:
                    lines = h.read().split("\n")
                rewrite(path, "\n".join(turned(x, renamed, None) if x.startswith(("old:", "new:")) else in_ticks(x, renamed) for x in lines))
    for page in ["README.md", "docs/ARCHITECTURE.md", "docs/DECISIONS.md"]:
        with open(page, encoding="utf-8") as h:
            rewrite(page, in_ticks(h.read(), renamed))
    together = collections.defaultdict(set)
    for n in names:
        together[snake(n)].add(n)
    for new, old in sorted(together.items()):
        if len(old) > 1:
            print("together:", new, sorted(old))
    print("respell:", len(renamed), "names")


if __name__ == "__main__":
    sys.exit(main())
