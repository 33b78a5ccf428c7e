#!/usr/bin/env python3
"""Respells the repository's own definitions, lemmas, fields and variables in snake case, once, behind the kit's port.py.

usage: tools/respell.py [FOLDER]    FOLDER is a checkout, this one if it is left out

What turns: in specs/ and proofs/ each name that begins with a small letter and is not imported from a library; in src/ the same
in 'ghost use' items and clauses; in comments the same names. What stays: types and modules, names of libraries, of the source
and of what the prover makes of it (behind 'tie.' and 'c.'), strings, and every name of RUST below.
It stops, and writes nothing, where two names of one file would fall together.
"""

import os
import re
import sys

LIBRARIES = ("std", "core", "std_alloc", "std_collections", "std_heap", "std_io", "io", "os", "libc", "bytes")
# Lemmas that would be called like a definition or a field, and what they are called instead.
INSTEAD = {
    "account-known": "account_is_known",
    "balance-length": "length_of_balance",
    "card-fits": "card_does_fit",
    "card-given": "card_given_is",
    "card-read": "card_read_is",
    "card-shown": "card_shown_is",
    "code-known": "code_is_known",
    "commit-counter": "counter_of_commit",
    "commit-time": "time_of_commit",
    "day-lines": "lines_of_day",
    "end-length": "length_of_end",
    "end-time": "time_of_end",
    "event-length": "length_of_event",
    "first-ahead": "first_pair_ahead",
    "first-free": "first_free_is",
    "has-state": "has_state_still",
    "has-writes": "has_writes_true",
    "has-written": "was_written",
    "in_order": "is_in_order",
    "is-charge": "is_charge_true",
    "judge-due": "judge_is_due",
    "kept_field": "field_kept",
    "line-length": "length_of_line",
    "lines-within": "over_lines_within",
    "look-refused": "look_refused_is",
    "newest-in-time": "newest_still_in_time",
    "newest-true": "newest_still_true",
    "number-known": "number_is_known",
    "parent-stays": "parent_does_stay",
    "parents-after": "parents_after_are",
    "queue-empty": "queue_is_empty",
    "queue-length": "length_of_queue",
    "read-entry": "entry_read",
    "refused-length": "length_of_refused",
    "revealed-table": "table_revealed",
    "rule_fits": "rule_does_fit",
    "serially-told": "serially_told_is",
    "shadow-fits": "fits_shadow",
    "starts_from": "begins_from",
    "sub-time": "sub_time_same",
    "sum-given": "sum_given_is",
    "sum_over": "sum_of_over",
    "text-of-report": "report_text",
    "time-left": "time_is_left",
    "was-live": "live_before",
    "write-entry": "entry_written",
}

WORD = re.compile(r"[^\s(){}.;,@\"«»\[\]|]+")
USE = re.compile(r"\b(?:ghost )?use ([^\s;{]+?)\.?(?:\{([^;}]*)\})?(?= as |[;\s]|$)", re.M)
COMMENT = re.compile(r"(?<![^\s(){}.;,])--[^\n]*|\{-.*?-\}", re.S)
RUST_COMMENT = re.compile(r"//[^\n]*")
FIELD = re.compile(r"^ +(?:pub )?([a-z][^\s(){}.;,:]*) :", re.M)
DECLARED = re.compile(r"^ *(?:(?:pub|abbrev|unfoldable|private) +)*([a-z][^\s(){}.;,:]*) :", re.M)
VARIABLE = re.compile(r"\b([a-z_][a-z0-9_]*): |\blet (?:mut )?([a-z_][a-z0-9_]*)|\bfor ([a-z_][a-z0-9_]*) in")
HUMP = re.compile(r"(?<=[a-z0-9])[A-Z]")


def in_snake_case(name):
    return INSTEAD.get(name) or HUMP.sub(lambda m: "_" + m[0].lower(), name).replace("-", "_")


def is_candidate(word):
    """A name that begins with a small letter and is no operator, in another spelling than snake case."""
    if not re.match(r"[a-z]", word) or "◌" in word:
        return False
    return bool(HUMP.search(word)) or "-" in word


def files(top):
    for folder, dirs, names in os.walk(os.path.join(top, "crates")):
        dirs[:] = sorted(d for d in dirs if d not in ("out", ".git"))
        for name in sorted(names):
            if name.endswith((".antt", ".rt")):
                yield os.path.join(folder, name)


def is_own(path):
    steps = path.split(".")
    return steps[0] == "Rattle" and len(steps) > 1 and steps[1] not in LIBRARIES


def of_this_repository(text):
    """The names in snake case that the file declares, or brings in from this repository."""
    found = set(re.findall(r"(?m)^ *(?:(?:pub|abbrev|unfoldable) +)*([a-z][a-z0-9_]*) :", text))
    for path, items in USE.findall(text):
        if is_own(path) and "declared" not in path:
            found.update(WORD.findall(items))
    return found


def of_libraries(text):
    """The names that the file brings in from libraries."""
    found = set()
    for path, items in USE.findall(text):
        if not is_own(path):
            found.update(WORD.findall(items))
    return found


class Turner:
    def __init__(self, texts):
        self.fields, self.declared = set(), set()
        for name, text in texts.items():
            if name.endswith(".antt"):
                self.fields.update(n for n in FIELD.findall(text) if is_candidate(n))
                self.declared.update(n for n in DECLARED.findall(text) if is_candidate(n))
        self.clashes = []

    def turned(self, text, where):
        theirs = of_libraries(text)
        is_antt = where.endswith(".antt")
        comment = COMMENT if is_antt else RUST_COMMENT
        made = "Tie as tie" in text
        seen = {}
        ours = of_this_repository(text) if is_antt else set()
        variables = {n for it in VARIABLE.findall(text) for n in it if n}

        def one(word, before):
            """word as it is to be, in code; before is the text before it."""
            if word in ours and word in INSTEAD and not before.endswith("."):
                return INSTEAD[word]
            if not is_candidate(word) or word in theirs:
                return word
            if before.endswith("."):
                chain = re.search(r"[^\s(){};,@\"«»\[\]|]*\.$", before)[0]
                if "-" in word:
                    if chain.startswith("tie.") or (word not in self.fields and not chain.startswith("Rattle.")):
                        return word
                elif word not in self.declared:
                    return word
            elif not is_antt and "-" in word:
                return word if word not in self.declared else in_snake_case(word)
            return in_snake_case(word)

        def code(part, start):
            def turn(m):
                new = one(m[0], text[: start + m.start()][-200:])
                if not (text[: start + m.start()].endswith(".")):
                    seen.setdefault(new, set()).add(m[0])
                return new
            return WORD.sub(turn, part)

        def prose(part):
            return WORD.sub(lambda m: in_comment(m[0]), part)

        def in_comment(word):
            core = word.strip("`':*")
            if core and is_candidate(core) and core in self.declared and (HUMP.search(core) or "`" + core + "`" in word):
                return word.replace(core, in_snake_case(core))
            return word

        out, at = [], 0
        for m in comment.finditer(text):
            out.append(code(text[at : m.start()], at))
            out.append(prose(m[0]))
            at = m.end()
        out.append(code(text[at:], at))
        for new, olds in sorted(seen.items()):
            if len(olds) > 1 and (is_antt or new in variables):
                self.clashes.append(f"{where}: {', '.join(sorted(olds))} would all be {new}")
        return "".join(out)


def main():
    top = sys.argv[1] if len(sys.argv) > 1 else os.path.join(os.path.dirname(os.path.abspath(__file__)), "..")
    texts = {}
    for name in files(top):
        with open(name, encoding="utf-8") as f:
            texts[name] = f.read()
    turner = Turner(texts)
    new = {name: turner.turned(text, os.path.relpath(name, top)) for name, text in texts.items()}
    if turner.clashes:
        print("\n".join(turner.clashes))
        raise SystemExit(f"{len(turner.clashes)} clashes; nothing was written")
    changed = 0
    for name, text in new.items():
        if text != texts[name]:
            changed += 1
            with open(name, "w", encoding="utf-8") as f:
                f.write(text)
    print(f"{changed} files respelled, {len(turner.declared)} names of this repository")


main()
