#!/usr/bin/env python3
"""Brings the repository's own names of definitions, facts and constructors to one spelling, after port.py.

usage: python3 tools/port_names.py    at the top of the repository, once

Functions, constants, fields and constructors of specs/ and proofs/ are written in snake case, facts and types in
upper camel case. A dash stays where it joins the names of a lemma. Names of src/ are left as they are: none of
them is in lower camel case, and no fact of the table below is named there but in a clause.
"""

import os
import re
import sys

# Facts, that is definitions of a type: the name before, the name after.
FACTS = {
    "Accepts-table": "AcceptsTable",
    "Accepts-text": "AcceptsText",
    "Behind-marker": "BehindMarker",
    "Cases-stand": "CasesStand",
    "Cases-written": "CasesWritten",
    "Front-free": "FrontFree",
    "Item_at": "ItemAt",
    "Key-shown": "KeyShown",
    "Read-bytes": "ReadBytes",
    "Read-head": "ReadHead",
    "Text-answered": "TextAnswered",
    "Text-shown": "TextShown",
    "Value-answered": "ValueAnswered",
    "Value-shown": "ValueShown",
}

# Fields of records and constructors, also where a lemma has their name as a part of its own.
WORDS = {
    "TextValue": "text_value",
    "BoolValue": "bool_value",
    "DoubleValue": "double_value",
    "IntValue": "int_value",
    "BytesValue": "bytes_value",
    "ListValue": "list_value",
    "MapValue": "map_value",
    "app-version": "app_version",
    "container-id": "container_id",
    "false-format": "false_format",
    "four-f0": "four_f0",
    "four-f4": "four_f4",
    "four-mid": "four_mid",
    "language-name": "language_name",
    "language-version": "language_version",
    "negative-fixint": "negative_fixint",
    "never-empty": "never_empty",
    "none-fits": "none_fits",
    "one-text": "one_text",
    "parent-id": "parent_id",
    "positive-fixint": "positive_fixint",
    "records-once": "records_once",
    "refuse-all": "refuse_all",
    "runtime-id": "runtime_id",
    "show-another": "show_another",
    "span-id": "span_id",
    "span-type": "span_type",
    "stop-elsewhere": "stop_elsewhere",
    "three-e0": "three_e0",
    "three-ed": "three_ed",
    "three-high": "three_high",
    "three-low": "three_low",
    "trace-id": "trace_id",
    "tracer-version": "tracer_version",
    "true-format": "true_format",
}

# Types whose constructors are named with the type before them; the constructors go to snake case.
FIELDS = ["LinkField", "EventField", "SpanField", "ChunkField", "PayloadField"]

TOKEN = re.compile(r"[^\s(){}\[\];,.:\"«»@`|]+")
CAMEL = re.compile(r"[a-z0-9][A-Z]")
WORD = re.compile("(?<![a-z0-9_])(" + "|".join(sorted(WORDS, key=len, reverse=True)) + ")(?![a-z0-9_'])")
LETTERS = re.compile(r"0x[0-9a-fA-F]+$")


def snake(word):
    return re.sub(r"([a-z0-9])([A-Z])", lambda m: m.group(1) + "_" + m.group(2), word).lower()


def respelled(token):
    if token in FACTS:
        return FACTS[token]
    if LETTERS.match(token):
        return token
    token = WORD.sub(lambda m: WORDS[m.group(1)], token)
    return "-".join(snake(part) if re.match(r"[a-z]", part) and CAMEL.search(part) else part for part in token.split("-"))


def constructors(text):
    text = re.sub(r"\b(" + "|".join(FIELDS) + r")\.([A-Z]\w*)", lambda m: m.group(1) + "." + snake(m.group(2)), text)
    block = re.compile(r"(?m)^pub data (?:" + "|".join(FIELDS) + r") : Type 0 where\n(?:  .*\n)+")
    return block.sub(lambda m: re.sub(r"(?m)^  ([A-Z]\w*)(?= :)", lambda c: "  " + snake(c.group(1)), m.group(0)), text)


def turned(path, text):
    if path.endswith(".antt"):
        text = constructors(text)
    return TOKEN.sub(lambda m: respelled(m.group(0)), text)


def files(root):
    for folder, dirs, names in os.walk(os.path.join(root, "crates")):
        dirs[:] = sorted(d for d in dirs if d != "out")
        for name in sorted(names):
            if name.endswith((".rt", ".antt")):
                yield os.path.join(folder, name)


def tokens(text):
    return set(TOKEN.findall(text))


def main():
    changed = 0
    for path in files("."):
        with open(path, encoding="utf-8") as f:
            before = f.read()
        after = turned(path, before)
        had = tokens(before)
        for token in sorted(had):
            new = respelled(token)
            if new != token and new in had:
                print(f"look: {path}: {token} becomes {new}, which stands there already")
        if after != before:
            changed += 1
            with open(path, "w", encoding="utf-8") as f:
                f.write(after)
    print(f"{changed} files respelled")


if __name__ == "__main__":
    sys.exit(main())
