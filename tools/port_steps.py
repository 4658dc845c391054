#!/usr/bin/env python3
"""Brings the names of goals and steps in proofs/F/Answers.antt and Invariants.antt to the spelling of today's Rattle: a
Rust name keeps its underscores there. Run once, at the top of the repository, after tools/port_names.py."""
import glob
import re

FIXED = [
    "overflow_add", "overflow_sub", "overflow_mul", "overflow_cast", "overflow_neg", "offset_bounds", "type_inv",
    "copy_within", "saturating_add", "saturating_sub", "saturating_mul", "from_residual", "extend_from_slice",
    "from_be_bytes", "count_ones", "checked_sub", "checked_add", "as_bytes", "as_slice", "as_mut_slice", "is_none",
    "is_some", "is_ok", "is_err", "is_empty", "div_euclid", "rem_euclid", "invariant_of", "in_default", "in_ok", "in_err", "overflow_shl", "overflow_shr", "overflow_div", "unwrap_or", "copy_from_slice", "zero_divisor",
]
TOKEN = r"[^\s(){}\[\].,;:λ→×≡⊎≤]+"


def rust_names():
    names = set(FIXED)
    for path in glob.glob("crates/*/src/**/*.rt", recursive=True):
        for line in open(path, encoding="utf-8"):
            if not re.match(r"\s*(//|ghost|requires|ensures)", line):
                names |= {w for w in re.findall(r"[A-Za-z][A-Za-z0-9]*(?:_[A-Za-z0-9]+)+", line)}
    return sorted(names, key=len, reverse=True)


def main():
    names = rust_names()
    swaps = [(re.compile(r"(?<![\w])" + re.escape(n.replace("_", "-")) + r"(?![\w])"), n) for n in names]

    def turn(match):
        word = match.group()
        if "-" in word:
            for pattern, name in swaps:
                word = pattern.sub(name, word)
        return word

    for end in ("Answers", "Invariants"):
        for path in glob.glob(f"crates/*/proofs/**/{end}.antt", recursive=True):
            text = open(path, encoding="utf-8").read()
            taken = set()
            for module, listed in re.findall(r"use ([\w.'+-]+)\.\{([^}]*)\}", text):
                if not module.endswith((".Goals", ".Given")):
                    taken |= {word for item in listed.split(",") for word in item.split()}
            new = re.sub(TOKEN, lambda m: m.group() if m.group() in taken else turn(m), text)
            if new != text:
                open(path, "w", encoding="utf-8").write(new)


main()
