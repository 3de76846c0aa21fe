#!/usr/bin/env python3
"""Respells the names that this repository's own definitions and lemmas have: words in snake case.

    python3 tools/respell.py [--list]

Names are those declared in .antt files of specs/ and proofs/, but for the answers to goals, which Rattle names. Functions,
types, strings and files keep their names. It is run once, at the top, after the kit's own script for an older repository."""
import pathlib, re, sys

TOP = pathlib.Path('.')

# Names that would fall together with another, or with one of std, in the same scope.
OWN = {
    'bit-and': 'bit_of_and',
    'bit-or': 'bit_of_or',
    'bit-xor': 'bit_of_xor',
    'driven-bit': 'driven_bit_below',
    'form-bits': 'form_bits_below',
    'form-at': 'form_at_index',
    'form-words': 'with_form_words',
    'in-range': 'ranges',
    'input-chars': 'input_chars_are',
    'output-chars': 'output_chars_are',
    'keeps-at': 'row_keeps_at',
    'keeps-to': 'row_keeps_to',
    'printed-by': 'written_by',
    'rows-of': 'trial_rows',
}
OWN_IN = {
    'crates/expansion/proofs/EmitLaws.antt': {'first_part': 'first_part_read', 'second-part': 'second_part_read'},
    'crates/expansion/proofs/emit/+emit/Answers.antt': {'first_part': 'first_part_read', 'second-part': 'second_part_read'},
    'crates/minimizer/proofs/KeepLaws.antt': {'all_keep': 'each_keeps'},
}
WORD = r"[A-Za-z_][A-Za-z0-9_'≢≤≡<>]*(?:-[A-Za-z0-9_'≢≤≡<>]+)*"
TOKEN = re.compile(r"(?<![A-Za-z0-9_'≢≤≡<>-])" + WORD)
HEAD = re.compile(r"^(\s*)((?:unfoldable |abbrev |pub |instance |private )*)((?:" + WORD + r"\s+)*" + WORD + r")\s+:\s(.*)$")
CONSTRUCTED = re.compile(r"^\s*(?:pub )?(?:data|record)\s")


def snake(name):
    out = name.replace('-', '_')
    out = re.sub(r'(?<=[a-z0-9])([A-Z])', lambda m: '_' + m.group(1), out)
    return out.lower() if name[0].islower() else name


def declared(path):
    names = set()
    answers = path.name in ('Answers.antt', 'Invariants.antt', 'Proof.antt')
    for line in path.read_text().split('\n'):
        if line.lstrip().startswith('--') or CONSTRUCTED.match(line):
            continue
        m = HEAD.match(line)
        if not m:
            continue
        if answers and m.group(4).startswith('goal.'):
            continue
        for name in m.group(3).split():
            if name[0].islower():
                names.add(name)
    return names


def antt_files():
    return sorted(p for p in TOP.glob('crates/*/*/**/*.antt') if p.parts[2] in ('specs', 'proofs'))


def main():
    names = set()
    for path in antt_files():
        names |= declared(path)
    turned = {n: OWN.get(n, snake(n)) for n in names if OWN.get(n, snake(n)) != n}
    # what falls together
    by = {}
    for n in names:
        by.setdefault(turned.get(n, n), set()).add(n)
    for k, v in sorted(by.items()):
        if len(v) > 1:
            print('together:', k, sorted(v))
    if '--list' in sys.argv:
        for k in sorted(turned):
            print(k, turned[k])
        return

    def put(text, own={}, generated=False):
        def one(m):
            # A value after a branch is generated's `x-is`.
            if generated and m.group(0).endswith('-is') and text[m.start() - 1 : m.start()] == '.':
                return m.group(0)
            return own.get(m.group(0), turned.get(m.group(0), m.group(0)))
        return TOKEN.sub(one, text)

    for path in antt_files():
        text = path.read_text()
        new = put(text, OWN_IN.get(str(path), {}), len(path.parts) > 4)
        if new != text:
            path.write_text(new)
    for path in sorted(TOP.glob('crates/*/src/**/*.rt')):
        text = path.read_text()
        new = ''.join(part if part.startswith('"') else put(part) for part in re.split(r'("(?:[^"\\]|\\.)*")', text))
        if new != text:
            path.write_text(new)
    for path in sorted(list(TOP.glob('*.md')) + list(TOP.glob('docs/*.md'))):
        text = path.read_text()
        new = ''.join(put(part) if part.startswith('`') else part for part in re.split(r'(`[^`\n]*`)', text))
        if new != text:
            path.write_text(new)


main()
