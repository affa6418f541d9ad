#!/usr/bin/env python3
"""tools/respell.py: run once at the top of a checkout, after the toolchain's port.py. Definitions and lemmas get the spelling of today's library, by the
table tools/names.tsv (old, tab, new): words in snake case, and `_lem` where a lemma would have its definition's name. The crate hex becomes hex_digits,
since the toolchain has a library of that name. Every crate's root asks for the check's tactics. Functions of src/, exported names, strings, inputs and
outputs stay."""
import glob
import os
import re
import subprocess

HERE = os.path.dirname(os.path.abspath(__file__))
WORD = re.compile(r'[^\s(){}.;,@"«»\[\]`◌]+')
QUOTED = re.compile(r'b?"(?:\\.|[^"\\])*"|b?\'(?:\\.|[^\'\\])\'')
SPAN = re.compile(r'`[^`\n]*`')
FENCE = re.compile(r'^```.*?^```', re.S | re.M)

with open(os.path.join(HERE, 'names.tsv'), encoding='utf-8') as file:
    TABLE = dict(line.rstrip('\n').split('\t') for line in file)


def turn(text):
    """Each word of the table, with its primes, gets its new spelling."""
    return WORD.sub(lambda m: TABLE.get(m[0].rstrip("'"), m[0].rstrip("'")) + m[0][len(m[0].rstrip("'")):], text)


def outside(pattern, text, how):
    """`how` of the text but for what the pattern finds."""
    out, at = [], 0
    for m in pattern.finditer(text):
        out += [how(text[at:m.start()]), m[0]]
        at = m.end()
    return ''.join(out + [how(text[at:])])


def hex_digits(text):
    return re.sub(r'\bhex(?=::)|(?<=\bRattle\.)hex(?=\.)|(?<=^use )hex(?=;)', 'hex_digits', text, flags=re.M)


def antt(text):
    return hex_digits(turn(text))


def rattle(text):
    return hex_digits(outside(QUOTED, text, turn))


def edit(text):
    lines = text.split('\n')
    return '\n'.join(rattle(line) if line.startswith(('old:', 'new:')) else line for line in lines)


def pages(text):
    return outside(FENCE, text, lambda part: SPAN.sub(lambda m: turn(m[0]), part))


def rewrite(pattern, how):
    for path in sorted(glob.glob(pattern, recursive=True)):
        with open(path, encoding='utf-8') as file:
            old = file.read()
        new = how(old)
        if new != old:
            with open(path, 'w', encoding='utf-8') as file:
                file.write(new)


def with_tactics(text):
    """Below the comment that heads the file."""
    if '#![tactic' in text:
        return text
    head = re.match(r'(?://[^\n]*\n)*', text)[0]
    return head + '#![tactic(auto)]\n\n' + text[len(head):].lstrip('\n')


def main():
    if os.path.isdir('crates/hex'):
        subprocess.run(['git', 'mv', 'crates/hex', 'crates/hex_digits'], check=True)
        rewrite('crates.txt', lambda text: re.sub(r'\bhex\b', 'hex_digits', text))
    rewrite('crates/*/specs/**/*.antt', antt)
    rewrite('crates/*/proofs/**/*.antt', antt)
    rewrite('crates/*/src/**/*.rt', rattle)
    rewrite('crates/*/must-fail/*.edit', edit)
    rewrite('*.md', pages)
    rewrite('docs/**/*.md', pages)
    for root in ('lib', 'main'):
        rewrite('crates/*/src/' + root + '.rt', with_tactics)


main()
