#!/usr/bin/env python3
"""Respells the repository's own definitions and lemmas as the Prelude spells its own: words in snake case, a dash
only where it joins two names, an apostrophe for a prime. Run once, after the toolchain's own script, at the top."""
import collections
import glob
import re
import sys

SPECS = sorted(glob.glob('crates/*/specs/**/*.antt', recursive=True))
SHARED = sorted(glob.glob('crates/*/proofs/*.antt'))
OWN = sorted(glob.glob('crates/*/proofs/*/**/*.antt', recursive=True))
TOKEN = re.compile(r"[^\s(){}\[\],.:;=«»\"|`⌜⌝]+")
DEFINED = re.compile(r"^(?:(?:abbrev|pub|unfoldable) )*([^\s:(){}.]+) :(?: |$)")
SECTIONED = re.compile(r"^\s+(?:(?:abbrev|unfoldable) )?pub ([^\s:(){}.]+) :(?: |$)")
TYPE = re.compile(r"^(?:(?:abbrev|pub|unfoldable) )*(?:data|record|ruleset) (?:pub )?([^\s:(){}]+)")


# What the toolchain's script respelt by itself, for the pages and edits that it leaves as they are.
EARLIER = """
add-at add-done alike-is all-lanes all-tested all-there all-words answerOf as-many at-row atMost
begun-more below-next below-none between-is bit-high bit-not bit-past bit-word bitAt bitAt-lt bitOf
bits-below bitsOf body-below body-is bodyOf by-bytes by-difference by-field by-kind by-read by-runs
byte-flag byteOf cellAt cellOf code-is constantOf count-kept count-none countOf countOnes cut-in
cut-small cutOf digits-of drop-more edges-none entries-fit entry-more entryOf equal-is few-bits few-
bytes filled-more first-below first-body first-edge firstOf fits-in flag-is flag-one folded-fits
found-all found-at found-here found-none from-each from-first from-zero gap-is gathered-none getD-
part getD-replicate getD-tabulate group-of groupsOf has-room has-word highFirst in-bytes in-order
in-place in-step in-table inTurn index-below indexAt indexOf kindOf laid-more laid-next laid-word
lane-or lanesOf lastOf least-first least-more length-above length-part list-back low-bits lowFirst
mod-low mul-at new-meets next-last next-le next-of next-place next-row next-word nextOf none-below
none-left none-passed not-behind not-equal not-leZ not-ltZ number-append number-is number-short
number-step one-byte one-code one-more one-shl one-told one-way oneOf ones-none open-is or-same
packed-none packedAt pair-lt pairAt part-length passed-none pieces-more pieces-none place-here
place-is place-of placeOf pow-pos put-first put-next putAll raised-lt rangeOf read-back rem-value
runs-fit same-drop same-length same-row same-width scan-good second-fits small-bytes small-of small-
packed some-below some-bits some-next some-or some-same spans-fit start-first step-by step-from
step-is stored-last stored-more sum-fits take-min take-more tells-all then-found to-whole too-few
topOf trailing-even trailing-lt turn-end turned-more turned-none two-from twos-fit upTo valueOf
wide-fits wide-is width-fits widthFor widthOf within-count word-and word-fits word-lt word-mod word-
none word-of word-some wordAt words-step wordsOf
"""


def defined(path):
    """The names that a file defines at its top, with constructors and fields."""
    names = []
    inside = False
    for line in open(path, encoding='utf-8'):
        if not line[0:1].isspace():
            inside = False
        kind = TYPE.match(line)
        if kind:
            names.append(kind.group(1))
            inside = ' where' in line or 'record' in line
            continue
        found = DEFINED.match(line) or SECTIONED.match(line)
        if found:
            names.append(found.group(1))
        elif inside:
            member = re.match(r"^\s+((?:[^\s:(){}]+ )+):", line)
            if member:
                names += member.group(1).split()
    return names


def snake(word):
    """camelCase as snake_case; a type's name keeps its capital."""
    if word[:1].isupper():
        return word
    word = re.sub(r'\bgetD\b', 'get_or', word)
    word = re.sub(r'\b(le|lt)Z\b', r'\1_z', word)
    return re.sub(r'(?<=[a-z0-9])([A-Z])(?=[a-z]|$)', lambda m: '_' + m.group(1).lower(), word)


def respelt(name, words):
    """The name as it is to be: a dash stays between two names of definitions, else it is an underscore."""
    name = name.replace('′', "'")
    parts = [snake(part) for part in name.split('-')]
    out = parts[0]
    for before, after in zip(parts, parts[1:]):
        kept = (before in words and after in words) or before[:1].isupper() or after[:1].isupper()
        out += ('-' if kept else '_') + after
    return out


def main():
    names = collections.OrderedDict()
    for path in SPECS + SHARED:
        for name in defined(path):
            names.setdefault(name, path)
    local = {name for path in OWN for name in defined(path)}
    # A name counts as a definition's if it has no dash, or stands in a list of what is imported.
    words = {snake(name) for name in names if '-' not in name}
    imported = set()
    for path in SPECS + SHARED:
        for group in re.findall(r'^use Rattle\.std[^{]*\{([^}]*)\}', open(path, encoding='utf-8').read(), re.M):
            imported |= {word.strip() for word in group.split(',')}
    words |= {word for word in imported if '-' not in word}
    turned = {}
    # Definitions before lemmas: where both would have one name, the lemma's gets an ending.
    for name in sorted(names, key=lambda name: '-' in name):
        if '◌' in name or name[:1] in '<>':
            continue
        new = respelt(name, words).replace('get_d_', 'get_or-')
        if new != name:
            turned[name] = new
    # The toolchain's script gave these lemmas the names that their functions are to have.
    early = {'step_from': 'step_from_lem', 'some_below': 'some_below_lem'}
    turned.update(early)
    turned.update({'stepFrom': 'step_from', 'someBelow': 'some_below'})
    taken = (set(names) | imported) - set(turned)
    for name, new in list(turned.items()):
        if new in taken:
            new += '_lem'
            turned[name] = new
        if new in taken:
            sys.exit(f'two names fall together: {name} as {new}')
        taken.add(new)
    for name in sorted(local & set(turned)):
        # What a generated goal is called stays; such a name is told, to be looked at.
        print(f'also a goal: {name}')

    def token(match):
        return turned.get(match.group(0), match.group(0))

    code = sorted(glob.glob('crates/*/src/**/*.rt', recursive=True))
    edits = sorted(glob.glob('crates/*/must-fail/*.edit') + glob.glob('crates/*/wrong-definitions/*.edit'))
    for path in SPECS + SHARED + OWN:
        text = open(path, encoding='utf-8').read()
        goals = set(defined(path)) if path in OWN else set()
        new = TOKEN.sub(lambda m: m.group(0) if m.group(0) in goals else token(m), text)
        if new != text:
            open(path, 'w', encoding='utf-8').write(new)
    for path in code + edits:
        text = open(path, encoding='utf-8').read()
        out = []
        clause = False
        for line in text.split('\n'):
            # In code only clauses, ghost items and what a clause goes on to: Rust's own names stay.
            if path.endswith('.rt'):
                bare = line.strip()
                ghostly = bare.startswith(('ghost ', 'requires', 'ensures')) or clause
                if bare.startswith(('ghost ', 'requires', 'ensures')):
                    clause = True
                if clause and (bare.endswith((' }', ';', '};')) and line.count('{') <= line.count('}')) :
                    clause = False
                if bare in ('{', '}'):
                    clause = False
                out.append(TOKEN.sub(token, line) if ghostly and not bare.startswith('//') else line)
            else:
                out.append(TOKEN.sub(token, line) if not line.startswith('file:') else line)
        new = '\n'.join(out)
        if new != text:
            open(path, 'w', encoding='utf-8').write(new)
    # What the toolchain's script respelt in the definitions stands in edits and pages too.
    for name in EARLIER.split():
        port = snake(name.replace('getD', 'getd').replace('-', '_')).replace('getd', 'get_d')
        turned.setdefault(name, turned.get(port, port))
    turned.update({'getD': 'get_or', 'leZ': 'le_z', 'ltZ': 'lt_z'})
    for path in edits:
        text = open(path, encoding='utf-8').read()
        new = '\n'.join(line if line.startswith('file:') else TOKEN.sub(token, line) for line in text.split('\n'))
        if new != text:
            open(path, 'w', encoding='utf-8').write(new)
    pages = ['README.md'] + sorted(glob.glob('docs/*.md')) + sorted(glob.glob('docs/changes/*.md'))
    for path in pages:
        text = open(path, encoding='utf-8').read()
        new = re.sub(r'`[^`\n]+`', lambda m: TOKEN.sub(token, m.group(0)), text)
        if new != text:
            open(path, 'w', encoding='utf-8').write(new)
    for name in turned:
        print(f'{name} {turned[name]}')


main()
