#!/usr/bin/env python3
"""Brings the repository's own definitions and lemmas to snake case. Run once, at the top, right after the port's script.

A definition floorBy becomes floor_by. In a lemma's name a dash stays between two names (of a definition, an operator, a type)
and becomes a _ before or after a plain word: times-≃ stays, floor-size becomes floor_size. Types, facts and modules keep their
capitals; names that Rattle makes (loop-k-init, returns-2) and names of src/ stay. --list prints the pairs and changes nothing.
"""
import os
import re
import sys

SPLIT = re.compile(r'([\s(){}\[\];,.])')
SIG = re.compile(r'^\s*(?:(?:abbrev|pub|unfoldable|ruleset|primitive)\s+)*([^\s:({,]+)\s+(?:[({][^\n]*?[)}]\s+)*:\s+(.*)$')
ALSO = re.compile(r'^\s*(?:pub\s+)?(?:ruleset)\s+([^\s=]+)\s*=')
PLAIN = {'mul', 'add', 'sub', 'div', 'neg', 'abs', 'max', 'min', 'length', 'append', 'map', 'take', 'drop', 'set', 'push', 'cond', 'up', 'down'}
# definitions that are plain words in a lemma's name
WORDS = {'at', 'by', 'from', 'in', 'over', 'size', 'one', 'end', 'next', 'left', 'right', 'rest', 'read', 'said', 'first', 'both', 'before', 'after'}


def texts(ends):
    for folder, dirs, files in os.walk('crates'):
        dirs[:] = sorted(d for d in dirs if d != 'out')
        for f in sorted(files):
            if f.endswith(ends):
                yield os.path.join(folder, f)


def read(path):
    with open(path, encoding='utf-8') as h:
        return h.read()


def own_names():
    """Every name that a file of specs/ or proofs/ gives a signature, and those of them that are functions of specs/."""
    names, functions = set(), set()
    for path in texts('.antt'):
        made = os.path.basename(path) in ('Answers.antt', 'Invariants.antt', 'Choices.antt', 'Proof.antt')
        for line in read(path).split('\n'):
            m = SIG.match(line)
            if m and not line.lstrip().startswith(('--', 'use ', 'let ')):
                name, kind = m.group(1), m.group(2)
                if made and re.match(r'(goal|rule|given|need|rules)\.', kind):
                    continue
                names.add(name)
                if '/specs/' in path and re.match(r'^[a-z]', name) and 'abbrev' in line.split(name)[0]:
                    functions.add(name)
            m = ALSO.match(line)
            if m:
                names.add(m.group(1))
    return names, functions


def snake(word):
    return re.sub(r'(?<=[a-zA-Z0-9])([A-Z])', lambda m: '_' + m.group(1).lower(), word)


def is_name(part, functions):
    return not re.match(r'^[a-z]', part) or (part in functions or part in PLAIN) and part not in WORDS


def respelled(name, functions):
    if re.match(r'^[A-Z]', name):
        return name
    parts = name.split('-')
    new = snake(parts[0]) if re.match(r'^[a-z]', parts[0]) else parts[0]
    for a, b in zip(parts, parts[1:]):
        joint = '-' if a and b and is_name(a, functions) and is_name(b, functions) else '_'
        new += joint + (snake(b) if re.match(r'^[a-z]', b) else b)
    return new


def new_names(names, functions):
    """A lemma that would have a definition's name gets _lem after it."""
    pairs = {n: respelled(n, functions) for n in sorted(names)}
    taken = {m for n, m in pairs.items() if '-' not in n}
    pairs = {n: m + '_lem' if '-' in n and m in taken else m for n, m in pairs.items() if n != m}
    if len(set(pairs.values())) < len(pairs) or set(pairs.values()) & names:
        sys.exit('two names fall together')
    return pairs


def of_the_library():
    """Every name that some file takes from the library."""
    found = set()
    for path in texts('.antt'):
        for m in re.finditer(r'^use (\S+)\.\{([^}]*)\}', read(path), re.M):
            if not re.match(r'Rattle\.(?!std\b)', m.group(1)):
                found |= {w.strip() for w in m.group(2).split(',')}
    return found


def fields():
    """Fields of the records of specs/."""
    found = set()
    for path in texts('.antt'):
        if '/specs/' in path:
            for m in re.finditer(r'^\s+pub\s+([^\s:]+)\s*:', read(path), re.M):
                found.add(m.group(1))
    return found


def turned(text, pairs, kept_after):
    """The text with each whole name respelled; of a comment only names with no dash."""
    undashed = {n: m for n, m in pairs.items() if '-' not in n}
    lines = []
    for line in text.split('\n'):
        code, mark, comment = line.partition('-- ')
        lines.append(turned_code(code, pairs, kept_after) + mark + turned_code(comment, undashed, set()))
    return '\n'.join(lines)


def turned_code(text, pairs, kept_after):
    """In a path that begins at c or l only names outside kept_after are respelled."""
    out, chain = [], None
    for word in SPLIT.split(text):
        if word == '.':
            out.append(word)
            continue
        if SPLIT.fullmatch(word) or word == '':
            if word != '':
                chain = None
            out.append(word)
            continue
        inside = chain in ('c', 'l') and word in kept_after
        if chain is None:
            chain = word
        out.append(word if inside else pairs.get(word, word))
    return ''.join(out)


def ghost_parts(text):
    """Cuts a .rt file into (is ghost, part): ghost imports, clauses and ghost members are ghost."""
    at = 0
    for m in re.finditer(r'ghost use [^;]*;|\b(?:requires|ensures|ghost)\b\*?[^{};()]*\{', text):
        if m.start() < at or in_comment(text, m.start()):
            continue
        end = m.end()
        if text[end - 1] == '{':
            depth = 1
            while depth:
                depth += {'{': 1, '}': -1}.get(text[end], 0)
                end += 1
        yield False, text[at:m.start()]
        yield True, text[m.start():end]
        at = end
    yield False, text[at:]


def in_comment(text, at):
    line = text[text.rfind('\n', 0, at) + 1:at]
    return '//' in line


def main():
    names, functions = own_names()
    pairs = new_names(names - of_the_library(), functions)
    if '--list' in sys.argv:
        for n in sorted(pairs):
            print(n, pairs[n])
        return
    kept = set(pairs) - fields()
    for path in texts(('.antt', '.rt')):
        old = read(path)
        if path.endswith('.antt'):
            made = os.path.basename(path) in ('Answers.antt', 'Invariants.antt', 'Choices.antt', 'Proof.antt')
            new = turned(old, pairs, kept if made else set())
        else:
            undashed = {n: m for n, m in pairs.items() if '-' not in n}
            new = ''.join(turned_code(part, pairs if ghost else undashed, set()) for ghost, part in ghost_parts(old))
        if new != old:
            with open(path, 'w', encoding='utf-8') as h:
                h.write(new)


if __name__ == '__main__':
    main()
