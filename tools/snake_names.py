#!/usr/bin/env python3
"""tools/snake_names.py [FOLDER]: brings this repository's own definitions and lemmas to today's spelling, snake case.

Run once, right after /opt/rattle/port/port.py, at the top of the repository (or on FOLDER). It collects the names that specs/ and
proofs/ declare (definitions, lemmas, constructors, fields), and writes each in snake case, wherever it stands alone: in specs/,
proofs/, clauses, must-fail edits, tests/definitions and the pages. A dash between the parts of a lemma's name stays, and so does a
part that begins with a capital: a type or a module. Names that Rust code declares keep theirs, and no string changes.
Prints which of the new names are words already: those of functions in src/ (a definition that says what a function computes may have
its name), of lemmas in files that do not cite the definition, and, with `!`, of parameters, which would hide a definition.
"""
import os, re, sys

WORD = r"[^\s()\[\]{}.,;:\"`|@⌜⌝↦⟨⟩]+"
# Lemmas whose names a definition of the same file would get: a lemma that would have its function's name gets `_lem`.
LEMMAS = {'read_back': ('read_back_lem', 'readBack'), 'rows_on': ('rows_on_lem', 'rowsOn')}


def files(top):
    for folder, dirs, names in os.walk(os.path.join(top, 'crates')):
        dirs[:] = sorted(d for d in dirs if d != 'out')
        for name in sorted(names):
            yield os.path.join(folder, name)


def snake(name):
    """The name in snake case: each part between dashes that begins with a small letter."""
    def part(p):
        if not re.match(r'[a-z]', p):
            return p
        p = re.sub(r'(?<=[a-z0-9])([A-Z])(?=[A-Z]*[a-z0-9]|$)', lambda m: '_' + m.group(1), p)
        return p.lower()
    return '-'.join(part(p) for p in name.split('-'))


def declared(text):
    """The names that a file of specs/ or proofs/ declares."""
    for m in re.finditer(r"(?m)^[ ]*(?:abbrev |unfoldable |instance |private )*(?:pub )?(?:data |record )?(" + WORD + r")[ ]*(?:[({][^=]*?[)}][ ]*)*:(?:[ ]|$)", text):
        yield m.group(1)
    for m in re.finditer(r"(?m)^[ ]*(?:abbrev |unfoldable )*(?:pub )(?:data |record )?(" + WORD + r")\s", text):
        yield m.group(1)
    for m in re.finditer(r"(?m)^  (?:pub )?((?:[a-z]\w* )+[a-z]\w*) : [A-Z]\w*$", text):
        yield from m.group(1).split()


def main(top):
    told, words, params = set(), set(), set()
    for path in files(top):
        if not path.endswith(('.antt', '.rt')):
            continue
        text = open(path, encoding='utf-8').read()
        words |= set(re.findall(WORD, text))
        if path.endswith('.rt'):
            params |= set(re.findall(r'(?:\bmut )?([a-z_]\w*): [&\[\]A-Za-z]', text))
        if path.endswith('.antt'):
            told |= set(declared(text))
    table = {lemma: new for lemma, (new, other) in LEMMAS.items() if other in told}
    for name in sorted(told):
        new = snake(name)
        if new != name and re.match(r'[a-z]', name):
            table[name] = new
    for name, new in sorted(table.items()):
        if new in words or sorted(table.values()).count(new) > 1:
            print('together: %s and %s%s' % (name, new, ' !' if new in params else ''))
    pattern = re.compile(WORD)
    now = {table.get(name, name) for name in told}

    def turn(text):
        return pattern.sub(lambda m: table.get(m.group(0), m.group(0)), text)

    def turn_all(text):
        """Pages and edits, which port.py leaves: names that it has turned too."""
        def one(m):
            word = m.group(0)
            if word in table:
                return table[word]
            return snake(word) if re.match(r'[a-z]', word) and snake(word) in now else word
        return pattern.sub(one, text)
    changed = 0
    paths = list(files(top)) + [os.path.join(top, 'tests', 'definitions'), os.path.join(top, 'README.md')]
    for folder, _, names in os.walk(os.path.join(top, 'docs')):
        paths += [os.path.join(folder, n) for n in sorted(names) if n.endswith('.md')]
    for path in paths:
        if not (path.endswith(('.antt', '.rt', '.edit', '.md')) or path.endswith('definitions')) or '/data/' in path:
            continue
        text = open(path, encoding='utf-8').read()
        new = (turn if path.endswith(('.antt', '.rt')) else turn_all)(text)
        if new != text:
            changed += 1
            open(path, 'w', encoding='utf-8').write(new)
    print('%d names, %d files' % (len(table), changed))


if __name__ == '__main__':
    main(sys.argv[1] if len(sys.argv) > 1 else '.')
