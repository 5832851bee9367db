"""The reader of programs and goals in Python, written from documents 01 and 02 apart from the proved code, and what the two
programs print of an input, with the run and the check of tests/model.py.

A text is bytes. A program that was read is its kinds (name: number of terms, weight), its constants and its rules, each a dict
with its name, the number of its R line, and its J, H, B and E lines as lists of fields without their letter. Constants that are
equal (model.same) count once.
"""
import re
import model

NAME = re.compile(rb'[a-z0-9]{1,8}\Z')
TERM = re.compile(rb'([a-z0-9]{1,8}|[A-Z])\Z')
OTHER = re.compile(rb'[^a-z0-9A-Z,\n]')
TEXT, LINE, KINDS, RULES, HEADS, BODY, EQUATIONS, GOAL, CONSTANTS, WEIGHT = 16384, 80, 32, 32, 4, 6, 4, 64, 64, 512
# The letters that may stand behind a line of a letter; at the start of a text as behind a K line.
BEHIND = {'K': 'KR', 'R': 'RJHBE', 'J': 'RJHBE', 'H': 'RHBE', 'B': 'RBE', 'E': 'RE'}


def numbered(text):
    """The lines, each with its number and whether its line feed is there."""
    parts = text.split(b'\n')
    lines = [(i + 1, line, True) for i, line in enumerate(parts[:-1])]
    return lines + ([(len(parts), parts[-1], False)] if parts[-1] else [])


def broken(line, ended):
    return not ended or not line or len(line) > LINE or OTHER.search(line)


def in_range(field, low, high):
    return re.match(rb'(0|[1-9][0-9]*)\Z', field) and len(field) < 3 and low <= int(field) <= high


def widened(constants, terms):
    """The constants so far with those of a line."""
    for constant in [term.decode() for term in terms if NAME.match(term)]:
        if not any(model.same(constant, other) for other in constants):
            constants = constants + [constant]
    return constants


def kind_line(fields, kinds):
    """The number that a K line meets, or 0."""
    if len(fields) != 4 or not NAME.match(fields[1]) or not in_range(fields[2], 0, 4) or not in_range(fields[3], 1, 31):
        return 4
    return 5 if fields[1] in kinds else 7 if len(kinds) == KINDS else 0


def rule_line(fields, rules):
    """The number that an R line meets, or 0."""
    if len(fields) != 2 or not NAME.match(fields[1]):
        return 4
    return 5 if any(fields[1] == r['name'] for r in rules) else 7 if len(rules) == RULES else 0


def equation_line(fields, rule, constants):
    """The number that an E line meets, or 0, and the constants after it."""
    if len(fields) != 3 or not all(TERM.match(f) for f in fields[1:]):
        return 4, constants
    after = widened(constants, fields[1:])
    return (7 if len(rule['E']) == EQUATIONS or len(after) > CONSTANTS else 0), after


def constraint_line(fields, kinds, constants, full):
    """The number that a J, H, B or G line meets, or 0, and the constants after it."""
    if not 2 <= len(fields) <= 6 or not NAME.match(fields[1]) or not all(TERM.match(f) for f in fields[2:]):
        return 4, constants
    if fields[1] not in kinds or kinds[fields[1]][0] != len(fields) - 2:
        return 6, constants
    after = widened(constants, fields[2:])
    return (7 if full or len(after) > CONSTANTS else 0), after


def is_full(rule, letter):
    """Whether a rule has as many lines of a letter as it may: J and H lines count together."""
    return len(rule['B']) == BODY if letter == 'B' else len(rule['J']) + len(rule['H']) == HEADS


def judged(kinds, rules):
    """(8 or 9, the R line) of the first rule at fault, or None."""
    for r in rules:
        if not r['H']:
            return 8, r['line']
        if sum(kinds[f[0]][1] for f in r['H']) <= sum(kinds[f[0]][1] for f in r['B']):
            return 9, r['line']


def program(text):
    """(number, line) of the refusal, or (0, kinds, constants, rules)."""
    if len(text) > TEXT:
        return 1, 0
    kinds, rules, constants, place = {}, [], [], 'K'
    for n, line, ended in numbered(text):
        if broken(line, ended):
            return 2, n
        fields = line.split(b',')
        letter = fields[0].decode('latin-1')
        if len(letter) != 1 or letter not in BEHIND[place]:
            return 3, n
        if letter == 'K':
            number = kind_line(fields, kinds)
        elif letter == 'R':
            number = rule_line(fields, rules)
        elif letter == 'E':
            number, constants = equation_line(fields, rules[-1], constants)
        else:
            number, constants = constraint_line(fields, kinds, constants, is_full(rules[-1], letter))
        if number:
            return number, n
        if letter == 'K':
            kinds[fields[1]] = int(fields[2]), int(fields[3])
        elif letter == 'R':
            rules.append({'name': fields[1], 'line': n, 'J': [], 'H': [], 'B': [], 'E': []})
        else:
            rules[-1][letter].append(fields[1:])
        place = letter
    return judged(kinds, rules) or (0, kinds, constants, rules)


def goal(text, kinds, constants):
    """(number, line) of the refusal, or (0, 0)."""
    if len(text) > TEXT:
        return 1, 0
    weight = count = 0
    for n, line, ended in numbered(text):
        if broken(line, ended):
            return 2, n
        fields = line.split(b',')
        if fields[0] != b'G':
            return 3, n
        number, constants = constraint_line(fields, kinds, constants, count == GOAL)
        if number:
            return number, n
        count, weight = count + 1, weight + kinds[fields[1]][1]
    return (10, 0) if weight > WEIGHT else (0, 0)


def modelled(kinds, rules):
    """Kinds, rules and the rules' names as tests/model.py has them."""
    def facts(lines):
        return [fact(kinds, fields) for fields in lines]
    return ([(k.decode(),) + kinds[k] for k in kinds],
            [model.Rule(facts(r['J']), facts(r['H']), facts(r['B']), [[f.decode() for f in e] for e in r['E']]) for r in rules],
            [r['name'].decode() for r in rules])


def fact(kinds, fields):
    """A fact as tests/model.py has it: its kind's number and its terms."""
    return list(kinds).index(fields[0]), [f.decode() for f in fields[1:]]


def parted(text):
    """The program and the goal of an input of `sheetrun`: the first line GOAL parts them."""
    at = 0 if text.startswith(b'GOAL\n') else text.find(b'\nGOAL\n') + 1
    return (text[:at], text[at + 5:]) if text.startswith(b'GOAL\n') or at else (text, b'')


def answer(text, with_goal):
    """What `sheetrun` prints of an input, or `sheetcheck`."""
    front, behind = parted(text) if with_goal else (text, b'')
    read = program(front)
    if read[0]:
        return b'REFUSED,%d,S,%d\n' % read
    number, line = goal(behind, read[1], read[2])
    if number:
        return b'REFUSED,%d,G,%d\n' % (number, line)
    kinds, rules, names = modelled(read[1], read[3])
    if not with_goal:
        return model.check(kinds, rules, names)[0].encode()
    return model.run(kinds, rules, [fact(read[1], line.split(b',')[1:]) for line in behind.split(b'\n')[:-1]]).encode()


def paged(text):
    """The pages of a program's text, or the line of its refusal."""
    said = answer(text, False)
    return said if said.startswith(b'REFUSED') else model.pages(said.decode()).encode()
