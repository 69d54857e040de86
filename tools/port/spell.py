"""Spells the repository's own definitions, lemmas, fields and constructors in snake case, as today's Rattle does.

    python3 tools/port/spell.py [--check]

Run once at the top, after the kit's port.py. It collects the names that the files of specs/ and proofs/ declare, in all crates, and turns each that is written in camel
case or with dashes, wherever it stands as a whole word: in .antt files, in the clauses and `ghost use` items of .rt files, in must-fail edits, in
tools/invariants, and in code spans of comments and pages. Types, modules, functions of src/ and texts in quotation marks keep their names.
Where two names would fall together, the definition has the name, and the lemma gets `_lem` behind it; what still stands twice in some file is told.
"""
import collections, glob, os, re, sys

top = os.path.dirname(os.path.dirname(os.path.dirname(os.path.abspath(__file__))))
os.chdir(top)
# a fact is named like a type
OTHER = {'allPlain': 'AllPlain'}
WORD = re.compile(r'[^\s(){}.;,@"«»\[\]`]+')
QUIET = re.compile(r'"(?:[^"\\\n]|\\.)*"|(?<![^\s(){}.;,@"«»])--[^\n]*|\{-.*?-\}', re.S)
DECLARED = re.compile(r'(?m)^[ ]*(?:(?:pub|abbrev|unfoldable|lemma|private|instance)[ ]+)*([^\s(){}.;,@"«»:]+)(?:[ ]+\{[^{}\n]*\})*[ ]*:(?=[\s])')
RULES = re.compile(r'(?m)^(?:pub )?ruleset (\S+) ?=')
MADE = re.compile(r'/proofs/(?:.*/)?Proof\.antt$')


def files(*patterns):
    for p in patterns:
        for f in sorted(glob.glob(p, recursive=True)):
            if '/out/' not in f and os.path.isfile(f): yield f


def snake(name):
    name = re.sub(r'(?<=[a-z0-9₀-₉])([A-Z])', lambda m: '_' + m[0].lower(), name)
    return re.sub(r'(?<=[^\W_])-(?=[^\W_])', '_', name)


def bare(text): return QUIET.sub(lambda m: ' ' * len(m[0]) if '\n' not in m[0] else re.sub(r'[^\n]', ' ', m[0]), text)


declared = collections.defaultdict(set)
for f in files('crates/*/specs/**/*.antt', 'crates/*/proofs/**/*.antt'):
    if MADE.search(f): continue
    t = bare(open(f, encoding='utf-8').read())
    for n in DECLARED.findall(t) + RULES.findall(t): declared[n].add(f)

table = {}
for n in declared:
    if n.startswith('◌') and n.endswith('◌'):
        inner = n.strip('◌')
        if re.search(r'[a-z][A-Z]', inner): table[n] = '◌' + snake(inner) + '◌'; table[inner] = snake(inner)
        continue
    if '◌' in n or not n[0].islower() and not n[0].isalpha(): continue
    if n[0].isupper() and '-' not in n: continue
    new = OTHER.get(n) or snake(n)
    if new != n: table[n] = new


# names that fall together: the first keeps the name, definitions of specs/ before lemmas, camel case before dashes
def rank(n): return ('-' in n, not any('/specs/' in f for f in declared[n]), n == snake(n))


FIELD = {'type_seen', 'other_scheme', 'not_facet', 'too_long', 'other_label'}
groups = collections.defaultdict(set)
for n in declared:
    if '◌' not in n and n[0].isalpha(): groups[table.get(n, n)].add(n)
for new, olds in groups.items():
    if len(olds) > 1 and new not in FIELD:
        for o in sorted(olds, key=rank)[1:]: table[o] = new + '_lem'


PATH = re.compile(r'Rattle(?:\.[^\s(){}.;,@"«»]+)+(?=\.\{| as )')


def turn(text):
    out, at = [], 0
    for m in PATH.finditer(text):
        out += [WORD.sub(lambda w: table.get(w[0], w[0]), text[at:m.start()]), m[0]]
        at = m.end()
    return ''.join(out) + WORD.sub(lambda w: table.get(w[0], w[0]), text[at:])


def spans(text, sign):
    """code spans of a text, or of a comment"""
    return re.sub(r'`[^`\n]+`', lambda m: turn(m[0]), text) if sign else text


def antt(text):
    out, at = [], 0
    for m in QUIET.finditer(text):
        out.append(turn(text[at:m.start()]))
        out.append(m[0] if m[0][0] == '"' else spans(m[0], True))
        at = m.end()
    return ''.join(out) + turn(text[at:])


CLAUSE = re.compile(r'ghost use [^;]*;|^[ ]*(?:requires|ensures)\*?(?: \w+)? \{.*\}$', re.M)


def rt(text):
    text = CLAUSE.sub(lambda m: turn(m[0]), text)
    return re.sub(r'//[^\n]*', lambda m: spans(m[0], True), text)


if __name__ == '__main__':
    clashes = 0
    news = collections.defaultdict(set)
    for o, n in table.items(): news[n].add(o)
    for f in files('crates/*/specs/**/*.antt', 'crates/*/proofs/**/*.antt', 'crates/*/src/**/*.rt'):
        t = open(f, encoding='utf-8').read()
        if f.endswith('.rt'): t = ' '.join(CLAUSE.findall(t))
        words = set(WORD.findall(bare(t)))
        for w in words & set(table):
            for o in ({table[w]} | news[table[w]]) - {w}:
                if o in words: clashes += 1; print('together:', f, w, o, '->', table[w])
    print(len(table), 'names', clashes, 'together')
    if '--check' in sys.argv: sys.exit(0)
    for f in files('crates/*/specs/**/*.antt', 'crates/*/proofs/**/*.antt'): turned = antt; s = open(f, encoding='utf-8').read(); r = antt(s); r != s and open(f, 'w', encoding='utf-8').write(r)
    for f in files('crates/*/src/**/*.rt'): s = open(f, encoding='utf-8').read(); r = rt(s); r != s and open(f, 'w', encoding='utf-8').write(r)
    for f in files('crates/*/must-fail/*.edit'):
        s = open(f, encoding='utf-8').read()
        kind = antt if re.search(r'(?m)^file: .*\.antt', s) else rt
        r = ''.join(l if l[0] == '#' else l[:5] + kind(l[5:]) if kind is antt else re.sub(r'(requires|ensures) \{.*\}', lambda m: turn(m[0]), l) for l in s.splitlines(True))
        r != s and open(f, 'w', encoding='utf-8').write(r)
    for f in files('tools/invariants/*.txt'): s = open(f, encoding='utf-8').read(); r = turn(s); r != s and open(f, 'w', encoding='utf-8').write(r)
    for f in files('README.md', 'hub/README.md', 'docs/*.md'):
        if f.endswith('PORT.md'): continue
        s = open(f, encoding='utf-8').read(); r = spans(s, True); r != s and open(f, 'w', encoding='utf-8').write(r)
