"""Writes the answers of functions: each goal of FN that the check does not find alone is answered by `search RULESET`, in proofs/FN/Answers.antt of the crate.

    python3 tools/answers.py CRATE FN[=RULESET] ..

FN is named by its path below src/, as `skips::line_end`. What only the author knows stays as it stands in the files: Invariants.antt, answers of more than a search, and which ruleset
answers a goal of which name. A goal that is new gets RULESET, or else the ruleset that most answers of the file have, or else `laws` of proofs/Laws.antt.
Run it again when the goals of a function change (a call or a branch more).
"""
import collections, glob, os, re, subprocess, sys

crate = sys.argv[1]
top = os.path.join(os.path.dirname(os.path.dirname(os.path.abspath(__file__))), 'crates', crate)


def parts(text):
    """The import lines of a file, and its other items by name, comments before them left out."""
    uses = re.findall(r'(?m)^use .*$', text)
    items = re.findall(r'(?m)^(?:pub )(\S+) : goal\.\S+\n((?:(?!pub |use |--|\n\n).*\n?)+)', text)
    return uses, {name: body.rstrip() for name, body in items}


def home(ruleset):
    """The file of the crate's laws that has a ruleset."""
    for f in sorted(glob.glob(os.path.join(top, 'proofs', '*.antt'))):
        if re.search(rf'(?m)^pub ruleset {re.escape(ruleset)}\b', open(f).read()): return os.path.basename(f)[:-5]
    return 'Laws'


def named(line):
    m = re.search(r'\{(.*)\}', line)
    return [w.strip() for w in m[1].split(',')] if m else [line.split(' as ')[-1].strip()]


for word in sys.argv[2:]:
    name, _, given = word.partition('=')
    path = name.split('::')
    folder = os.path.join(top, 'proofs', *path)
    file = os.path.join(folder, 'Answers.antt')
    text = open(file).read() if os.path.exists(file) else ''
    uses, old = parts(text)
    helpers = re.findall(r'(?m)^(?!pub |use |--)(\S+ : .*\n(?:(?!pub |use |--).*\n?)*)', text)
    if text: os.remove(file)
    said = subprocess.run(['rt', 'check', '--start', name], cwd=top, stdout=subprocess.PIPE, stderr=subprocess.STDOUT, text=True).stdout
    if not os.path.exists(file):
        if 'started=1' not in said and text: open(file, 'w').write(text)
        print(name, 'no goal is left' if 'started=' in said else said[-1500:])
        continue
    new = re.findall(r'(?m)^pub (\S+) : goal\.', open(file).read())
    rulesets = [m[1] for m in (re.fullmatch(r'\S+ c = search (\S+)', b) for b in old.values()) if m]
    ruleset = given or (collections.Counter(rulesets).most_common(1) or [('laws', 0)])[0][0]
    body = '\n'.join(h.rstrip() + '\n' for h in helpers)
    for goal in new:
        body += f'\npub {goal} : goal.{goal}\n' + old.get(goal, f'{goal} c = search {ruleset}') + '\n'
    words = set(re.findall(r'[^\s(){},;]+', body))
    lines = []
    for u in uses:
        if '.Goals as goal' in u: continue
        m = re.match(r'(use [^{]*\.)\{(.*)\}$', u)
        if m:
            kept = [w.strip() for w in m[2].split(',') if w.strip() in words or '◌' in w]
            if kept: lines.append(f'{m[1]}{{{", ".join(kept)}}}')
        else: lines.append(u)
    have = {w for u in lines for w in named(u)}
    for r in sorted({m for m in re.findall(r'search (\w[\w-]*)', body)} - have):
        lines.append(f'use Rattle.{crate}.proofs.{home(r)}.{{{r}}}')
    lines.append(f'use Rattle.{crate}.proofs.{".".join(path)}.Goals as goal')
    open(file, 'w').write('\n'.join(lines) + '\n' + ('\n' if not body.startswith('\n') else '') + body)
    print(name, len(new), 'goals are left')
subprocess.run(['rt', 'fmt'], cwd=top, stdout=subprocess.DEVNULL, stderr=subprocess.DEVNULL)
