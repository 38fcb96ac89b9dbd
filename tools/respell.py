#!/usr/bin/env python3
"""Brings the names that this repository declares in specs/ and proofs/ to today's spelling: words in snake case, types and modules as they are.

usage: respell.py [--dry] [ROOT]    after port.py, once, at the top of the repository.
A name is turned where a file of specs/ or proofs/ declares it: camelCase and dashes become snake_case.  Names that a file imports from
the kit's libraries, names that Rattle makes (after `tie.`) and names in src/ outside contracts keep their spelling.  Prints what falls together.
"""
import glob, os, re, sys
from collections import defaultdict

STOP = r"\s(){}\[\],;\"`"
TOKEN = re.compile(rf"[^{STOP}]+")
DECL = re.compile(rf"^\s*((?:pub |abbrev |record |data |ruleset |private |instance )*)([^{STOP}.:=|λ]+)((?:\s*[({{][^()]*[)}}])*)\s+:\s")
GROUP = re.compile(rf"^\s*(?:pub )?((?:[^{STOP}.:=|λ]+ )+): ")

RULES = re.compile(rf"^\s*(?:pub )?ruleset ([^{STOP}]+) =")
LET = re.compile(rf"\blet ([^{STOP}.:=|λ]+) =")

def snake(n):
    m = re.sub(r"(?<=[a-z0-9'])([A-Z])", lambda k: "_" + k.group(1).lower(), n) if n[0].islower() else n
    m = re.sub(r"(?<=[A-Za-z0-9'])-(?=[A-Za-z0-9])", "_", m)
    return m

# Two names that would fall together, both of specs/: one gets another name.
BY_HAND = {'in-range': 'range_held', 'comesTo': 'call_comes_to', 'below_half': 'below_half_modulus', 'answered-no': 'answer_no', 'never-named': 'named_never'}

def own(path, crates):
    parts = path.split('.')
    return len(parts) > 1 and parts[0] == 'Rattle' and parts[1] in crates

def main():
    dry = '--dry' in sys.argv
    args = [a for a in sys.argv[1:] if a != '--dry']
    root = args[0] if args else '.'
    os.chdir(root)
    crates = {l.split(':')[0].split()[0] for l in open('crates.txt') if ':' in l and not l.startswith('#')}
    antt = [p for p in glob.glob('crates/*/*/**/*.antt', recursive=True) if '/out/' not in p]
    rts = [p for p in glob.glob('crates/*/src/**/*.rt', recursive=True)]
    edits = glob.glob('crates/*/must-fail/*.edit')
    declared, foreign = defaultdict(set), defaultdict(set)
    for p in antt + rts:
        t = open(p).read()
        for m in re.finditer(r"^\s*(?:pub |ghost )*use ([\w.◌'-]+?)\.\{([^}]*)\}", t, re.M):
            if not own(m.group(1), crates) or re.search(r"\.proofs\..*\.(Tie|Goals|Statement)$", m.group(1)):
                for n in m.group(2).split(','):
                    for w in n.split(' as '):
                        foreign[w.strip()].add(p)
    for p in antt:
        for l in open(p):
            if l.lstrip().startswith('--'): continue
            m = DECL.match(l)
            if m: declared[m.group(2)].add(p)
            for k in [RULES.match(l), *LET.finditer(l)]:
                if k: declared[k.group(1)].add(p)
            m = GROUP.match(l)
            if m:
                for n in m.group(1).split():
                    if n not in ('pub', 'abbrev', 'record', 'data', 'ruleset'): declared[n].add(p)
    turn = {}
    for n in declared:
        s = snake(n)
        if s != n: turn[n] = s
    # Rattle-made names used to have dashes for the underscores of src/; today they are spelled as there.
    rust = {w for p in rts for l in open(p) if not l.lstrip().startswith('//') for w in re.findall(r"[a-z]\w*_\w+", l)}
    made = {w.replace('_', '-'): w for w in rust}
    # What falls together: the name with a dash is a lemma's, and gets _lem.
    new = defaultdict(list)
    for n, s in turn.items(): new[s].append(n)
    for s in new:
        if s in declared: new[s].append(s)
    taken = set(declared) | set(turn.values())
    for s, ns in sorted(new.items()):
        if len(ns) < 2: continue
        if any(n in BY_HAND for n in ns):
            for n in ns:
                if n in BY_HAND: turn[n] = BY_HAND[n]
            print("fall together:", s, {n: turn.get(n, n) for n in ns})
            continue
        functions = [n for n in ns if any('/specs/' in p for p in declared[n])] or [n for n in ns if '-' not in n and n != s] or [n for n in ns if '-' not in n]
        if len(functions) > 1: print("BY HAND", s, ns, [sorted(declared[n])[:3] for n in ns])
        for n in ns:
            if n not in functions[:1]:
                assert s + '_lem' not in taken, s
                turn[n] = s + '_lem'
        print("fall together:", s, {n: turn.get(n, n) for n in ns})
    total = 0
    for p in antt + rts + edits:
        t = open(p).read()
        have = set()
        for m in TOKEN.finditer(t):
            for w in m.group(0).split('.'): have.add(w)
        mine = {n for n in turn if p not in foreign[n]}
        used = {n for n in mine if n in have}
        clash = {n for n in used if turn[n] in have and turn[n] not in turn and not (p.endswith('.rt'))}
        if clash: print("stands there already:", p, {n: turn[n] for n in clash})
        def token(m):
            parts = m.group(0).split('.')
            if parts[0] == 'Rattle':
                if len(parts) > 3 and parts[-1] in mine and parts[-2][:1].isupper() and not parts[-1][:1].isupper():
                    parts[-1] = turn[parts[-1]]
                return '.'.join(parts)
            for i, w in enumerate(parts):
                core = w
                if i and parts[0] in ('tie', 'goals', 'answers', 'ties') and core not in made: continue
                if i and core in made and p.endswith('Proof.antt') and not parts[0][:1].isupper(): parts[i] = made[core]
                elif core in mine: parts[i] = turn[core]
                elif core in made and i: parts[i] = made[core]
            return '.'.join(parts)
        def line(l):
            if p.endswith('.rt'):
                if not re.search(r"^\s*(ghost|requires|ensures|\}|let|also_|invariant)|ensures|requires|ghost|≡|→", l): return l
                if l.lstrip().startswith('//'): return l
            return TOKEN.sub(token, l)
        out = ''.join(line(l) for l in t.splitlines(True))
        if out != t:
            total += 1
            if not dry: open(p, 'w').write(out)
    # The pages cite definitions in backticks.
    final = {turn.get(n, n) for n in declared} | rust
    def cited(m):
        def word(w):
            core = w.strip("'")
            if core in turn: return turn[core]
            if core in final or not re.search(r"[a-z][A-Z]|[a-z]-[a-z]", core): return w
            return snake(core) if snake(core) in final else w
        return '`' + re.sub(rf"[^\s(){{}}\[\],;\"`./:|=]+", lambda k: word(k.group(0)), m.group(1)) + '`'
    for p in ['README.md'] + glob.glob('docs/**/*.md', recursive=True):
        if not os.path.exists(p): continue
        t = open(p).read()
        out = re.sub(r"`([^`\n]+)`", cited, t)
        if out != t:
            total += 1
            if not dry: open(p, 'w').write(out)
    print(len(turn), 'names,', total, 'files')

main()
