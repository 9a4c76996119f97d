#!/usr/bin/env python3
"""Brings the repository's own antt names to the library's spelling, by text, once, after the port's scripts.

It was run once (docs/PORT.md) and is kept so that the step can be made again from the same commit; on files that it has turned it would go on turning.

usage: respell.py [--dry] [--table FILE]      at the top of the repository; FILE has spellings that were chosen before, old TAB new a line

 - a definition in camelCase becomes snake_case (`entryFor`: `entry_for`); one whose value is a type is a fact and becomes UpperCamelCase
 - in a name with dashes a dash stays where both sides are names of definitions (`length-filled`), and is `_` where a side is a plain word
   (`clear-start`: `clear_start`); a record's field has `_` throughout; `getD` inside a name is `get_or`
 - functions, types and fields of .rt files keep their names, and so does a name that a file imports from outside the repository
A new name that is taken already leaves the old one, with a line `left:`. Words in .antt files, clauses of .rt files, must-fail edits and
backquotes of .md files are turned.
"""
import glob, os, re, subprocess, sys

dry = '--dry' in sys.argv
crates = [l.split(':')[0].split()[0] for l in open('crates.txt') if ':' in l and not l.startswith('#')]
antt = [f for c in crates for f in glob.glob(f'crates/{c}/specs/**/*.antt', recursive=True) + glob.glob(f'crates/{c}/proofs/**/*.antt', recursive=True)]
rt = [f for c in crates for f in glob.glob(f'crates/{c}/src/**/*.rt', recursive=True)]
edits = glob.glob('crates/*/must-fail/*.edit')
pages = [f for f in subprocess.run(['git', 'ls-files', '*.md'], capture_output=True, text=True).stdout.split('\n') if f]
WORD = r"[^\s(){}.;,@\"«»\[\]`]+"
texts = {f: open(f, encoding='utf-8').read() for f in antt + rt + edits + pages}

# what is declared, and what is a field or a type
declared, fields, facts, in_specs = set(), set(), set(), set()
for f in antt:
    if re.search(r'/proofs/(.*/)?(Answers|Invariants|Proof)\.antt$', f): continue
    inside = None
    lines = texts[f].split('\n')
    for i, line in enumerate(lines):
        m = re.match(r'( *)(?:abbrev |unfoldable |pub )*(record|data|module) (\S+)', line)
        if m:
            inside = (m.group(2), len(m.group(1)))
            if m.group(3) != '_' and m.group(2) != 'module': declared.add(m.group(3)); facts.add(m.group(3))
            continue
        m = re.match(r'( *)((?:abbrev |unfoldable |pub )*)(' + WORD + r')((?: \{[^{}]*\})*) :(?:\s|$)', line)
        if not m or line.lstrip().startswith('--'): continue
        if inside and len(m.group(1)) <= inside[1]: inside = None
        word = m.group(3)
        if word.startswith('invariant-') or word.startswith('decreases-') or not re.match(r'[A-Za-z]', word): continue
        declared.add(word)
        if '/specs/' in f: in_specs.add(word)
        if inside and inside[0] == 'record': fields.add(word)
        elif re.search(r'(?:^|[:→] ?)\s*Type [01]\s*$', line): facts.add(word)

# what comes from outside, and the names of Rust's items
outside, rust = set(), set()
for f in antt + rt:
    for m in re.finditer(r'\buse ([^\s;{]+)\.\{([^}]*)\}', texts[f]):
        own = re.match(r'Rattle\.(\w+)\.', m.group(1))
        if own and own.group(1) in crates and '.contracts.' not in m.group(1) and '.declared.' not in m.group(1): continue
        outside |= {w.strip().split(' as ')[0] for w in m.group(2).split(',')}
for f in rt:
    rust |= set(re.findall(r'\b(?:fn|struct|enum|const|mod|trait|type) (\w+)', texts[f]))
    rust |= set(re.findall(r'\b([a-z_]\w*): ?[&\[\w]', texts[f]))

known = declared | outside | {'set', 'get_or', 'map', 'length', 'take', 'drop', 'replicate', 'append'}
def snake(w): return re.sub(r'(?<=[a-z0-9])([A-Z])', lambda m: '_' + m.group(1).lower(), w)
def part(w): return 'get_or' if w == 'getD' else w
def new_name(w):
    if w in fields: return snake(w.replace('-', '_'))
    ps = [part(p) for p in w.split('-')]
    if len(ps) == 1:
        if w in facts: return w[0].upper() + re.sub(r'[_-](\w)', lambda m: m.group(1).upper(), w[1:]) if w[0].islower() else w
        return snake(w) if w[0].islower() else w
    out = ps[0]
    is_name = lambda p: p in known or snake(p) in known
    made = lambda p: (p if p[0].isupper() or p in facts else snake(p))
    if ps[0] in facts and ps[0][0].islower(): out = ps[0][0].upper() + ps[0][1:]
    else: out = made(ps[0])
    for a, b in zip(ps, ps[1:]):
        nb = b[0].upper() + b[1:] if b in facts and b[0].islower() else made(b)
        out += ('-' if is_name(a) and is_name(b) else '_') + nb
    return out

table = {}
if '--table' in sys.argv:
    for l in open(sys.argv[sys.argv.index('--table') + 1], encoding='utf-8'):
        if '\t' in l: table[l.split('\t')[0]] = l.split('\t')[1].strip()
for w in sorted(declared, key=lambda w: ('-' in w, w)):
    if w in table: continue
    n = new_name(w)
    if n == w: continue
    if w in outside or w in rust and w == w.lower(): print(f'left: {w}: a name of Rust or of a library too'); continue
    if '-' in w and n in table.values(): n += '_lem'          # the definition has the name
    if n in declared and w in in_specs and n not in in_specs and n not in rust: table[n] = n + '_lem'          # a lemma had it
    elif n in declared or n in outside or n in table.values(): print(f'left: {w}: {n} is taken'); continue
    table[w] = n
pat = re.compile(r"(?<![^\s(){}.;,@\"«»\[\]`])(" + '|'.join(sorted(map(re.escape, table), key=len, reverse=True)) + r")(?![^\s(){}.;,@\"«»\[\]`])")
# a crate's name in a path stays
word = lambda m: m.group(1) if re.search(r'Rattle\.$', m.string[max(0, m.start() - 7):m.start()]) else table[m.group(1)]
ticked = lambda s: re.sub(r'`[^`\n]+`', lambda m: m.group(0) if m.group(0)[1:-1].split('/')[0] in crates else pat.sub(word, m.group(0)), s)
def code_alone(t, mark, turn):
    """Turns a text's code; in comments only what stands in backquotes"""
    out = []
    for line in t.split('\n'):
        at = 0 if line.startswith(mark) else line.find(' ' + mark)
        out.append(turn(line) if at < 0 else turn(line[:at]) + ticked(line[at:]))
    return '\n'.join(out)
changed = 0
for f, t in texts.items():
    if f.endswith('.md'): n = ticked(t)
    elif f.endswith('.antt'): n = code_alone(t, '--', lambda s: pat.sub(word, s))
    elif f.endswith('.edit'): n = pat.sub(word, t)
    else: n = re.sub(r'\{[^{}]*\}|ghost use [^;]*;|\bghost [^\n]*|//[^\n]*', lambda m: ticked(m.group(0)) if m.group(0).startswith('//') else pat.sub(word, m.group(0)), t)
    if n != t:
        changed += 1
        if not dry: open(f, 'w', encoding='utf-8').write(n)
for w in sorted(table): print(f'{w}\t{table[w]}')
print(f'{len(table)} names, {changed} files')
