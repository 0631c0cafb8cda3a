#!/usr/bin/env python3
"""design_count.py [--list] [COMMIT]: the places of each point of the design pass in crates/*/src at a commit (HEAD).
--list prints each place. A row is a place to look at, not a verdict."""
import re, subprocess, sys, collections

args = [a for a in sys.argv[1:] if a != '--list']
listing = '--list' in sys.argv
commit = args[0] if args else 'HEAD'

def git(*a):
    return subprocess.run(['git', *a], capture_output=True, text=True, check=True).stdout

names = [n for n in git('ls-tree', '-r', '--name-only', commit).split('\n') if n]
src = {n: git('show', f'{commit}:{n}') for n in names if re.match(r'crates/\w+/src/.*\.rt$', n)}
answers = [n for n in names if re.match(r'crates/\w+/proofs/.+/(Answers|Invariants|Proof)\.antt$', n)]

def places(pattern):
    out = []
    for n, text in src.items():
        for k, line in enumerate(text.split('\n'), 1):
            if not line.strip().startswith('//') and re.search(pattern, line):
                out.append(f'{n}:{k}: {line.strip()}')
    return out

def show(label, rows):
    print(f'{len(rows):5} {label}')
    if listing:
        for r in rows: print('        ' + r)

# the functions, with their heads: name, parameters, clauses
def functions():
    for n, text in src.items():
        for m in re.finditer(r'^ *(pub(?:\(crate\))? )?fn (\w+)(?:<[^>]*>)?\((.*?)\)\s*(?:-> [^{]*?)?\n((?:\s+(?:requires|ensures)[^\n]*\n)*)\s*\{', text, re.M | re.S):
            yield n, m.group(2), m.group(3), m.group(4)

print('point 1')
shaped = []
for n, text in src.items():
    for m in re.finditer(r'enum (\w+)[^{]*\{(.*?)\n\}', text, re.S):
        variants = re.findall(r'^    (\w+)', m.group(2), re.M)
        if len(variants) <= 3 and any(v in ('Refused', 'RefusedAt', 'Nothing', 'Unreduced', 'Failed', 'None', 'End', 'Bad', 'Full', 'Good') for v in variants):
            shaped.append(f'{n}: {m.group(1)} {{{", ".join(variants)}}}')
        elif 'Refused' in variants or 'RefusedAt' in variants:
            shaped.append(f'{n}: {m.group(1)} {{{", ".join(variants)}}}')
show('enums of the shape of Option or Result, or with refusals among their cases', shaped)
show('constants that number refusals', places(r'^pub const [A-Z]+: u8'))
show('lines that name a refusal by a constant, or take or make a check by hand', places(r'\brefusal::[A-Z]{2,}\b(?<!MAX)(?!_)|Check::|\bpass_if\b|Checked::|Refused(At)?\('))
print('point 2')
body = re.compile(r'\b[a-z_]\w*\b')
def shape(lines):
    seen = {}
    return tuple(re.sub(r"[\w']+", lambda m: m.group(0) if m.group(0) in ('let', 'if', 'fn', 'return', 'match', 'for', 'while') else str(seen.setdefault(m.group(0), len(seen))), l) for l in lines)
at = collections.defaultdict(list)
for n, text in src.items():
    for m in re.finditer(r'^( *)(?:pub(?:\(crate\))? )?fn (\w+)[^\n]*(?:\n(?!\1\})[^\n]*)*\n\1\}', text, re.M):
        whole = m.group(0)
        k = whole.find('\n' + m.group(1) + '{')
        lines = [l.strip() for l in whole[k:].split('\n') if l.strip() and not l.strip().startswith('//')]
        if len(lines) >= 6: at[shape(lines)].append(f'{n}: {m.group(2)}')
show('groups of functions of six lines or more whose bodies have one shape', [' = '.join(v) for v in at.values() if len(v) > 1])
print('point 3')
show('`while` loops', places(r'^\s*while '))
show('`loop`s', places(r'^\s*loop \{'))
print('point 4')
tests = []
for n, text in src.items():
    for m in re.finditer(r'fn (\w+)\([^)]*\)[^{]*(?:\n[^{\n]*\{[^\n]*\})*\n *\{\s*match \w+ \{((?:\s*[\w:]+(?:\(_\))? => (?:true|false|\d+),)+)\s*\}', text):
        tests.append(f'{n}: {m.group(1)}')
show('functions that write out equality, order or a number of an enum', tests)
show('conversions and operators as methods', places(r'fn (to_u32|to_u64|from_u32|add|sub|mul|neg|eq)\((self|x|a)\b'))
show('structs and enums that derive no more than Clone and Copy', places(r'^#\[derive\(Clone, Copy\)\]'))
print('point 5')
facts, groups = collections.defaultdict(set), collections.defaultdict(set)
for n, name, params, clauses in functions():
    for c in re.findall(r'(?:requires|ensures)(?: \w+)? \{ (.*) \}', clauses):
        for f in re.split(r' × ', c):
            f = f.strip('() ')
            if '≤' in f or '<' in f or '≡ true' in f: facts[f].add(f'{n}: {name}')
    ps = [re.sub(r'\s+', ' ', p.strip()) for p in params.split(',') if ':' in p]
    for i in range(len(ps)):
        for j in range(i + 3, len(ps) + 1): groups[', '.join(ps[i:j])].add(f'{n}: {name}')
show('facts in the clauses of three functions or more', [f'{f}: {len(v)}' for f, v in facts.items() if len(v) >= 3])
best = {g: v for g, v in groups.items() if len(v) >= 3}
best = {g: v for g, v in best.items() if not any(g != h and g in h and len(w) >= len(v) for h, w in best.items())}
show('runs of three parameters or more that three functions or more share', [f'{g}: {len(v)}' for g, v in best.items()])
print('point 6')
show('fields that hold an array', places(r'^    (pub )?\w+: \[\w+; \w+\],'))
show('fields that count', places(r'^    (pub )?\w*(count|len|length): (usize|u32),'))
print('point 7')
show('`match` on an op, a kind or what is next', places(r'match (self\.|\w+\.)?(op|kind|next|mode)\b'))
show('closures, `impl Fn`, `dyn`', places(r'\|\w+(: [^|]*)?\| |impl Fn|dyn '))
print('point 8')
lines = sum(len(git('show', f'{commit}:{n}').splitlines()) for n in answers)
print(f'{len(answers):5} files of answers and invariants, {lines} lines')
