#!/usr/bin/env python3
"""Counts the places that docs/DESIGN-PASS.md speaks of, in the sources of the crates as they stand, or as they stood at a commit.

usage: python3 tools/count_places.py [COMMIT] [--list POINT]     (POINT is one of the keys that the table begins its lines with)
"""
import re
import subprocess
import sys
from collections import defaultdict

ARGS = [a for a in sys.argv[1:] if not a.startswith('--')]
LISTED = sys.argv[sys.argv.index('--list') + 1] if '--list' in sys.argv else None
COMMIT = next((a for a in ARGS if a != LISTED), None)


def files():
    """Path and text of every file below crates/."""
    if COMMIT:
        names = subprocess.check_output(['git', 'ls-tree', '-r', '--name-only', COMMIT, 'crates'], text=True).split('\n')
        show = lambda n: subprocess.check_output(['git', 'show', f'{COMMIT}:{n}'], text=True)
    else:
        names = subprocess.check_output(['git', 'ls-files', '-co', '--exclude-standard', 'crates'], text=True).split('\n')
        def show(n):
            try:
                return open(n).read()
            except FileNotFoundError:
                return ''
    return {n: show(n) for n in names if n.endswith(('.rt', '.antt'))}


FILES = files()
# Programs and the exported staticlib are the edge: counted apart by --edge only, since a C signature and a test vector are as they are.
SOURCES = {n: t for n, t in FILES.items() if re.match(r'crates/[^/]+/src/.*\.rt$', n)}
EDGE = ('crates/cases/', 'crates/limits/', 'crates/replay/', 'crates/ssr_c/')
LIBRARY = {n: t for n, t in SOURCES.items() if not n.startswith(EDGE)}

FN = re.compile(r'((?:^[ \t]*//[^\n]*\n|^[ \t]*#\[[^\n]*\n)*)^([ \t]*)((?:pub )?(?:extern "C" )?fn (\w+)(?:[^{;\[]|\[[^\]]*\])*?)\n?((?:\2[ \t]+(?:requires|ensures)[^\n]*\n(?:\2[ \t]{5,}[^\n]*\n)*)*)\2\{\n(.*?)^\2\}', re.M | re.S)
ITEM = re.compile(r'^[ \t]*(?:pub )?(enum|struct) (\w+)[^{;]*\{(.*?)^[ \t]*\}', re.M | re.S)


def functions():
    for name, text in LIBRARY.items():
        for m in FN.finditer(text):
            comment, _, head, fn, clauses, body = m.groups()
            yield name, fn, comment, head, clauses, body


def items():
    for name, text in LIBRARY.items():
        for m in ITEM.finditer(text):
            yield name, m.group(1), m.group(2), m.group(3)


def params(head):
    m = re.search(r'\((.*)\)', head, re.S)
    return [] if not m else [p.strip() for p in re.split(r',(?![^<\[(]*[>\])])', m.group(1)) if p.strip()]


FOUND = defaultdict(list)


def found(key, name, what):
    FOUND[key].append(f'{name}: {what}')


def option_like():
    for name, kind, item, body in items():
        if kind == 'enum':
            variants = re.findall(r'^\s*(\w+)(\([^)]*\)|\s*\{[^}]*\})?,', body, re.M)
            bare = [v for v, p in variants if not p]
            refused = [v for v, p in variants if 'Refusal' in p]
            if len(variants) <= 3 and len(variants) > len(bare) and (bare or refused):
                found('1a own enums like Option or Result', name, item)
        elif re.search(r'^\s*(?:pub )?\w+: bool,', body, re.M) and '#[repr(C)]' not in body:
            found('1b structs with a flag beside values', name, item)


CODES = r'\b(side|form|sort|state|self_kind|resolution_kind): (?:u32|usize|u8)\b'


def codes():
    for name, fn, comment, head, clauses, body in functions():
        if re.search(CODES, head):
            found('1c number codes in signatures', name, fn)
        if re.search(r'\b(?:is_node_in|is_token_in|find|find_node|is_node_at|skip_tokens|contains)\([^()]*\b\d+(?:, \d+)?\)', body):
            found('1d syntax kinds as bare numbers', name, fn)
        if re.search(r'-> (?:usize|u32|u64)$', head.strip()) and re.search(r'where (?:there|it) (?:is|has) none|where none|, or how many|past the end|of all elements|where (?:there|they) are more', comment):
            found('1e numbers that stand for none', name, fn)


LITERAL = re.compile(r'b?"(?:[^"\\]|\\.)*"|b?\'(?:[^\'\\]|\\.)\'|\b\d[\w]*\b')
KEEP = {'if', 'else', 'while', 'loop', 'for', 'in', 'match', 'return', 'let', 'mut', 'true', 'false', 'as', 'Some', 'None', 'Ok', 'Err', 'len', 'u8', 'u32', 'u64', 'usize'}


def normal(head, body):
    text = LITERAL.sub('#', re.sub(r'//[^\n]*', '', ' '.join(params(head)) + '{' + body))
    names = {}
    def sub(m):
        w = m.group(0)
        return w if w in KEEP else names.setdefault(w, f'v{len(names)}')
    return re.sub(r'\s+', '', re.sub(r'[A-Za-z_]\w*', sub, text))


def twins():
    groups = defaultdict(list)
    for name, fn, comment, head, clauses, body in functions():
        key = normal(head, body)
        if len(key) > 40:
            groups[key].append((name, fn))
    for key, members in groups.items():
        if len(members) > 1:
            for name, fn in members:
                found('2 functions that are the same but for names and constants', name, fn)


def loops():
    for name, fn, comment, head, clauses, body in functions():
        for m in re.finditer(r'^([ \t]*)(while [^\n]*|loop) \{\n(.*?)^\1\}', body, re.M | re.S):
            if re.search(r'^\s*\w+(?:\.\w+)? [+-]= 1;', m.group(3), re.M):
                found('3 loops that count by hand', name, fn)


def conversions():
    for name, fn, comment, head, clauses, body in functions():
        arms = re.findall(r'^\s*[\w:]+(?:\(\w*\))? => (?:\d+|true|false|\w+(?: \{|,))', body, re.M)
        if re.match(r'^\s*match \w+ \{', body) and len(arms) >= 2 and 'match' in body.strip()[:6]:
            found('4 conversions, equality, order and copying by hand', name, fn)
        elif re.search(r'^(same_|flag|one_if|least|most|wide|copy|lowest)', fn):
            found('4 conversions, equality, order and copying by hand', name, fn)


GROUPS = {
    'directory words bytes': ('directory', 'words', 'bytes'), 'row words bytes': ('row', 'words', 'bytes'), 'tree text facts': ('tree', 'text', 'facts'),
    'facts index': ('facts', 'index'), 'words text': ('words', 'text'), 'parses parse_text': ('parses', 'parse_text'), 'p pe': ('p', 'pe'), 'c ce': ('c', 'ce'),
    'rule file marks': ('rule', 'file', 'marks'), 'index spare paths calls': ('index', 'spare', 'paths', 'calls'), 'code text pattern': ('code', 'text', 'pattern'),
    'rows frames k': ('rows', 'frames', 'k'), 'start end': ('start', 'end'), 'low high': ('low', 'high'),
}


def together():
    facts = defaultdict(set)
    for name, fn, comment, head, clauses, body in functions():
        names = [re.sub(r'^(?:mut )?(\w+):.*', r'\1', p, flags=re.S) for p in params(head)]
        if any(all(n in names for n in g) for g in GROUPS.values()):
            found('5a functions with parameters that travel together', name, f'{fn} ({len(names)} parameters)')
        for c in re.findall(r'requires[^{]*\{(.*?)\}\s*$', clauses, re.M | re.S):
            for part in re.split(r' × ', c):
                m = re.match(r'\s*\(?([A-Z]\w+)\b', part)
                if m:
                    facts[m.group(1)].add((name, fn))
    for fact, fns in facts.items():
        if len(fns) >= 3:
            for name, fn in sorted(fns):
                found('5b functions whose contracts repeat a fact of a value', name, f'{fn}: {fact}')


def buffers():
    for name, fn, comment, head, clauses, body in functions():
        if re.search(r'\b(?:44|22|27|3|4) \* \w|\w \* (?:44|22|27|3|4)\b', body) and re.search(r'\[u32\]|\[u64\]', head):
            found('6a functions that reckon the place of a field in a list of words', name, fn)
    for name, kind, item, body in items():
        if kind == 'struct' and re.search(r': \[[\w:]+; \d+\]', body) and re.search(r'\b(?:count|constraints|len\w*): usize', body):
            found('6b structs with an array and its length beside it', name, item)


def switches():
    for name, kind, item, body in items():
        if kind == 'enum' and re.fullmatch(r'Step|Turn|Next|Stage|Laid|Ended|Check', item):
            found('7 enums that say which step to run', name, item)


def proofs():
    for name, text in FILES.items():
        if re.match(r'crates/[^/]+/proofs/.*/(?:Answers|Invariants)\.antt$', name):
            lines = len([l for l in text.split('\n') if l.strip() and not l.startswith(('use ', '--'))])
            found('8a functions with answers or invariants of their own', re.sub(r'/(?:Answers|Invariants)\.antt$', '', name), str(lines))
        elif re.match(r'crates/[^/]+/proofs/[^/]+\.antt$', name) and not name.endswith('Lib.antt'):
            for m in re.finditer(r'^\s*(?:pub )?([\w\'·-]+) :', text, re.M):
                found('8b lemmas of proofs/', name, m.group(1))


for count in (option_like, codes, twins, loops, conversions, together, buffers, switches, proofs):
    count()
if LISTED:
    for key in sorted(FOUND):
        if key.startswith(LISTED):
            print('\n'.join(sorted(FOUND[key])))
else:
    for key in sorted(FOUND):
        print(f'{len(FOUND[key]):5}  {key}')
    lines = sum(int(l.rsplit(': ', 1)[1]) for l in FOUND['8a functions with answers or invariants of their own'])
    print(f'{lines:5}  lines of answers and invariants')
    print(f'{sum(1 for _ in functions()):5}  functions in all')
