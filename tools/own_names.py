#!/usr/bin/env python3
"""own_names: lists the repository's own definitions and lemmas whose spelling is not today's, with what they become and where that falls together.

usage: tools/own_names.py TREE [--write] [--also DIR]

Today's spelling (the kit's CONTRACT_STYLE.md, "Names"): types, facts and modules in upper camel case, all else in snake case; a dash
joins two names in a lemma. Taken are the names that specs/ and proofs/ of TREE/crates declare (top level, and fields of records).
Functions, variants and fields of src/ keep theirs; a definition may have the name of the function that it is the meaning of. A name
that would be one that specs/, proofs/ or the kit's Prelude has already is listed as `falls together` and left, but for those that
CHOSEN decides: a lemma that had the name of the definition it speaks of gives way first (FIRST). Without --write nothing is changed. With it, words are replaced in crates/**/*.rt (only in clauses and ghost lines), *.antt and *.edit, strings and comments of
src/ aside, and so are they in the .antt files of DIR. It goes by words: read the diff, and let rt check decide.
"""
import collections, os, re, subprocess, sys
from pathlib import Path

top = Path(sys.argv[1]).resolve(); write = '--write' in sys.argv
also = Path(sys.argv[sys.argv.index('--also') + 1]).resolve() if '--also' in sys.argv else None
W = r"[A-Za-z_][\w'-]*[ℤ₀]?"
TOP = re.compile(r"^(?:  )?(?:abbrev |unfoldable )?(?:pub )?(?:record |data )?(?:unfoldable |abbrev )?(?:pub )?(" + W + r")(?: [({\[].*| \S.*)?\s*:\s(.*)$")
files = lambda *pats: sorted(f for p in pats for f in top.glob(p))
antt = files('crates/*/specs/**/*.antt', 'crates/*/proofs/**/*.antt')
rt = files('crates/*/src/**/*.rt')
declared = collections.defaultdict(set)      # name -> kinds
for f in antt:
    for line in f.read_text(encoding='utf-8').split('\n'):
        if line.lstrip().startswith('--') or line.startswith('use '): continue
        m = re.match(r"^\s*(?:abbrev |unfoldable )?(?:pub )?(record|data) (" + W + r")", line)
        if m: declared[m.group(2)].add('type'); continue
        m = re.match(r"^(\s*)(?:abbrev |unfoldable )?(?:pub )?(" + W + r")\s*:\s(.*)$", line)
        if m and len(m.group(1)) in (0, 2):
            ty = m.group(3)
            declared[m.group(2)].add('type' if re.search(r'(^|→ )Type( 0)?\s*$', ty) else 'word')
code = set()
for f in rt:
    t = re.sub(r'//[^\n]*|"[^"]*"', ' ', f.read_text(encoding='utf-8'))
    t = re.sub(r'(?ms)^ghost use.*?;|^\s*(requires|ensures)[^\n]*', ' ', t)
    code |= set(re.findall(r'[A-Za-z_]\w*', t))
# Names that would fall together. What has the same name in another file only, or as a field of another record, may keep it; a
# definition that a lemma of its own file is named after says that it is a test; a lemma named as its definition says what of it.
CHOSEN = {'aBlock': 'a_block', 'cutShort': 'is_cut_short', 'headAs': 'head_as', 'isBlock': 'is_block', 'sizeIn': 'size_in', 'stepDown': 'step_down', 'theEnd': 'the_end'}
# Variables that stand in definitions.
VARIABLES = {'inputAfter': 'input_after', 'outputAfter': 'output_after'}
FIRST = {
    'is_block': ('is_block-only', ['crates/walk/proofs/Coming.antt', 'crates/day/proofs/Outcomes.antt', 'crates/day/proofs/Beyond.antt']),
    'size_in': ('size_in-side', ['crates/group/proofs/Sides.antt', 'crates/group/proofs/Bearing.antt', 'crates/group/proofs/Cuts.antt', 'crates/group/proofs/Demand3.antt']),
    'the_end': ('the-end', ['crates/day/proofs/Walking.antt']),
}
snake = lambda n: re.sub(r'(?<=[a-z0-9])([A-Z])', lambda m: '_' + m.group(1).lower(), n[0].lower() + n[1:] if n[0].isupper() else n)
camel = lambda n: ''.join(p[:1].upper() + p[1:] for p in re.split(r'_', n))
everything = set(declared)
prelude = set()
kit = Path(subprocess.run(['rt', 'doc'], stdout=subprocess.PIPE, text=True).stdout.strip()).parent
for f in list(kit.glob('rattle/std/specs/Prelude.antt')) + list(kit.glob('rattle/std/proofs/Common.antt')):
    prelude |= set(re.findall(W, f.read_text(encoding='utf-8')))
turn, clash = {}, {}
for n, kinds in sorted(declared.items()):
    if kinds == {'type'}:
        t = camel(n) if not n[0].isupper() else n
    else:
        t = snake(n) if re.search(r'[a-z0-9][A-Z]', n) and not n[0].isupper() else n
        # a fact keeps its capital inside a lemma's name
    if n in CHOSEN: turn[n] = CHOSEN[n]; continue
    if t == n: continue
    if t in everything or t in prelude or t in turn.values(): clash[n] = t
    else: turn[n] = t
turn.update(VARIABLES)
for n, t in clash.items(): print('falls together: %s -> %s' % (n, t))
print('%d names to turn, %d fall together' % (len(turn), len(clash)))
if not write:
    for n, t in list(turn.items()): print('  %s -> %s' % (n, t))
    sys.exit()
for word, (other, where) in FIRST.items():
    if not any(CHOSEN.get(n) == word for n in declared): continue      # turned before
    for f in where:
        t = (top / f).read_text(encoding='utf-8')
        (top / f).write_text(re.sub(r"(?<![\w.'-])" + word + r"(?![\w.'-])", other, t), encoding='utf-8')
# in a lemma's name the parts that a dash joins are names too
PART = re.compile(W)
def lemma(m):
    w = m.group(0)
    if w in turn: return turn[w]
    if '-' in w and not w.startswith('-'):
        return '-'.join(turn.get(p, p) for p in w.split('-'))
    return w
n = 0
for f in antt + files('crates/*/must-fail/**/*.edit') + (sorted(also.glob('**/*.antt')) if also else []):
    t = f.read_text(encoding='utf-8')
    out = '\n'.join(l if l.lstrip().startswith(('--', '#')) else PART.sub(lemma, l) for l in t.split('\n'))
    if out != t: f.write_text(out, encoding='utf-8'); n += 1
HEAD = re.compile(r'(?m)^[ \t]*(?:pub )?(?:requires|ensures|ghost)\b[^\n{;]*\{|^ghost use[^;]*;|^[ \t]*#!?\[[^\n]*')
def clauses(text):
    """Each clause, ghost line and attribute of a source file, to its closing brace."""
    out, at = '', 0
    for m in HEAD.finditer(text):
        if m.start() < at: continue
        end = m.end()
        if m.group(0).endswith('{'):
            depth = 1
            while depth and end < len(text):
                depth += (text[end] == '{') - (text[end] == '}'); end += 1
        out += text[at:m.start()] + PART.sub(lemma, text[m.start():end]); at = end
    return out + text[at:]
for f in rt:
    t = f.read_text(encoding='utf-8'); out = clauses(t)
    if out != t: f.write_text(out, encoding='utf-8'); n += 1
print('%d files changed' % n)
