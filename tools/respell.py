#!/usr/bin/env python3
"""respell [ROOT]: brings the repository's own names to the spelling of today's Rattle, once, behind the port script.

Definitions, lemmas, labels and constructors that specs/ and proofs/ declare are written in snake case (`seenOf` becomes
`seen_of`, `seen-parent` becomes `seen_parent`); types and facts, whose names begin with a capital, keep theirs. Names of
Rust items, of files, of what the kit makes or exports, and words in strings stay. A name whose new spelling is another's
gets the one that TOGETHER gives. It rewrites crates/**.antt, crates/**.rt, the wrong programs of must-fail/, and the
names in backticks of README.md and docs/.
"""
import collections
import pathlib
import re
import sys

root = pathlib.Path(sys.argv[1] if len(sys.argv) > 1 else '.').resolve()
# lemmas that would fall together with the definition that they speak of
LEMMAS = '''answer-text copy-fits depth-up entry-line find-in is-followed is-record is-root kids-in kind-array labels-fit
memory-ones most-levels of-code on-arg path-of rest-bytes revert-at shallow-to sizes-fit spend-to stack-ones width-name
word-codes word-told'''.split()
TOGETHER = {n: n.replace('-', '_') + '_lem' for n in LEMMAS}
# the same of lemmas that the port script has turned: they change where a file declares them or brings them in
TURNED = 'all_codes code_fits fields_fit is_name load_fits no_name'.split()
TOKEN = re.compile(r"(?<![A-Za-z_₀-₉0-9'α-ω-])\+?[A-Za-z_μΑ-Ωα-ω][A-Za-z0-9_₀-₉'α-ω]*(?:-[A-Za-z0-9_₀-₉'α-ω][A-Za-z0-9_₀-₉'α-ω]*)*")
DECLARED = re.compile(r"^\s*(?:(?:abbrev|unfoldable|pub|opaque|private) )*([^\s(){}:,.]+)((?:\s+[({][^(){}]*[)}])*)\s*:\s")
USED = re.compile(r"use ([^\s{]+?)(?:\.\{([^}]*)\})?(?: as (\S+))?;?$")
OWN = {p.name for p in (root / 'crates').iterdir()}
KEEP = {'where', 'let', 'in', 'rw', 'module', 'record', 'data', 'use'}


def snake(name):
    """The name in snake case: each capital behind a small letter or digit begins a word, each dash joins words."""
    name = re.sub(r"(?<=[a-z0-9'])([A-Z])(?=[a-z0-9]|$)", lambda m: '_' + m.group(1).lower(), name)
    return name.replace('-', '_')


def new(name):
    if name in TOGETHER:
        return TOGETHER[name]
    if name[0].isupper() and '-' not in name:
        return name
    return name.replace('-', '_') if name[0].isupper() else snake(name)


def is_own(path):
    parts = path.split('.')
    return parts[0] == 'Rattle' and len(parts) > 1 and parts[1] in OWN


def imports(text):
    """Own names that the file brings in, and those of the kit."""
    own, kit = set(), set()
    for line in text.splitlines():
        m = USED.match(re.sub(r'^(pub |ghost )+', '', line.strip()))
        if not m or not m.group(2):
            continue
        for it in m.group(2).split(','):
            (own if is_own(m.group(1)) else kit).add(it.split(' as ')[0].strip())
    return own, kit


def declared(text):
    names = set()
    for line in text.splitlines():
        m = DECLARED.match(line.split(' -- ')[0])
        if m and not line.lstrip().startswith('--') and m.group(1) not in KEEP:
            names.add(m.group(1))
    return names


antt = sorted(p for d in ('specs', 'proofs') for p in (root / 'crates').glob(f'*/{d}/**/*.antt') if '/out/' not in str(p))
code = sorted(p for p in (root / 'crates').glob('*/src/**/*.rt'))
edits = sorted(p for p in (root / 'crates').glob('*/must-fail/*'))
texts = {p: p.read_text() for p in antt + code + edits}
names = set()
for p in antt:
    names |= declared(texts[p])
    names |= {n for n in imports(texts[p])[0] if '.' not in n}
# an import of another crate's Rust items or generated modules changes nothing: those have no capital or dash to turn
LABEL = re.compile(r'^  (?:pub )?(\S+) : ')
labels = set()
for p in antt:
    inside = False
    for line in texts[p].splitlines():
        inside = bool(re.match('(pub )?(record|data) ', line)) or inside and (not line.strip() or line[:1] in ' -')
        if inside and LABEL.match(line):
            labels.add(LABEL.match(line).group(1))
names = {n for n in names if re.fullmatch(r"\+?[A-Za-zμα-ω][A-Za-z0-9_₀-₉'μα-ω-]*", n) and new(n) != n}


def known(path, text):
    """What turning a file needs: the kit's names in it, its names for own modules, and its lemmas of TURNED."""
    kit, modules, lemmas = imports(text)[1], set(), set()
    for line in text.splitlines():
        m = USED.match(re.sub(r'^(pub |ghost )+', '', line.strip()))
        if m and m.group(3) and is_own(m.group(1)):
            modules.add(m.group(3))
        if m and m.group(2) and is_own(m.group(1)) and '.proofs.' in m.group(1):
            lemmas |= {it.split(' as ')[0].strip() for it in m.group(2).split(',')}
    if path.suffix == '.antt':
        lemmas |= declared(text)
    return kit, modules, lemmas & set(TURNED) if path.suffix == '.antt' else set()


def turn(text, about, ticks):
    """The text with its own names turned; in prose, where ticks is set, those in backticks and in camel case alone."""
    kit, modules, lemmas = about

    def one(m):
        n, before = m.group(0), m.string[:m.start()]
        if before.endswith('.') and not before.endswith('..'):
            base = re.search(r"([\w'-]+)\.$", before)
            if n not in names or '-' in n and n not in labels and not (base and base.group(1) in modules):
                return n
            return new(n)
        if n in lemmas:
            return n + '_lem'
        if n not in names or n in kit:
            return n
        return new(n)

    def camel(m):
        return one(m) if '-' not in m.group(0) else m.group(0)
    if ticks:
        parts = text.split('`')
        return '`'.join(TOKEN.sub(one if i % 2 else camel, t) for i, t in enumerate(parts))
    return TOKEN.sub(one, text)


def line_of(line, about, mark):
    """A line of code or proof: its comment is prose, and a string stays."""
    at = line.find(mark)
    body, prose = (line, '') if at < 0 else (line[:at], line[at:])
    pieces = re.split(r'("(?:[^"\\]|\\.)*")', body)
    return ''.join(t if i % 2 else turn(t, about, False) for i, t in enumerate(pieces)) + turn(prose, about, True)


def check_together():
    """Names that fall together: two old names of one new spelling, where one file has both."""
    to = collections.defaultdict(set)
    for p in antt + code:
        kit = imports(texts[p])[1]
        seen = collections.defaultdict(set)
        for line in texts[p].splitlines():
            for m in TOKEN.finditer(line.split('--' if p.suffix == '.antt' else '//')[0]):
                n = m.group(0)
                seen[new(n) if n in names and n not in kit else n].add(n)
        for k, v in seen.items():
            if len(v) > 1:
                to[(k, tuple(sorted(v)))].add(str(p.relative_to(root / 'crates')))
    for (k, v), where in sorted(to.items()):
        print(f'together: {k}: {", ".join(v)}: {" ".join(sorted(where)[:4])}')


check_together()
if '--look' in sys.argv:
    sys.exit()
for p in antt + code + edits:
    about = known(p, texts[p])
    mark = '--' if p.suffix == '.antt' else '//'
    if p.suffix in ('.edit', '.tried'):
        out = []
        for line in texts[p].split('\n'):
            if line.startswith('file: '):
                target = p.parent.parent / line[6:]
                about = known(target, texts.get(target, ''))
                mark = '--' if line.endswith('.antt') else '//'
            if line.startswith(('old: ', 'new: ')):
                line = line[:5] + line_of(line[5:], about, mark)
            elif not line.startswith('file: '):
                line = turn(line, about, True)
            out.append(line)
        text = '\n'.join(out)
    else:
        text = '\n'.join(line_of(line, about, mark) for line in texts[p].split('\n'))
    if text != texts[p]:
        p.write_text(text)
for p in [root / 'README.md', *sorted((root / 'docs').glob('*.md')), root / 'host/README.md']:
    text = p.read_text()
    parts = text.split('`')
    turned = '`'.join(turn(t, (set(), set(), set()), False) if i % 2 else t for i, t in enumerate(parts))
    if turned != text:
        p.write_text(turned)
print(f'{len(names)} names')
