#!/usr/bin/env python3
"""places.py [FOLDER]: counts, in a checkout, the places of each point of docs/DESIGN-PASS.md: what reads like an older Rattle.

With --list each place is printed under its count. FOLDER is the checkout, this one if left out."""
import collections
import glob
import os
import re
import sys

USAGE = 'usage: places.py [--list] [FOLDER]'
WIDTHS = r'u8|u16|u32|u64'
SIZES = r'few|some|more|many|four|eight|sixteen|two'


def sources(top):
    return sorted(glob.glob(os.path.join(top, 'crates/*/src/**/*.rt'), recursive=True))


def lines_of(top):
    for path in sources(top):
        for number, line in enumerate(open(path, encoding='utf-8'), 1):
            yield '%s:%d' % (os.path.relpath(path, top), number), line.rstrip('\n')


def matching(top, pattern, without=None):
    """The lines outside comments that the pattern is found in."""
    found = []
    for place, line in lines_of(top):
        code = line.split('//')[0]
        if re.search(pattern, code) and not (without and re.search(without, code)):
            found.append('%s %s' % (place, line.strip()))
    return found


def comments(top, pattern):
    return ['%s %s' % (p, l.strip()) for p, l in lines_of(top) if l.strip().startswith('//') and re.search(pattern, l)]


def functions(top):
    """Place, name, parameters and the facts of `requires` of each function."""
    for path in sources(top):
        text = open(path, encoding='utf-8').read()
        for m in re.finditer(r'\bfn (\w+)(?:<[^(]*>)?\(([^)]*)\)', text):
            # the body's brace stands alone on its line, or behind the result
            body = re.search(r'\n *\{\n|\{\n', text[m.end():])
            head = text[m.start():m.end() + body.start() + 1] if body else m.group(0)
            facts = []
            for clause in re.findall(r'requires \{(.*?)\}\s*(?=\n)', head, re.S):
                for fact in clause.split('×'):
                    fact = re.sub(r'\s+', ' ', re.sub(r'\.(old|now|new)\b', '', fact)).strip()
                    facts.append(fact.strip('() '))
            params = [p for p in m.group(2).split(',') if ':' in p or 'self' in p]
            place = '%s:%d' % (os.path.relpath(path, top), text.count('\n', 0, m.start()) + 1)
            yield place, path.split(os.sep + 'crates' + os.sep)[-1].split(os.sep)[0], m.group(1), params, facts


def flags(top):
    """Fields of type bool that stand beside other fields, in a struct."""
    found = []
    for path in sources(top):
        text = open(path, encoding='utf-8').read()
        for m in re.finditer(r'struct (\w+)[^{;]*\{(.*?)\n\}', text, re.S):
            fields = re.findall(r'^\s+(?:pub )?(\w+): (\w+)', m.group(2), re.M)
            if len(fields) > 1:
                found += ['%s %s.%s' % (os.path.relpath(path, top), m.group(1), f) for f, t in fields if t in ('bool', 'Ending')]
    return found


def repeated_facts(top):
    counts = collections.Counter((crate, fact) for _, crate, _, _, facts in functions(top) for fact in set(facts))
    return ['%d %s: %s' % (n, c, f) for (c, f), n in sorted(counts.items(), key=lambda x: (-x[1], x[0])) if n > 2]


def twins(top):
    """Functions whose names differ in a width or a size alone, or that stand in several crates."""
    groups = collections.defaultdict(list)
    for place, crate, name, _, _ in functions(top):
        stem = re.sub(r'(^|_)(%s|%s)(?=_|$)' % (WIDTHS, SIZES), r'\1#', name)
        groups[stem].append('%s %s' % (place, name))
    told = []
    for stem, places in sorted(groups.items()):
        files = {p.split(':')[0] for p in places}
        if len(places) > 1 and ('#' in stem or len(files) > 1):
            told += ['%s: %s' % (stem, p) for p in places]
    return told


HAND = (r'fn (lesser|flag|one|zero_of|is_less|both|either|need|first|compare_numbers|kind_of|natural|plus|below_zero|refused|refusal'
        r'|no_plan|copy_in|copy_rest|put_answer|put_part|put_written|put_found|put_turned|say|left|bit_of|is_fine)\(')


def uncited(top):
    files = glob.glob(os.path.join(top, 'crates/*/proofs/*.antt')) + glob.glob(os.path.join(top, 'crates/*/proofs/*/*.antt'))
    texts = [open(p, encoding='utf-8').read() for p in glob.glob(os.path.join(top, 'crates/**/*.antt'), recursive=True)
             if '/out/' not in p]
    texts += [open(p, encoding='utf-8').read() for p in sources(top)]
    words = collections.Counter(w for t in texts for w in re.findall(r"[\w≢≡'-]+", t))
    docs = ''.join(open(p, encoding='utf-8').read() for p in glob.glob(os.path.join(top, 'docs/*.md')) + [os.path.join(top, 'README.md')]
                   if not p.endswith('PORT.md'))
    found = []
    for path in files:
        if os.path.basename(path) in ('Answers.antt', 'Invariants.antt', 'Lib.antt'):
            continue
        for name in re.findall(r"^ *pub ([\w-]+) :", open(path, encoding='utf-8').read(), re.M):
            # its type and its clauses name it twice
            if words[name] <= 2 and not re.search(r'\b%s\b' % re.escape(name), docs):
                found.append('%s %s' % (os.path.relpath(path, top), name))
    return found


def answers(top):
    return ['%s %s' % (os.path.relpath(p, top), n) for p in glob.glob(os.path.join(top, 'crates/*/proofs/**/Answers.antt'), recursive=True)
            for n in re.findall(r'^pub (\S+) : goal\.', open(p, encoding='utf-8').read(), re.M)]


def places(top):
    return [
        ('1 a finding made by hand', matching(top, r'Finding::(Fine|Fault)\b')),
        ('1 a finding tested by hand', matching(top, r'is_fine\(', r'fn is_fine')),
        ('1 a refusal told by a bare number', matching(top, r'Fault\(\d+,|number: \d+,|need\([a-z_]+, \d+|pairs_finding\(\d')),
        ('1 an own enum that std has, or a flag beside values', matching(top, r'enum (Finding|Comparison|Ending)\b') + flags(top)),
        ('1 0 for none', comments(top, r', or 0\.$')),
        ('2 functions with a twin', twins(top)),
        ('3 loops that count by hand', matching(top, r'^\s*while ')),
        ('4 order, copying, conversion by hand', matching(top, HAND)),
        ('5 facts in three or more contracts', repeated_facts(top)),
        ('5 functions of six parameters or more', ['%s %s' % (p, n) for p, _, n, q, _ in functions(top) if len(q) > 5]),
        ('6 functions that take two or more arrays', ['%s %s' % (p, n) for p, _, n, q, _ in functions(top)
                                                      if sum('; ' in x and '[' in x for x in q) > 1]),
        ('7 closures, dyn and tables of functions', matching(top, r'Fn(Mut|Once)?\(|\bdyn |: fn\(')),
        ('8 answers to goals', answers(top)),
        ('8 lemmas that nothing cites', uncited(top)),
    ]


def main(words):
    listed = '--list' in words
    rest = [w for w in words if w != '--list']
    if len(rest) > 1 or any(w.startswith('-') for w in rest):
        sys.exit(USAGE)
    top = rest[0] if rest else os.path.join(os.path.dirname(os.path.abspath(__file__)), '..')
    if not sources(top):
        sys.exit('places.py: no crates/*/src/*.rt in %s' % top)
    for title, found in places(top):
        print('%5d  %s' % (len(found), title))
        if listed:
            for place in found:
                print('         ' + place)


main(sys.argv[1:])
