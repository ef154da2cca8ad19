#!/usr/bin/env python3
"""Counts the older forms in a checkout's crates, as docs/DESIGN-PASS.md lists them: tools/count_forms.py [FOLDER] [--list POINT]."""
import collections
import glob
import re
import sys

KEYWORDS = set('fn pub let mut if else match while loop for in return as true false self Self use mod struct enum impl const type ref move '
               'usize u8 u16 u32 u64 i32 bool str requires ensures ghost'.split())


def functions(root):
    """Each function of src: place, name, parameters, clauses, body."""
    for path in sorted(glob.glob(root + '/crates/*/src/**/*.rt', recursive=True)):
        text = open(path).read()
        place = path.split('/crates/')[1].replace('/src/', '::').replace('.rt', '')
        for m in re.finditer(r'^( *)(?:pub )?(?:extern "C" )?fn (\w+)(?:<[^{(]*?>)?\((.*?)\)([^{\n]*? \{|.*?\n\1\{)\n(.*?)\n\1\}', text, flags=re.S | re.M):
            yield place + '::' + m.group(2), m.group(2), m.group(3), m.group(4), m.group(5)


def shape(text):
    """The text with names and numbers taken out."""
    out = []
    for token in re.findall(r"\w+|b'.'|\S", re.sub(r'//[^\n]*', '', text)):
        out.append(token if token in KEYWORDS or not re.match(r"\w", token) else 'N' if token[0].isdigit() or token.startswith("b'") else 'I')
    return ' '.join(out)


def lines(root, pattern):
    found = []
    for path in sorted(glob.glob(root + '/crates/*/src/**/*.rt', recursive=True)):
        for number, line in enumerate(open(path), 1):
            if re.search(pattern, line):
                found.append('%s:%d: %s' % (path.split('/crates/')[1], number, line.strip()))
    return found


def enums_like(root):
    """Enums with one case that holds a value, or several, beside one that says that there is none or why."""
    found = []
    for path in sorted(glob.glob(root + '/crates/*/src/**/*.rt', recursive=True)):
        for m in re.finditer(r'enum (\w+) \{(.*?)\n\}', open(path).read(), flags=re.S):
            cases = re.findall(r'^    (\w+)(\(.*\))?', m.group(2), flags=re.M)
            names = {name for name, _ in cases}
            if names & {'None', 'Bad', 'Nothing', 'TooDeep', 'Refused', 'Stopped', 'NoRoom'}:
                found.append('%s: %s' % (path.split('/crates/')[1], m.group(1)))
    return found


def twins(root):
    """Functions of five lines or more that differ in names and numbers alone, in groups."""
    groups = collections.defaultdict(list)
    for place, name, params, clauses, body in functions(root):
        if body.count('\n') >= 4:
            groups[shape(params) + '|' + shape(re.sub(r'(requires|ensures).*', '', clauses)) + '|' + shape(body)].append(place)
    return [', '.join(g) for g in groups.values() if len(g) > 1]


def facts(root):
    """Facts about a value that stand in the requires of three functions or more."""
    stand = collections.defaultdict(set)
    for place, name, params, clauses, body in functions(root):
        for m in re.finditer(r'requires(?: \w+)? \{ (.*?) \}(?=\n|$)', clauses):
            stand[re.sub(r'\.(now|old)\b', '', m.group(1))].add(place)
    return ['%d %s' % (len(v), k) for k, v in sorted(stand.items(), key=lambda p: -len(p[1])) if len(v) >= 3]


def travelling(root):
    """Three parameters or more that stand together in three functions or more; of groups in the same functions the longest."""
    groups = collections.defaultdict(set)
    for place, name, params, clauses, body in functions(root):
        names = [p.strip().split(':')[0].strip() for p in params.split(',') if ':' in p]
        for i in range(len(names)):
            for j in range(i + 3, len(names) + 1):
                groups[tuple(names[i:j])].add(place)
    kept = [(k, v) for k, v in groups.items() if len(v) >= 3]
    kept = [(k, v) for k, v in kept if not any(v == w and set(k) < set(l) for l, w in kept)]
    return ['%d %s' % (len(v), ', '.join(k)) for k, v in sorted(kept, key=lambda p: -len(p[1]))]


def lengths(root):
    """Functions that write into a lent slice and answer how much."""
    return [place for place, name, params, clauses, body in functions(root)
            if re.search(r'&(\'\w+ )?mut \[', params) and re.match(r'\s*-> usize', clauses)]


def antt(root, pattern):
    return [p.split('/crates/')[1] for p in sorted(glob.glob(root + pattern, recursive=True))]


POINTS = [
    ('1a', 'enums of the shape of Option or Result', enums_like),
    ('1b', 'refusals by a number', lambda r: lines(r, r'(Refused|Cause::Is|Stopped)\(\d+\)')),
    ('2', 'functions that differ in names and numbers alone, in groups', twins),
    ('3', 'loops by while or loop', lambda r: lines(r, r'^\s*(while|loop)\b')),
    ('4a', 'functions for what the library has: smaller, larger, equal, copied', lambda r: [
        p for p, n, *_ in functions(r) if re.fullmatch(r'low|high|larger|shorter|least|same_bytes|words_eq|copy_at|fill_at|copy|remove|heads_eq|byte_order|wrapping_mul|put_text', n)]),
    ('4b', 'types without a derived or written comparison', lambda r: [
        p for p in lines(r, r'#\[derive\(Clone, Copy\)\]')]),
    ('5a', 'facts in the requires of three functions or more', facts),
    ('5b', 'three parameters or more that travel together through three functions or more', travelling),
    ('6', 'functions that write into a lent slice and answer how much', lengths),
    ('7', 'matches on a kind that pick a step', lambda r: lines(r, r'\bmatch (sort|program|letter|table|call|step|fragment)\b')),
    ('8a', 'files of answers', lambda r: antt(r, '/crates/*/proofs/**/Answers.antt')),
    ('8b', 'lines of proofs', lambda r: [l for p in glob.glob(r + '/crates/*/proofs/**/*.antt', recursive=True) for l in open(p)]),
]


def main():
    arguments = sys.argv[1:]
    wanted = arguments[arguments.index('--list') + 1] if '--list' in arguments else None
    root = next((a for a in arguments if a not in ('--list', wanted)), '.')
    for point, what, count in POINTS:
        if wanted in (None, point):
            found = count(root)
            print('%-3s %6d  %s' % (point, len(found), what))
            if wanted:
                print('\n'.join('    ' + f for f in found))


main()
