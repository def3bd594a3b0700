#!/usr/bin/env python3
"""Counts the places of src/ that an older form of the language left (docs/DESIGN-PASS.md), a line for each point.

usage: tools/places.py [-l]    -l lists the places too. It reads crates/*/src and crates/*/proofs below this folder's parent.
"""
import collections
import os
import re
import sys

ROOT = os.path.join(os.path.dirname(os.path.abspath(__file__)), '..', 'crates')
ABSENT = ('Refused', 'NoRoom', 'Room', 'Nothing', 'Wrong', 'Missing', 'Closed', 'Nobody', 'Short')
LIBRARY = ('larger', 'smaller', 'least', 'clear', 'copy', 'fill', 'repeat', 'is_accepted')


def files(part, ending):
    for crate in sorted(os.listdir(ROOT)):
        for folder, _, names in sorted(os.walk(os.path.join(ROOT, crate, part))):
            for name in sorted(names):
                if name.endswith(ending):
                    path = os.path.join(folder, name)
                    yield os.path.relpath(path, ROOT), open(path, encoding='utf-8').read()


def functions(text):
    """Name, parameters, result, clauses, first line of each function."""
    for m in re.finditer(r'^ *(?:pub(?:\(crate\))? )?(?:unsafe )?fn (\w+)(<[^(]*>)?\((.*?)\)(?: -> ([^\n{]*))?\n?(.*?)^ *\{', text,
                         re.S | re.M):
        yield m.group(1), m.group(3), (m.group(4) or '').strip(), m.group(5), text.count('\n', 0, m.start()) + 1


def facts(clauses):
    """The conjuncts of a function's requires."""
    out = []
    for m in re.finditer(r'requires(?: \w+)? \{(.*?)\}\n', clauses, re.S):
        for part in re.split(r' × |\n\s*× ', m.group(1)):
            part = re.sub(r'\s+', ' ', part).strip().strip('()').strip()
            if part:
                out.append(re.sub(r'\.(old|new|now)', '', part))
    return out


def main():
    found = collections.OrderedDict()

    def add(point, place):
        found.setdefault(point, []).append(place)

    heads, pairs = collections.defaultdict(list), collections.defaultdict(list)
    for path, text in files('src', '.rt'):
        lines = text.split('\n')
        for m in re.finditer(r'^(?:pub(?:\(crate\))? )?enum (\w+) \{(.*?)^\}', text, re.S | re.M):
            variants = re.findall(r'^    (\w+)', m.group(2), re.M)
            if m.group(1) not in ('Refusal', 'Cause') and any(v in ABSENT for v in variants):
                add('1 enums of the shape of Option or Result', '%s: %s' % (path, m.group(1)))
        for n, line in enumerate(lines, 1):
            code = line.split('//')[0]
            if re.search(r'(\bkind\b|field[34]\([^()]*, 0\)) (==|!=|<=|>=|<|>) [0-9]', code) or re.search(r'\b(node_is|branch_is)\([^()]*, [0-9]\)', code):
                add('1 kinds compared with numbers', '%s:%d' % (path, n))
            if re.search(r'^\s*[A-Z]\w*::\w+(\(.*\))? => (\w+\()?[0-9, ]+\)?,?$', code):
                add('1 numbers for the cases of an enum', '%s:%d' % (path, n))
            if re.search(r'^\s*(\'\w+: )?while\b', code):
                add('3 while loops', '%s:%d' % (path, n))
            if re.search(r'^\s*\w+ [+-]= 1;$', code):
                add('3 counters stepped by hand', '%s:%d' % (path, n))
            m = re.match(r'^\s*(\w+): (\w+),$', code)
            if m and m.group(1) == m.group(2):
                add('4 fields named twice', '%s:%d' % (path, n))
            if re.search(r'^\s*match ', code):
                arms = [x for x in lines[n:n + 14] if '=>' in x]
                if len(arms) > 2 and all(re.search(r'=> [\w:.]+\(', x) for x in arms[:3]):
                    add('7 switches on what to run', '%s:%d' % (path, n))
        for name, params, result, clauses, n in functions(text):
            if re.search(r'(8|16|32|64|[a-z][134])$', name):
                add('2 functions of one size or width', '%s:%d %s' % (path, n, name))
            if name in LIBRARY:
                add('4 what the library has, by hand', '%s:%d %s' % (path, n, name))
            words = [p.strip() for p in params.split(',')]
            names = [w.split(':')[0].strip() for w in words if ':' in w]
            if re.search(r': &(mut )?\[', params) and any(x in ('count', 'length', 'n', 'end') for x in names):
                add('6 buffers with a length or an end beside', '%s:%d %s' % (path, n, name))
            if 'table' in names and 'index' in names:
                pairs['table, index'].append('%s:%d %s' % (path, n, name))
            if 'counts' in names and 'enabled' in names:
                pairs['counts, enabled'].append('%s:%d %s' % (path, n, name))
            for fact in set(facts(clauses)):
                heads[fact].append('%s:%d %s' % (path, n, name))
    for fact, places in sorted(heads.items(), key=lambda x: -len(x[1])):
        if len(places) >= 3:
            for place in places:
                add('5 facts in the requires of three or more functions', '%s  [%s]' % (place, fact))
    for names, places in pairs.items():
        for place in places:
            add('5 parameters that travel together', '%s  [%s]' % (place, names))
    for path, text in files('proofs', 'Answers.antt'):
        for m in re.finditer(r'^pub [\w◌\'-]+ : (?:\(.*?\) → )?goal\.', text, re.M):
            add('8 answers', path)
    for point, places in found.items():
        print('%s: %d' % (point, len(places)))
        if '-l' in sys.argv[1:]:
            for place in places:
                print('    ' + place)


if __name__ == '__main__':
    main()
