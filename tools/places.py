#!/usr/bin/env python3
"""Counts the places of older forms in src/ of every crate: python3 tools/places.py [FOLDER] [-l lists them].

1 refusals and absence: enums with a case that stands for nothing, truth values kept beside a value, numbers that stand for a kind or for
  nothing, errors and absence turned into another error by hand. 2 twins: functions of one name in more than one place, and pairs of places
  of one shape. 3 loops that index by hand. 4 equality, conversion and printing by hand. 5 facts in three or more contracts of a
  crate, and three parameters together in three or more functions. 6 arrays with a length, arrays beside arrays. 7 switches on steps, tables
  of functions. 8 lines of proofs."""
import collections, glob, itertools, os, re, sys

FN = re.compile(r'^[ \t]*(?:pub(?:\([a-z]+\))? )?(?:const )?fn (\w+)', re.M)

def sources(top):
    for f in sorted(glob.glob(top + '/crates/*/src/*.rt')):
        text = open(f).read()
        yield f[len(top) + 8:], re.sub(r'^[ \t]*//.*$', '', text, flags=re.M)

def line_of(text, at):
    return text.count('\n', 0, at) + 1

def grep(srcs, pattern):
    return ['%s:%d %s' % (f, line_of(s, m.start()), m.group(0).strip().split('\n')[0])
            for f, s in srcs for m in re.finditer(pattern, s, re.M)]

def block(text, at):
    at = text.index('{', at)
    depth = 0
    for i in range(at, len(text)):
        depth += (text[i] == '{') - (text[i] == '}')
        if depth == 0:
            return text[at:i + 1]
    return text[at:]

def functions(text):
    ms = list(FN.finditer(text))
    for m, n in itertools.zip_longest(ms, ms[1:]):
        yield m.group(1), m.start(), text[m.start():n.start() if n else len(text)]

def point1(srcs):
    out = []
    for f, s in srcs:
        for m in re.finditer(r'^(?:pub(?:\(crate\))? )?enum (\w+)', s, re.M):
            if re.search(r'^\s*(Absent|Nothing|Neither|None|Missing|Empty),', block(s, m.start()), re.M):
                out.append('%s:%d enum %s' % (f, line_of(s, m.start()), m.group(1)))
    out += grep(srcs, r'^\s+(?:pub(?:\(crate\))? )?\w+: bool,')
    out += grep(srcs, r'^[^:\n{]*\b(?:255|4294967295|u32::MAX)\b[^}\n]*$')
    out += grep(srcs, r'let Ok\(.*\belse\b|\.is_err\(\)|Err\(_\) =>')
    for f, s in srcs:
        for m in re.finditer(r'let (?:Some|\(Some)\(.*else \{\s*return Err', s):
            out.append('%s:%d %s' % (f, line_of(s, m.start()), m.group(0).split('\n')[0]))
    return out

def shape(line):
    line = re.sub(r'"[^"]*"', 'S', line.strip())
    return re.sub(r'\b[A-Za-z_]\w*\b', lambda m: m.group(0) if m.group(0) in ('let', 'mut', 'for', 'in', 'if', 'else', 'match', 'return', 'Ok', 'Err', 'Some', 'None', 'fn', 'impl', 'struct', 'while', 'self', 'ghost') else 'n', re.sub(r'\d+', '0', line))

def point2(srcs, size=7):
    names = collections.defaultdict(list)
    for f, s in srcs:
        for name, at, seg in functions(s):
            names[name, seg.split(')')[0].count(':')].append('%s:%d' % (f, line_of(s, at)))
    out = ['fn %s: %s' % (n[0], ', '.join(w)) for n, w in sorted(names.items())
           if len(w) > 1 and n[0] not in ('main', 'run', 'new') and len({x.split('/')[0] for x in w}) > 1]
    seen = {}
    for f, s in srcs:
        rows = [(i + 1, shape(l)) for i, l in enumerate(s.split('\n'))
                if l.strip() and not re.match(r'\s*(ghost use|use |ensures|requires|pub mod|mod )', l)]
        last = -99
        for k in range(len(rows) - size + 1):
            key = tuple(r[1] for r in rows[k:k + size])
            if len(set(key)) < 4:
                continue
            if key in seen and (seen[key][0] != f or abs(seen[key][1] - rows[k][0]) >= size):
                if k - last > size:
                    out.append('%s:%d has the shape of %s:%d' % (f, rows[k][0], *seen[key]))
                last = k
            else:
                seen.setdefault(key, (f, rows[k][0]))
    return out

def point3(srcs):
    out = []
    for f, s in srcs:
        for m in re.finditer(r'^\s*(for|while)\b([^\n]*)\{$', s, re.M):
            head, body = m.group(2), block(s, m.end() - 1)
            var = re.match(r' \(?(\w+)', head)
            ranged = m.group(1) == 'for' and ('..' in head or 'enumerate' in head) and re.search(r'\[[^\]]*\b%s\b|\(\w+, %s\)|\w\(%s\)|\b%s as usize|_place\(' % ((var.group(1),) * 4), body)
            byhand = m.group(1) == 'while' and not head.strip().startswith('let Some(x)')
            if ranged or byhand:
                out.append('%s:%d %s%s' % (f, line_of(s, m.start() + 1), m.group(1), head))
            elif m.group(1) == 'for' and re.search(r'return (true|false);|\bsum \+=|\+= 1;', body):
                out.append('%s:%d %s%s' % (f, line_of(s, m.start() + 1), m.group(1), head))
    return out

def point4(srcs):
    return grep(srcs, r'^\s*(?:pub(?:\([a-z]+\))? )?fn (same|same_items|number|place|place_of|of|value|eight|single|proper|verdict|\w+_text|\w+_line|written|right_side|card_event|card_pattern)\b[^\n]*') + \
        grep(srcs, r'push_str\(\s*(?:format!|\w+\(|\w+\.as_str).*')

def point5(srcs):
    out = []
    for crate, group in itertools.groupby(srcs, lambda x: x[0].split('/')[0]):
        facts, sets = collections.defaultdict(list), {}
        for f, s in group:
            for name, at, seg in functions(s):
                head = re.split(r'\n\s*(?:ensures|requires)|\{\n', seg)[0]
                params = sorted(set(re.findall(r'(\w+): [&\w]', head)) - {'rt', 'heap', 'alloc'})
                sets['%s:%d' % (name, at)] = {x for x in params if x[0].islower()}
                for c in re.findall(r'(?:ensures|requires)[^{\n]*\{ (.*) \}', seg):
                    for part in c.split(' × '):
                        k = re.sub(r'\.(old|new|now|exit|entry)\b', '', part.strip('() '))
                        if name not in facts[k]:
                            facts[k].append(name)
        out += ['%s: fact %s in %s' % (crate, k, ', '.join(w)) for k, w in facts.items() if len(w) >= 3 and not k.startswith('result')]
        shared = {frozenset(a & b) for a, b in itertools.combinations(sets.values(), 2) if len(a & b) >= 3}
        for k in sorted(shared, key=sorted):
            w = [n.split(':')[0] for n, ps in sets.items() if k <= ps]
            if len(w) >= 3:
                out.append('%s: parameters %s in %s' % (crate, ' '.join(sorted(k)), ', '.join(w)))
    return out

def point6(srcs):
    out = []
    for f, s in srcs:
        for m in re.finditer(r'^(?:pub(?:\(crate\))? )?struct (\w+)', s, re.M):
            if '{' not in s[m.start():s.find('\n', m.start())]:
                continue
            body = block(s, m.start())
            if re.search(r'\b(count|len|length): (usize|u8)', body) and '[' in body:
                out.append('%s:%d struct %s' % (f, line_of(s, m.start()), m.group(1)))
    return out + grep(srcs, r'(?:->|=) \[[^\]\n]*; (?:1024|8|9)\].*|^\s+each: [^\n]*')

def point7(srcs):
    return grep(srcs, r'enum (?:Stage|Step|State)\b.*|match \(?(?:\w+\.)?stage\b.*|: fn\(.*|\bdyn .*')

def main():
    args = [a for a in sys.argv[1:] if a != '-l']
    top = os.path.abspath(args[0] if args else '.')
    srcs = list(sources(top))
    for n, p in enumerate((point1, point2, point3, point4, point5, point6, point7), 1):
        found = p(srcs)
        print('%d: %d' % (n, len(found)))
        if '-l' in sys.argv:
            print(''.join('   %s\n' % x for x in found), end='')
    print('8: %d' % sum(1 for f in glob.glob(top + '/crates/*/proofs/**/*.antt', recursive=True) for l in open(f) if l.strip()))

main()
