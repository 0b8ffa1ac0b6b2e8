#!/usr/bin/env python3
"""Counts the places in src/ that a newer form of the language may serve better.

usage: places.py [POINT..] [--list] [--root FOLDER]

Each point is a search that errs on the side of too many: docs/DESIGN-PASS.md says which of the places found are such.
  1  numbers, bytes or flags in place of an enum, an Option or a Result
  2  functions of one body, or of one name in two files of a crate, or with as many parameters anywhere; constants of one name and value
  3  loops that count an index
  4  conversion, comparison and printing written as a function
  5  clauses that stand in three functions or more; functions of six parameters or more
  6  a slice or an array with its length beside it
  7  switches on a kind; function pointers and dyn
  8  answers and lemmas of proofs
"""
import collections, glob, os, re, sys

args = sys.argv[1:]
root = '.'
if '--root' in args:
    i = args.index('--root'); root = args[i + 1]; del args[i:i + 2]
listing = '--list' in args
points = [int(a) for a in args if a.isdigit()] or list(range(1, 9))
files = sorted(glob.glob(os.path.join(root, 'crates/*/src/**/*.rt'), recursive=True))
text = {f: open(f).read() for f in files}
short = lambda f: os.path.relpath(f, os.path.join(root, 'crates'))


def without_comments(t):
    return re.sub(r'//[^\n]*', lambda m: ' ' * len(m.group()), t)


def lines(pattern, skip=None):
    found = []
    for f in files:
        for n, l in enumerate(without_comments(text[f]).split('\n'), 1):
            if re.search(pattern, l) and not l.strip().startswith(('requires', 'ensures', 'ghost', '→')) and not (skip and re.search(skip, l)):
                found.append(f'{short(f)}:{n}: {l.strip()}')
    return found


def functions():
    """file, line, name, parameters, clauses, body"""
    for f in files:
        t = without_comments(text[f])
        for m in re.finditer(r'\bfn (\w+)', t):
            i = t.find('(', m.end()); depth = 0; j = i
            while True:
                depth += (t[j] in '([{') - (t[j] in ')]}')
                j += 1
                if depth == 0: break
            parameters = [p for p in re.split(r',(?![^<(\[]*[>)\]])', t[i + 1:j - 1]) if p.strip()]
            k = j
            # the body begins at the first brace that no clause opens
            while k < len(t) and t[k] not in '{;':
                k += 1
            head = t[j:k]; clauses = []
            while k < len(t) and t[k] == '{' and re.search(r'\b(requires|ensures)\b[ \w]*$', t[j:k].rstrip()[-40:]):
                depth = 0; s = k
                while True:
                    depth += (t[k] == '{') - (t[k] == '}')
                    k += 1
                    if depth == 0: break
                clauses.append(' '.join(t[s + 1:k - 1].split()))
                j = k
                while k < len(t) and t[k] not in '{;':
                    k += 1
            own = not re.search(r'\n(pub(\(crate\))? )?(impl[^\n]* for |trait )[^\n]*\{\n(?:(?!\n\}).)*$', t[:m.start()], re.S)
            body = ''
            if k < len(t) and t[k] == '{':
                depth = 0; s = k
                while True:
                    depth += (t[k] == '{') - (t[k] == '}')
                    k += 1
                    if depth == 0: break
                body = ' '.join(t[s:k].split())
            yield f, t.count('\n', 0, m.start()) + 1, m.group(1), parameters, clauses, body, own


def point(n):
    if n == 1:
        return (lines(r"b'[a-z]'(?!\.\.)") + lines(r'-> .*\([^()]*bool[^()]*\)') + lines(r'u(8|16|32|64)::MAX|const NO_|\bNONE: ')
                + lines(r'^\s*(pub )?fn .*-> u(8|32)\b.*', r'extern') + lines(r'\benum '))
    if n == 2:
        seen = collections.defaultdict(list)
        for f, l, name, ps, cs, body, own in functions():
            if len(body) > 12: seen[('fn', name, re.sub(r'\W+', ' ', body))].append(f'{short(f)}:{l}')
        names = collections.defaultdict(list)
        for f, l, name, ps, cs, body, own in functions():
            if own: names[name, str(len(ps))].append(f'{short(f)}:{l}')
            if own: names[name, short(f).split('/')[0]].append(f'{short(f)}:{l}')
        out = [f'fn {k[1]}, the same body: ' + ', '.join(v) for k, v in seen.items() if len(v) > 1]
        out += [f'fn {k[0]}: ' + ', '.join(v) for k, v in sorted(names.items())
                if len({x.split(":")[0] for x in v}) > 1 and k[0] not in ('main', 'new') and not any(o.startswith(f'fn {k[0]},') for o in out)]
        out = list(dict.fromkeys(out))
        consts = collections.defaultdict(list)
        for f in files:
            for m in re.finditer(r'\bconst (\w+): [\w\[\]; ]+ = ([\w_]+);', text[f]):
                consts[m.group(1), m.group(2).replace('_', '')].append(short(f))
        out += [f'const {k[0]} {k[1]}: ' + ', '.join(v) for k, v in sorted(consts.items()) if len(v) > 1]
        return out
    if n == 3:
        return lines(r'\bwhile\b|\bfor \w+ in \(?[\w.]+\.\.(?!\])', r'for _ in|rt\.forever')
    if n == 4:
        return lines(r'\bfn (same|key|from_\w+|to_\w+|as_\w+|\w+_of|name|named|show\w*|number|place|push_\w+|fmt)\b')
    if n == 5:
        count = collections.defaultdict(set)
        for f, l, name, ps, cs, body, own in functions():
            for c in cs: count[re.sub(r'\b\w+\.(now|old)\b', r'_.\1', c) if re.search('length', c) else c].add((short(f), name))
        out = [f'{len(v)} functions: {k[:110]}' for k, v in sorted(count.items(), key=lambda kv: -len(kv[1])) if len(v) > 2 and 'result' not in k]
        out += [f'{short(f)}:{l}: fn {name}: {len(ps)} parameters' for f, l, name, ps, cs, body, own in functions() if len(ps) > 5]
        return out
    if n == 6:
        out = [f'{short(f)}:{l}: fn {name}({", ".join(" ".join(p.split()) for p in ps)})' for f, l, name, ps, cs, body, own in functions()
               if any('[' in p for p in ps) and any(re.search(r'\b(d|n|count|size|len|rows|steps|states|a|b|width): usize', p) for p in ps)]
        return out + lines(r'^\s*(pub(\(crate\))? )?\w+: \[[^;\]]+; \w+\],$|^\s*\w+: &\'a mut \[')
    if n == 7:
        return lines(r'\bmatch (self|kind|letter|code|\*code|bracketing|name|fields)\b|\bdyn\b|: fn\(')
    answers = glob.glob(os.path.join(root, 'crates/*/proofs/**/Answers.antt'), recursive=True)
    lemmas = [f for f in glob.glob(os.path.join(root, 'crates/*/proofs/*.antt')) if not f.endswith('Lib.antt')]
    pub = lambda f: len(re.findall(r'^pub [^ ]+ :', open(f).read(), re.M))
    named = lambda f: len(re.findall(r'^\s*(?:pub )?[a-z][\w\'-]* :', open(f).read(), re.M))
    return ([f'{os.path.relpath(f, root)}: {pub(f)} answers' for f in sorted(answers)] + [f'{os.path.relpath(f, root)}: {named(f)} lemmas' for f in sorted(lemmas)])


for n in points:
    found = point(n)
    if n == 8:
        total = lambda w: sum(int(l.split(': ')[1].split()[0]) for l in found if l.endswith(w))
        print(f'8: {total("answers")} answers in {sum(l.endswith("answers") for l in found)} files, {total("lemmas")} lemmas in {sum(l.endswith("lemmas") for l in found)} files')
    else:
        print(f'{n}: {len(found)}')
    if listing:
        for l in found: print('  ', l)
