#!/usr/bin/env python3
"""Places that the design pass looks at, point by point (docs/DESIGN-PASS.md): python3 tools/places.py [POINT..] [--list]

Without --list the counts alone. What a rule finds is a candidate; the page says which are places.
"""
import re
import sys
from collections import defaultdict
from pathlib import Path

ROOT = Path(__file__).resolve().parent.parent / 'crates'
FN = re.compile(r'^( *)(?:pub(?:\([a-z]+\))? )?(?:extern "C" )?fn ([a-z_0-9]+)', re.M)


def sources():
    for path in sorted(ROOT.glob('*/src/**/*.rt')):
        yield path.relative_to(ROOT), re.sub(r'//[^\n]*', '', path.read_text())


def functions():
    """Each function: where it stands, its name, its signature with the clauses, its body."""
    for path, text in sources():
        starts = [m for m in FN.finditer(text)]
        for m in starts:
            end = text.find('\n' + m.group(1) + '}', m.end())
            whole = text[m.start():end]
            cut = re.search(r'\n' + m.group(1) + r'\{$|\) *(?:-> [^\n]*)?\{$', whole, re.M)
            head = whole[:cut.start()] if cut else whole
            yield path, m.group(2), head, whole[len(head):]


def types(word):
    for path, text in sources():
        for m in re.finditer(r'^ *(?:pub(?:\([a-z]+\))? )?' + word + r' ([A-Za-z]+)[^\n{]*\{\n(.*?)^ *\}', text, re.M | re.S):
            yield path, m.group(1), m.group(2)


def enums():
    """Two cases, one of them with a value; and three or more where one says that there is none."""
    for path, name, body in types('enum'):
        cases = re.findall(r'^\s*([A-Z][A-Za-z0-9]*)(\([^)]*\))?,', body, re.M)
        valued = [c for c, v in cases if v]
        none = [c for c, v in cases if c in ('No', 'None', 'Nothing', 'Absent', 'Wrong', 'Refused', 'NoName', 'NoNumber', 'End', 'Broken', 'Unwritten')]
        if (len(cases) == 2 and valued) or none:
            yield f'{path}: enum {name}'


def flags():
    """A field that says whether the fields beside it mean something: a bool, or a refusal's number."""
    for path, name, body in types('struct'):
        for field in re.findall(r'^\s*(?:pub(?:\([a-z]+\))? )?([a-z_0-9]+): (?:bool|u32),', body, re.M):
            if field == 'refusal' or re.search(r'\b' + field + r': bool', body):
                yield f'{path}: {name}.{field}'


def numbers():
    """Constants that number a kind, a refusal or a status, and functions that answer a number for none, a kind or a refusal."""
    for path, text in sources():
        for name in re.findall(r'^pub const ((?:REFUSAL|KIND)_[A-Z_]+|DONE|USAGE|NO_INPUT|NO_OUTPUT|NOT_WRITTEN): u32', text, re.M):
            yield f'{path}: {name}'
    for path, name, head, body in functions():
        result = re.search(r'\) -> (u32|usize)\s', head)
        if result and re.search(r'is_status|broken \(|refusal_of|number_of|found_of|is_ray|ends_as|result ≡ number\b', head):
            yield f'{path}: {name}'
        elif result and re.search(r'^(at_rank|first_value|first_entry|numbered|broken_limit|broken_after_k)$', name):
            yield f'{path}: {name}'
        elif re.search(r'\b(number|layer|l|il): (u32|usize)', head) and re.search(r'\b(number|layer|l|il) == ', body):
            yield f'{path}: {name}'


def loops():
    """A `while` or `loop` whose body moves a counter by one, down or up."""
    for path, name, head, body in functions():
        for m in re.finditer(r'^( *)(while [^\n]*|loop )\{\n(.*?)^\1\}', body, re.M | re.S):
            if re.search(r'\b[a-z_]+ [+-]= 1;', m.group(3)):
                yield f'{path}: {name}'


def all_loops():
    for path, name, head, body in functions():
        for m in re.finditer(r'^ *(while [^\n]*|loop )\{$', body, re.M):
            yield f'{path}: {name}: {m.group(1)}'


STD = re.compile(r'^(abs|min|max|minus|less|plus|times|up_to|up_to_three|at_most|counted|inside|same|is|empty|is_[a-z_]+|unsigned|int|bits_of_int|word|put_word|join|byte|put_byte|kind_by|verb_of|help|twice|few|more|next|or_else|power|size|columns|trimmed|zero|line_end|other)$')


def by_hand():
    """Functions with the name of what a derive or a method of std gives."""
    for path, name, head, body in functions():
        if STD.match(name):
            yield f'{path}: {name}'


def parameters(head):
    inside = head[head.find('(') + 1:]
    return re.findall(r'\b([a-z_0-9]+): ((?:&(?:\'a )?(?:mut )?)?(?:\[[^\]]*\]|\[\[[^\]]*\]; 5\]|[A-Za-z][A-Za-z0-9_:]*))', inside.split(')\n')[0].split(') ->')[0])


GROUPS = {
    'out, at': ('out', 'at'),
    'job, answer': ('job', 'answer'),
    'the columns': ('delfx', 'hpflx', 'htflx'),
    'the tables': ('fvert', 'hprim', 'htrue', 'afac'),
    'out, err': ('out', 'err'),
    'line, n': ('line', 'n'),
    'across, up': ('across', 'up'),
}


def together():
    for path, name, head, body in functions():
        given = [p for p, t in parameters(head)]
        for group, names in GROUPS.items():
            if all(n in given for n in names):
                yield f'{path}: {name} ({group})'


def clauses():
    """A clause, its names apart, that stands in the contracts of three or more functions."""
    seen = defaultdict(list)
    for path, name, head, body in functions():
        for kind, text in re.findall(r'\b(requires|ensures)(?: [a-z_0-9]+)? \{(.*?)\}\s*(?=\n|$)', head, re.S):
            text = ' '.join(text.split())
            if len(text) > 8 and not re.search(r'result ≡ (?!true)', text):
                seen[kind, re.sub(r'\b(r|s|i|a|b)\b(?! <)', r'\1', text)].append(f'{path}: {name}')
    for (kind, text), where in sorted(seen.items(), key=lambda x: -len(x[1])):
        if len(where) >= 3:
            yield f'{len(where)} x {kind} {{ {text} }}'
            for place in where:
                yield '    ' + place


def buffers():
    """A buffer with how much of it is used beside it: lent (out, at) or an array of bytes filled to a length."""
    for path, name, head, body in functions():
        given = [p for p, t in parameters(head)]
        if 'out' in given and 'at' in given:
            yield f'{path}: {name} (lent)'
        for m in re.finditer(r'= \[0u8; (\d+|[A-Za-z:_ +]+)\];', body):
            yield f'{path}: {name} ([u8; {m.group(1)}])'


def arrays():
    """Structs and signatures of three or more arrays of one length."""
    for path, name, body in types('struct'):
        sizes = re.findall(r': \[[a-z0-9]+; (\d+)\]', body)
        if any(sizes.count(s) >= 3 for s in sizes):
            yield f'{path}: struct {name}'


def switches():
    """An enum without values of which one function alone makes each case run another step."""
    for path, name, body in types('enum'):
        if name in ('Piece', 'Kind', 'Arc'):
            yield f'{path}: enum {name}'


def answers():
    """Answers in proof files, and lines of lemmas."""
    for path in sorted(ROOT.glob('*/proofs/**/Answers.antt')):
        for m in re.findall(r'^pub ([^ ]+) : goal', path.read_text(), re.M):
            yield f'{path.relative_to(ROOT)}: {m}'


def lemmas():
    for path in sorted(ROOT.glob('*/proofs/*.antt')):
        for m in re.findall(r'^ *(?:pub |abbrev pub |unfoldable pub )?([^\s:]+) : ', path.read_text(), re.M):
            yield f'{path.relative_to(ROOT)}: {m}'


POINTS = {
    '1': [('enums', enums), ('flags', flags), ('numbers', numbers)],
    '3': [('counted loops', loops), ('all loops', all_loops)],
    '4': [('by hand', by_hand)],
    '5': [('parameters together', together), ('repeated clauses', clauses)],
    '6': [('buffers', buffers), ('parallel arrays', arrays)],
    '7': [('switches', switches)],
    '8': [('answers', answers), ('lemmas', lemmas)],
}


def main():
    wanted = [a for a in sys.argv[1:] if a in POINTS] or list(POINTS)
    for point in wanted:
        for title, rule in POINTS[point]:
            found = list(rule())
            top = [f for f in found if not f.startswith('    ')]
            print(f'point {point}, {title}: {len(top)}')
            if '--list' in sys.argv:
                for place in found:
                    print('  ' + place)


if __name__ == '__main__':
    main()
