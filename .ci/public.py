"""Holds every public function of the crates to two rules: no `requires`, and an `ensures` where it has a result or is lent something to write.

usage: public.py CRATES
"""
import glob
import re
import sys

PUBLIC = re.compile(r'^\s*(?:pub )(?:extern "C" )?fn (\w+)', re.M)


def head(text, start):
    """The function's text from its name to the brace that opens its body."""
    depth = 0
    for at in range(start, len(text)):
        c = text[at]
        if c == '{':
            before = text[start:at].rstrip()
            if depth == 0 and not re.search(r'(?:requires|ensures)(?:\s+\w+)?$', before):
                return text[start:at]
            depth += 1
        elif c == '}':
            depth -= 1
    return text[start:]


def main(folder):
    wrong = []
    count = 0
    for path in sorted(glob.glob(f'{folder}/*/src/**/*.rt', recursive=True)):
        source = re.sub(r'//[^\n]*', '', open(path, encoding='utf8').read())
        for found in PUBLIC.finditer(source):
            count += 1
            contract = head(source, found.start())
            name = f'{path}: {found.group(1)}'
            if re.search(r'\brequires\b', contract):
                wrong.append(f'{name}: has a `requires`')
            if ('->' in contract or '&mut' in contract) and not re.search(r'\bensures\b', contract):
                wrong.append(f'{name}: has no `ensures`')
    print('\n'.join(wrong + [f'{count} public functions, {len(wrong)} faults']))
    return 1 if wrong or not count else 0


sys.exit(main(sys.argv[1]))
