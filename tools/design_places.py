#!/usr/bin/env python3
"""Lists places in crates/*/src where code may be written in a plainer form, by search.

    tools/design_places.py            the count of each search
    tools/design_places.py NAME       the places that one search finds

A search finds candidates. docs/DESIGN-PASS.md says of each which are places, and what became of them.
"""
import glob
import re
import sys
from collections import defaultdict

FILES = {path: open(path).read() for path in sorted(glob.glob('crates/*/src/**/*.rt', recursive=True))}


def code(text):
    """The text with comments blanked out."""
    return re.sub(r'//[^\n]*', lambda m: ' ' * len(m.group()), text)


def lines(pattern, drop=None):
    """Each line that the pattern matches."""
    for path, text in FILES.items():
        for number, line in enumerate(code(text).split('\n'), 1):
            if re.search(pattern, line) and not (drop and re.search(drop, line)):
                yield f'{path}:{number}: {line.strip()}'


def spans(pattern):
    """Each match of a pattern that may go over lines."""
    for path, text in FILES.items():
        for m in re.finditer(pattern, code(text)):
            yield f'{path}:{text.count(chr(10), 0, m.start()) + 1}: {" ".join(m.group().split())[:110]}'


FUNCTION = re.compile(r'(?m)^ *(?:pub(?:\([a-z]+\))? )?(?:const )?fn (\w+)')


def functions():
    """Path, line, name, head (from the name on, with its clauses) and body of each function."""
    for path, text in FILES.items():
        clean = code(text)
        for m in FUNCTION.finditer(clean):
            open_brace = body_start(clean, m.end())
            if open_brace is None:
                continue
            close = matching(clean, open_brace)
            yield path, clean.count('\n', 0, m.start()) + 1, m.group(1), clean[m.start(1):open_brace], clean[open_brace:close + 1]


def body_start(text, at):
    """The brace that opens the body: one that no `requires` or `ensures` begins."""
    while True:
        brace, end = text.find('{', at), text.find(';', at)
        if brace < 0 or 0 <= end < brace:
            return None
        word = re.search(r'(requires|ensures)\*?(?: [a-z_]+)? *$', text[at:brace])
        if not word:
            return brace
        at = matching(text, brace) + 1


def matching(text, at):
    depth = 0
    for i in range(at, len(text)):
        depth += {'{': 1, '}': -1}.get(text[i], 0)
        if depth == 0:
            return i
    return len(text) - 1


def shape(body):
    """The body with each name and number replaced, so that bodies of one shape are equal."""
    body = re.sub(r'"[^"]*"', 'S', body)
    body = re.sub(r'\b(?!(?:if|else|match|for|in|while|let|mut|return|Some|None|Ok|Err|self|fn)\b)[A-Za-z_]\w*', 'x', body)
    return re.sub(r'\b\d[\d_]*', 'n', ''.join(body.split()))


def twins():
    """Groups of functions whose bodies have one shape, of at least 40 signs."""
    groups = defaultdict(list)
    for path, number, name, _, body in functions():
        groups[shape(body)].append(f'{path}:{number} {name}')
    for body, members in groups.items():
        if len(members) > 1 and len(body) >= 40:
            yield ', '.join(members)


def enums():
    """Enums of the same variants."""
    groups = defaultdict(list)
    for path, text in FILES.items():
        for m in re.finditer(r'enum (\w+)[^{;]*\{([^}]*)\}', code(text)):
            groups[' '.join(re.findall(r'(?m)^ *([A-Z]\w*)', m.group(2)))].append(f'{path} {m.group(1)}')
    for variants, members in groups.items():
        if len(members) > 1:
            yield f'{", ".join(members)}: {variants}'


def together():
    """Pairs of parameters of one name and type that stand together in five or more functions."""
    groups = defaultdict(set)
    for path, _, name, head, _ in functions():
        head = re.sub(r'<[^<>()]*(?:<[^<>()]*>[^<>()]*)*>', '', head)
        listed = re.search(r'\((.*?)\)\s*(?:->|where|requires|ensures|$)', head, re.S)
        found = re.findall(r'(\w+): ([^,()]+)', listed.group(1)) if listed else []
        for i, first in enumerate(found):
            for second in found[i + 1:]:
                groups[(first, second)].add(f'{path} {name}')
    for (first, second), where in sorted(groups.items(), key=lambda entry: -len(entry[1])):
        if len(where) >= 5:
            yield f'{len(where)} {first[0]}: {first[1].strip()}, {second[0]}: {second[1].strip()}'


def facts():
    """Facts of clauses that stand in three or more functions, whatever value they are of."""
    groups = defaultdict(set)
    for path, number, name, head, _ in functions():
        for clause in re.findall(r'(?:requires|ensures)\*?(?: [a-z_]+)? \{(.*?)\}\s*(?=requires|ensures|$)', head, re.S):
            fact = re.sub(r'\b(self|array|store|log|tokens|caches)(?=\.)', 'v', ' '.join(clause.split()))
            groups[fact].add(f'{path}:{number} {name}')
    for fact, where in sorted(groups.items(), key=lambda entry: -len(entry[1])):
        if len(where) >= 3:
            yield f'{len(where)} {fact[:160]}'


def answers():
    """Answers and lemmas written by hand, by crate."""
    for crate in sorted(glob.glob('crates/*/')):
        texts = [open(path).read() for path in glob.glob(crate + 'proofs/**/*.antt', recursive=True)]
        count = sum(len(re.findall(r'(?m)^pub \S+ : goal\.', text)) for text in texts)
        size = sum(text.count('\n') for text in texts)
        yield f'{crate.split("/")[1]}: {count} answers, {size} lines'


SEARCHES = {
    '1-refusal-handed-up': lambda: lines(r'if let Err\(\w+\) =|Err\(\w+\) => (return )?Err\('),
    '1-refusal-as-option': lambda: spans(r'fn \w+[^{;]*?-> Option<\w*Refusal>'),
    '1-absence-handed-up': lambda: spans(r'None => (?:return )?None,|Err\(_\) => (?:return )?None,|let (?:Ok|Some)\([^=]*?\) = [^;{]*?else \{\s*return (?:None|Ok\(None\)|Ok\(false\)|false)'),
    '1-false-for-no-form': lambda: lines(r'Result<bool, AllocError>|fn take\(&mut self, setting: Setting\) -> bool'),
    '1-flag': lambda: lines(r'^ +(pub(\([a-z]+\))? )?\w+: (&mut )?\[?bool\b.*,$'),
    '1-number-for-a-kind': lambda: lines(r'qualifier: u8|\.number\(\) == [A-Z]'),
    '1-answer-of-no-meaning': lambda: spans(r'-> u8\s+ensures \{ \w+ \}'),
    '1-own-option': lambda: lines(r'enum Step\b'),
    '2-bodies-of-one-shape': twins,
    '2-enums-of-one-shape': enums,
    '3-loop': lambda: lines(r'\bwhile\b|: loop|\.enumerate\(\)|for \w+ in \(?[0-9A-Za-z_.()* +-]+\.\.'),
    '4-by-name': lambda: lines(r'fn (kind_of|qualifier_of|order_of|read_(disks|layout|log_kind|counts)|number|byte|digit|plain|with_\w+|form|done|truth|next|\w+_word|write_\w+|log_layer|place_detail|log_detail|device_refusal|record_of|block_of|is|is_to|holds|gives|nothing_taken|name)\b', r'fn (write_stripe)\b'),
    '5-together': together,
    '5-facts': facts,
    '6-length-beside': lambda: lines(r'^ +(pub(\([a-z]+\))? )?(len|count): usize,'),
    '6-parallel': lambda: lines(r'held: &(mut )?\[bool'),
    '7-tables': lambda: lines(r'\bdyn\b|[:(<] *fn\(|impl Fn'),
    '8-answers': answers,
}


def main():
    if len(sys.argv) > 1:
        for line in SEARCHES[sys.argv[1]]():
            print(line)
        return
    for name, search in SEARCHES.items():
        print(f'{name}: {sum(1 for _ in search())}')


main()
