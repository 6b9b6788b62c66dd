"""The form of the stored cases (data/README.md): fields of a line to words and bytes, and back."""
import itertools
import os


def with_runs(field, one):
    """The items of a field, `,` between them, each of them so often as a `*N` behind it says."""
    items = []
    for part in [] if field == '-' else field.split(','):
        item, _, times = part.partition('*')
        items.append((one(item), int(times or 1)))
    return items


def words_of(field):
    """KIND:NUMBER is two words, the first in hex, the second in decimal; +KIND is a lone one."""
    def row(item):
        kind, _, number = item.partition(':')
        return [int(kind, 16)] + ([] if item.startswith('+') else [int(number)])
    return [w for row, times in with_runs(field, row) for w in row * times]


def bytes_of(field):
    """Hex digits; a run repeats the last byte before it."""
    return b''.join(bs + bs[-1:] * (times - 1) for bs, times in with_runs(field, bytes.fromhex))


def runs(items):
    """Equal neighbours as pairs (item, how often)."""
    return [(item, sum(1 for _ in equal)) for item, equal in itertools.groupby(items)]


def words_field(words):
    rows = [f'{words[i]:02x}:{words[i + 1]}' for i in range(0, len(words) - 1, 2)]
    parts = [f'{row}*{times}' if times > 1 else row for row, times in runs(rows)]
    if len(words) % 2:
        parts.append(f'+{words[-1]:02x}')
    return ','.join(parts) or '-'


def bytes_field(bs):
    parts = ['']
    for byte, times in runs(bs):
        if times < 8:
            parts[-1] += f'{byte:02x}' * times
        else:
            parts += [f'{byte:02x}*{times}', '']
    return ','.join(part for part in parts if part) or '-'


def refusal_field(number, place):
    return f'!{number}@{place}'


def cases_in(path):
    """The cases of a file, with the number of each line."""
    with open(path, encoding='utf-8') as file:
        for number, line in enumerate(file, 1):
            line = line.rstrip('\n')
            if line and not line.startswith('#'):
                yield number, line


def store(name, sections):
    """Writes a file of data/: for each section its heading and its cases, each case once."""
    seen = set()
    with open(os.path.join(os.path.dirname(os.path.abspath(__file__)), 'data', name), 'w', encoding='utf-8') as file:
        for heading, cases in sections:
            file.write(f'# {heading}\n')
            for line in cases():
                if line not in seen:
                    file.write(line + '\n')
                seen.add(line)
    print(f'{name}: {len(seen)} cases')
