"""Changed texts of lines: traces, images and dumps with a mistake."""
import re

HUGE = ('10000000000000000000000', '18446744073709551616', '9223372036854775808', '4611686018427387905', '4294967296', '2147483648', '1000001', '256')


def changed_numbers(line):
    """The line with one of its numbers changed, or spelled in another way."""
    for found in re.finditer(rb'-?[0-9]+', line):
        before, number, behind = line[:found.start()], found.group(), line[found.end():]
        for other in (b'%d' % (int(number) + 1), b'%d' % (int(number) - 1), b'%d' % -int(number), b'0' + number, b'+' + number, b'-' + number, b'', number + b'0'):
            if other != number:
                yield before + other + behind
        yield before + HUGE[len(line) % len(HUGE)].encode() + behind


def changed_lines(line):
    """Other lines in the place of one: none, it twice, an empty one before it, spaces and bytes more or less."""
    yield from ([], [line, line], [b'', line], [line[:-1]], [line + b' '], [b' ' + line], [line + b'\r'], [line + b'\0'], [line.replace(b' ', b'  ', 1)],
                [line.replace(b' ', b'\t', 1)], [line.upper()], [b''])
    for other in changed_numbers(line):
        yield [other]


def changed_texts(content, at=None):
    """Each text with one change: of the whole, and of each line or of those with the numbers `at`, counted from 0."""
    lines = content.split(b'\n')[:-1]
    yield from (b'', content[:-1], content[1:], content + b'\n', content + b'x', content + b'\0', b'\n' + content, content.replace(b'\n', b'\r\n'),
                content.replace(b'\n', b'\r'), b'\xef\xbb\xbf' + content, content + content, content[:-1] + b'\r\n')
    for k in range(len(lines)) if at is None else at:
        for other in changed_lines(lines[k]):
            yield b''.join(line + b'\n' for line in lines[:k] + other + lines[k + 1:])
        if k + 1 < len(lines):
            yield b''.join(line + b'\n' for line in lines[:k] + [lines[k + 1], lines[k]] + lines[k + 2:])


def drawn_change(draw, content):
    """A text with a change by chance, near what it was."""
    lines = content.split(b'\n')[:-1] or [b'']
    at, which = draw.randrange(len(lines)), draw.randrange(8)
    if which < 3:
        lines[at:at + 1] = draw.choice([[other] for other in changed_numbers(lines[at])] or [[b'x']])
    elif which == 3:
        lines[at:at + 1] = draw.choice(list(changed_lines(lines[at])))
    elif which == 4:
        other = draw.randrange(len(lines))
        lines[at], lines[other] = lines[other], lines[at]
    elif which == 5:
        lines.insert(draw.randint(0, len(lines)), lines[at])
    elif which == 6:
        line, place = bytearray(lines[at]), draw.randint(0, len(lines[at]))
        line[place:place + draw.randint(0, 1)] = draw.choice([b'0', b'1', b'9', b'-', b' ', b'x', b'z', b'#', b'b', b'\r', b'\n', bytes([draw.randrange(256)])])
        lines[at] = bytes(line)
    else:
        end = draw.randint(0, len(content))
        return content[:end] + (b'' if draw.random() < 0.7 else content[draw.randint(0, len(content)):])
    return b''.join(line + b'\n' for line in lines)
