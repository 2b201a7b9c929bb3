"""Commands that look at a run, beside what the slow programs in plain Python say of it.

`ask` answers a command line in a folder with the diagram `d` and the input file `i`, or has None where no answer came in time; `put` writes a file
there. Each function tells what differs. `CHANGED` counts the changed traces, images and dumps.
"""
import collections

import plain_judge
import plain_save
import plain_vcd
import text_changes

CHANGED = collections.Counter()


def changed(draw, what, content):
    """A text with a change by chance, which is counted."""
    CHANGED[what] += 1
    return text_changes.drawn_change(draw, content)


def counts():
    return ', '.join('%d changed %s' % (CHANGED[what], what) for what in ('traces', 'images', 'dumps'))


def differing(ask, words, due, what=''):
    given = ask(words)
    return [] if given in (None, due) else ['%s%s: %r in place of %r' % (' '.join(words), what, given, due)]


def judged(ask, put, draw, bounds, traces, count):
    """Verdicts on the run's trace, which comes first, on what others made of it, and on so many changed ones."""
    wrong = []
    for content in traces + [changed(draw, 'traces', traces[0]) for _ in range(count)]:
        put('v', content)
        out, status = plain_judge.verdict(traces[0], content)
        wrong += differing(ask, ['judge', 'd', 'i', 'v'] + bounds, (out, b'', status))
    return wrong


def parts(trace):
    """A trace reaction by reaction, and its last line where that ends the run."""
    found = []
    for line in trace.splitlines(True):
        if line.startswith((b'start', b'event', b'end ')):
            found.append(b'')
        found[-1] += line
    return found


def encoded(answer):
    return answer[0].encode(), answer[1].encode(), answer[2]


def resumed(ask, put, draw, bounds, net, columns, due, reactions, count):
    """Behind each of these reactions the image, and that the reactions up to there with what goes on from it are the run's trace; and as many changed
    images of each. `due` is the answer of `simulate`."""
    wrong, limits = [], list(map(int, bounds))
    for reaction in reactions:
        saved = encoded(plain_save.saved(net, columns, *limits, reaction))
        wrong += differing(ask, ['save', 'd', 'i'] + bounds + [str(reaction)], saved)
        if saved[2]:
            return wrong
        put('s', saved[0])
        wrong += differing(ask, ['resume', 'd', 'i', 's'] + bounds, (b''.join(parts(due[0])[reaction:]), b'', due[2]), ' behind reaction %d' % reaction)
        for _ in range(count):
            other = changed(draw, 'images', saved[0])
            put('s', other)
            wrong += differing(ask, ['resume', 'd', 'i', 's'] + bounds, encoded(plain_save.resumed(net, columns, other, *limits)), ' of %r' % other)
    return wrong


def dumped(ask, put, draw, bounds, net, columns, ticks, count):
    """The run's dump, its values at so many ticks, most of them near those of changes, and so many changed dumps."""
    dump, status = plain_vcd.of_run(net, columns, *map(int, bounds))
    wrong = differing(ask, ['vcd', 'd', 'i'] + bounds, (dump.written().encode(), b'', status))
    put('w', dump.written().encode())
    near = [tick + more for tick, _ in dump.ticks for more in (-1, 0, 1)] + [0, 1, 2**62]
    for tick in [min(draw.choice(near), 2**62) for _ in range(ticks)]:
        wrong += differing(ask, ['vcdat', 'w', str(tick)], (dump.told(tick).encode(), b'', 0))
    for _ in range(count):
        other, tick = changed(draw, 'dumps', dump.written().encode()), draw.choice(near)
        put('w', other)
        wrong += differing(ask, ['vcdat', 'w', str(tick)], encoded(plain_vcd.told(other, tick)), ' of %r' % other)
    return wrong
