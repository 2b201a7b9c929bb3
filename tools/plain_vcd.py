"""Value change dumps in plain Python: `vcd` writes one, and `vcdat` reads it, as the package does that reads dumps for viewers and pictures."""
import os
import sys

import plain_run

sys.path.insert(0, os.path.join(plain_run.HERE, '..', 'python'))
from scicos.dump import Dump, WrongLine, read  # noqa: E402


def of_run(net, columns, until, limit):
    """The dump of a run, and its status."""
    run, dump = plain_run.Run(net, columns), Dump()
    blocks = [net.blocks[number] for number in sorted(net.blocks)]
    dump.signals = [(kind, (b.number, port, element)) for b in blocks for port, (kind, rows, cols) in enumerate(b.outs, 1)
                    for element in range(1, rows * cols + 1)]
    at_ticks = {0: run.held}
    for _, end in run.reactions(until, limit):
        if not (end or '').startswith('stop '):
            at_ticks[run.now] = run.held
    before = None
    for tick, held in sorted(at_ticks.items()):
        now = [value for b in blocks for elements in held[b.number] for value in elements]
        changes = [(n, value) for n, value in enumerate(now, 1) if before and before[n - 1] != value]
        dump.ticks += [(tick, changes)] if changes else []
        dump.first, before = dump.first if before is not None else now, now
    return dump, 6 if end.startswith('stop ') else 0


def told(content, tick):
    """What `vcdat` prints on standard output and on standard error, and its status."""
    try:
        return read(content).told(tick), '', 0
    except WrongLine as wrong:
        return '', 'refused 37 NotVcd at - %s\n' % wrong, 1
