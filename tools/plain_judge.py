"""What `judge` says of a text beside the trace of the run, in plain Python."""
import itertools


def verdict(due, given):
    """What is printed and the status, of the bytes of a file beside the run's trace."""
    ours, theirs = due.split(b'\n')[:-1], given.split(b'\n')[:-1]
    if given == due:
        return b'yes %d\n' % len(ours), 0
    agreed = itertools.takewhile(lambda lines: lines[0] == lines[1], zip(ours, theirs))
    return b'no %d\n' % (sum(1 for _ in agreed) + 1), 8
