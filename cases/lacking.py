"""Tools that a case calls and that may not be installed here: what isn't tried for want of one is told, so that the count of passes doesn't hide it."""
import shutil


def untried(what, why):
    print('not tried: %s, for want of %s' % (what, why), flush=True)


def lacks(what, *tools):
    """Whether one of these tools isn't installed, for want of which this is told not to be tried."""
    missing = [tool for tool in tools if shutil.which(tool) is None]
    if missing:
        untried(what, ' and '.join(missing))
    return bool(missing)
