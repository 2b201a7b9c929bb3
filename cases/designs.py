"""The designs in the folders of examples/: what each must do, in plain Python, beside what the program does."""
import itertools
import json
import os
import random
import re
import shutil
import subprocess
import sys
import tempfile

TOP = os.path.join(os.path.dirname(os.path.abspath(__file__)), '..')
EXAMPLES = os.path.join(TOP, 'examples')


def within(low, high, number):
    return min(max(number, low), high)


def short(number):
    """A number brought into int16."""
    return within(-32768, 32767, number)


# What is due of a design, from the columns of its input file up to the last date: by the first words of lines of the trace the dates of
# these events, or the dates with these values.

def pi_controller(columns, until):
    integral, drives = 0, []
    for k, (reference, speed) in enumerate(zip(*columns)):
        error = short(reference - speed)
        wanted = short(short(2 * error) + integral)
        drive = within(0, 1000, wanted)
        integral += error // 4 if drive == wanted else (drive - integral) // 8
        drives.append((10 * k, drive))
    return {'val 8 1 1': drives}


def push_button(columns, until):
    contacts, steady, states, presses = [0, 0] + columns[0], 0, [], []
    for k in range(len(columns[0])):
        last = set(contacts[k:k + 3])
        if len(last) == 1 and last != {steady}:
            steady = last.pop()
            presses += [(5 * k, (len(presses) + 1) % 256)] if steady else []
        states.append((5 * k, steady))
    return {'val 6 1 1': states, 'val 9 1 1': presses}


def traffic_light(columns, until):
    lasts = {'green': 10, 'amber': 3, 'red': 12, 'red and amber': 2}
    follows = {'amber': 'red', 'red': 'red and amber', 'red and amber': 'green'}
    date, state, states, buttons = 0, 'green', [], list(columns[0])
    while date <= until:
        states.append((date, state))
        date += lasts[state]
        if date <= until:
            state = follows[state] if state != 'green' else 'amber' if buttons.pop(0) else 'green'
    return {'val 11 1 1': [(date, list(lasts).index(state) + 1) for date, state in states],
            'val 11 1 2': [(date, int('red' in state)) for date, state in states],
            'val 11 1 3': [(date, int('amber' in state)) for date, state in states],
            'val 11 1 4': [(date, int(state == 'green')) for date, state in states]}


def moving_average(columns, until):
    samples = [0, 0, 0] + columns[0]
    return {'val 6 1 1': [(10 * k, sum(samples[k:k + 4]) // 4) for k in range(len(columns[0]))]}


def stepper(columns, until):
    steps = columns[0][0]
    delays = [max(10, 40 - 8 * min(done, steps - 1 - done)) for done in range(steps)]
    dates = [sum(delays[:done]) for done in range(steps + 1)]
    return {'event 13 1': dates[1:], 'val 12 1 1': list(zip(dates, delays + [-1]))}


def thermostat(columns, until):
    heated, rooms = [0, 0], [[], []]
    for k, readings in enumerate(zip(*columns)):
        for room, reading in enumerate(readings):
            heated[room] = 1 if reading < 190 else 0 if reading > 210 else heated[room]
            rooms[room].append((60 * k, heated[room]))
    boiler = [(date, kitchen or study) for (date, kitchen), (_, study) in zip(*rooms)]
    return {'val 7 1 1': rooms[0], 'val 12 1 1': rooms[1], 'val 14 1 1': boiler}


def watchdog(columns, until):
    signs, alarm = [60], [(50, 1)]
    for gap in columns[0][:-1]:
        signs.append(signs[-1] + gap)
    for sign, following in zip(signs, signs[1:] + [until]):
        alarm += [(sign, 0)] + ([(sign + 50, 1)] if following - sign > 50 else [])
    timeouts = [date for date, value in alarm if value]
    return {'event 1 1': signs, 'event 3 1': timeouts, 'val 6 1 1': alarm, 'val 7 1 1': [(date, (k + 1) % 256) for k, date in enumerate(timeouts)]}


def quadrature(columns, until):
    forward = [(0, 0), (1, 0), (1, 1), (0, 1)]
    before, position, positions, faults = (0, 0), 0, [], []
    for date, tracks in enumerate(zip(*columns)):
        turn = (forward.index(tracks) - forward.index(before)) % 4
        position += {1: 1, 3: -1}.get(turn, 0)
        positions.append((date, position))
        faults.append((date, int(turn == 2)))
        before = tracks
    return {'val 7 1 1': positions, 'val 6 3 1': faults}


def pulse_width(columns, until):
    return {'val 5 1 1': [(date, int(date % 8 < columns[0][date // 8])) for date in range(until + 1)]}


def rate_limiter(columns, until):
    value, values = 0, []
    for date in range(0, until + 1, 10):
        value += within(-8, 5, columns[0][date // 40] - value)
        values.append((date, value))
    return {'val 7 1 1': values, 'val 9 1 1': [(date, int(value > 20)) for date, value in values]}


def profile(gaps, values):
    """By date the value that begins there; each lasts for its gap."""
    return dict(zip(itertools.accumulate([0] + gaps), values))


def motor_pi(columns, until):
    setpoints, loads = profile(*columns[:2]), profile(*columns[2:])
    setpoint = load = integral = state = 0
    drives, speeds = [], []
    for date in range(until + 1):
        if date > 1:  # at 0 the clock comes before the profiles
            setpoint, load = setpoints.get(date, setpoint), loads.get(date, load)
        elif date == 1:
            setpoint, load = setpoints[0], loads[0]
        speed = state >> 14
        error = setpoint - speed
        wanted = (819 * error >> 12) + (integral >> 16)
        drive = within(0, 1000, wanted)
        integral += 131 * error if (wanted - drive) * error <= 0 else 0
        state += 164 * (30 * drive - load - speed)
        drives.append((date, drive))
        speeds.append((date, speed))
    return {'val 16 1 1': drives, 'val 26 1 1': speeds}


def debouncer(columns, until):
    count = pressed = 0
    timeout, states, presses, long, held = None, [], [], [], []
    for date, closed in zip(range(0, until + 1, 5), columns[0]):
        if date == timeout:  # which was programmed before the clock's event
            long.append((date, (len(long) + 1) % 256))
            held.append((date, 1))
        count = within(0, 3, count + (1 if closed else -1))
        was, pressed = pressed, {0: 0, 3: 1}.get(count, pressed)
        if pressed > was:
            timeout = date + 300
            presses.append((date, (len(presses) + 1) % 256))
        elif pressed < was:
            timeout = None
            held.append((date, 0))
        states.append((date, pressed))
    return {'val 12 1 1': states, 'val 22 1 1': presses, 'val 25 1 1': long, 'val 28 1 1': held}


def supervisor(columns, until):
    mode, drive, integral, state = 'idle', 0, 0, 0
    modes, drives, measurements = [], [], []
    for date, setpoint in zip(range(0, until + 1, 10), columns[2]):
        if date % 100 == 0:
            command, temperature = columns[0][date // 100], columns[1][date // 100]
            hot = mode == 'run' and temperature >= 900 or mode == 'fault' and (temperature >= 700 or command)
            mode = 'fault' if hot else 'run' if command and mode != 'fault' else 'idle'
            modes.append((date, ['idle', 'run', 'fault'].index(mode) + 1))
        measured = state >> 4
        error = setpoint - measured
        integral = integral if mode == 'run' else 0
        drive = {'idle': 0, 'run': within(0, 1000, 2 * error + (integral >> 4)), 'fault': max(drive - 20, 0)}[mode]
        integral = within(-16000, 16000, integral + error)
        state += drive - measured
        drives.append((date, drive))
        measurements.append((date, measured))
    return {'val 15 1 1': modes, 'val 32 1 1': drives, 'val 34 1 1': measurements}


def remainder(message):
    """What is left of a message of bytes, and 8 zeros behind it, when it is divided by x^8 + x^2 + x + 1 as polynomials modulo 2."""
    number = int.from_bytes(message, 'big') << 8
    while number > 255:
        number ^= 0x107 << number.bit_length() - 9
    return number


def crc8(columns, until):
    assert remainder(b'123456789') == 0xf4  # as catalogues of CRCs have it
    return {'val 20 1 1': [(10 * k, remainder(bytes(columns[0][:k + 1]))) for k in range(until // 10 + 1)]}


def fir8(columns, until):
    samples = [0] * 7 + columns[0]
    return {'val 10 1 1': [(k, sum(a * b for a, b in zip((1, 3, 6, 10, 10, 6, 3, 1), samples[k:k + 8]))) for k in range(until + 1)]}


def elevator_door(columns, until):
    closed, opens, is_open, closes = range(4)
    state, position, timeout, states, positions = closed, 0, None, [], []
    for date, call, blocked in zip(range(0, until + 1, 200), *columns):
        if date == timeout:  # which was programmed before the clock's event
            state = closes
            states.append((date, state))
        before = state
        if before == closed and call or before == closes and (call or blocked):
            state = opens
        elif before == opens and position >= 100:
            state = is_open
        elif before == closes and position <= 0:
            state = closed
        if state == is_open and (before != is_open or call or blocked):
            timeout = date + 3000
        states.append((date, state))
        positions.append((date, position))
        position = within(0, 100, position + {opens: 20, closes: -20}.get(state, 0))
    return {'val 21 1 1': states, 'val 35 1 1': positions}


def longer(name):
    """A longer input file of the design, from a seed, and the last date that it lasts to."""
    seed = random.Random(name)

    def column(count, *ranges):
        return [seed.randint(*seed.choice(ranges)) for _ in range(count)]

    def steps(count, *ranges):
        """Columns of a profile: gaps, of which the last is none, and values."""
        return [column(count - 1, (2, 400)) + [-1], column(count, *ranges)]

    bounces = [bit for _ in range(200) for bit in [seed.randint(0, 1)] * seed.choice([1, 2, 3, 30, 60, 61, 62, 120])]
    return {'motor-pi': (steps(12, (0, 25000)) + steps(12, (0, 5000)), 3000),
            'debouncer': ([bounces], 5 * len(bounces) - 5),
            'supervisor': ([column(300, (0, 1), (1, 1)), column(300, (600, 1000)), column(3000, (0, 1000), (500, 510))], 29990),
            'crc8': ([column(300, (0, 255))], 2990),
            'elevator-door': ([[int(seed.random() < 0.02) for _ in range(3000)] for _ in range(2)], 599800),
            'fir8': ([column(300, (-32768, 32767))], 299),
            'pi-controller': ([[0] + column(299, (0, 2000), (-32768, 32767)), [0] + column(299, (0, 2000), (-32768, 32767))], 2990),
            'push-button': ([[1, 1, 0] + column(8997, (0, 1))], 44995),
            'traffic-light': ([column(200, (0, 1))], 2000),
            'moving-average': ([column(300, (-9, 9), (-100000, 100000))], 2990),
            'stepper': ([column(1, (50, 99))], 10000),
            'thermostat': ([column(300, (180, 220)), column(300, (180, 220))], 17940),
            'watchdog': ([column(1000, (0, 60), (40, 99)) + [-1]], 100000),
            'quadrature': ([column(300, (0, 1)), column(300, (0, 1))], 299),
            'pulse-width': ([column(40, (0, 8))], 319),
            'rate-limiter': ([column(40, (-9, 9), (15, 25), (-99, 99))], 1590)}[name]


DESIGNS = {'pi-controller': pi_controller, 'push-button': push_button, 'traffic-light': traffic_light, 'moving-average': moving_average,
           'stepper': stepper, 'thermostat': thermostat, 'watchdog': watchdog, 'quadrature': quadrature, 'pulse-width': pulse_width,
           'rate-limiter': rate_limiter, 'motor-pi': motor_pi, 'debouncer': debouncer, 'supervisor': supervisor, 'crc8': crc8, 'fir8': fir8,
           'elevator-door': elevator_door}

COUNTS = {'push-button': [('b9_1_1', 25)], 'debouncer': [('b22_1_1', 140), ('b25_1_1', 810)]}  # with the dates at which they become 1


def text(*path):
    with open(os.path.join(EXAMPLES, *path)) as file:
        return file.read()


def answer(program, *words):
    run = subprocess.run([program] + list(words), cwd=TOP, stdin=subprocess.DEVNULL, capture_output=True, timeout=120)
    return run.stdout.decode(), run.stderr.decode(), run.returncode


def seen(trace, key):
    """The dates of a trace's lines with these first words, and the values in them; what start gives is left out."""
    date, found = None, []
    for line in trace.splitlines():
        words = line.split()
        if words[0] == 'event':
            date = int(words[1])
            words = ['event'] + words[2:]
        if date is not None and ' '.join(words[:3 if words[0] == 'event' else 4]) == key:
            found.append(date if words[0] == 'event' else (date, int(words[4])))
    return found


def apart(what, given, due):
    """Where two lists come apart first, or nothing."""
    for k, (one, other) in enumerate(itertools.zip_longest(given, due)):
        if one != other:
            return ['%s: number %d is %r in place of %r' % (what, k + 1, one, other)]
    return []


def lines(run):
    """A run's lines, and what else it answers."""
    return run[0].splitlines(keepends=True) + [run[1:]]


def wrong_values(name, trace, columns, until):
    due = DESIGNS[name](columns, until)
    return sum((apart(key, seen(trace, key), due[key]) for key in due), [])


def wrong_shown(program, name, bounds):
    """Counts of presses are shown as 0 until the first: in the dump of the run, as a viewer shows it."""
    wrong = []
    with tempfile.TemporaryDirectory() as work:
        dump = os.path.join(work, 'v')
        with open(dump, 'w') as file:
            file.write(answer(program, 'vcd', 'examples/%s/diagram.json' % name, 'examples/%s/inputs.json' % name, *bounds)[0])
        for signal, date in COUNTS.get(name, ()):
            shown = [dict(line.split() for line in answer(program, 'vcdat', dump, str(at))[0].splitlines())[signal] for at in (0, date - 1, date)]
            wrong += [] if shown == ['0', '0', '1'] else ['%s shows %r at 0, before %d and at %d' % (signal, shown, date, date)]
    return wrong


def wrong_runs(program, name, bounds):
    """The run on the inputs beside the diagram gives the trace beside it; that and a run on longer ones are what is due; the C is that beside it, and runs
    alike."""
    columns, until = longer(name)
    diagram, own = 'examples/%s/diagram.json' % name, 'examples/%s/inputs.json' % name
    with tempfile.TemporaryDirectory() as work:
        source, other = os.path.join(work, 'c'), os.path.join(work, 'i')
        made, errors, status = answer(program, 'ccode', diagram)
        with open(source, 'w') as file:
            file.write(made)
        with open(other, 'w') as file:
            json.dump(columns, file)
        wrong = apart('ccode', lines((made, errors, status)), lines((text(name, 'program.c'), '', 0)))
        runs = [answer(program, 'simulate', diagram, own, *bounds), answer(program, 'simulate', diagram, other, str(until), '100000')]
        given = [answer(program, 'crun', source, own, *bounds), answer(program, 'crun', source, other, str(until), '100000')]
    wrong += apart('simulate', lines(runs[0]), lines((text(name, 'trace.txt'), '', 0))) + apart('longer', [runs[1][1:]], [('', 0)])
    wrong += wrong_values(name, runs[0][0], json.loads(text(name, 'inputs.json')), int(bounds[0])) + wrong_values(name, runs[1][0], columns, until)
    return wrong + sum((apart('crun', lines(run), lines(due)) for run, due in zip(given, runs)), [])


def wrong_design(program, name):
    """The page's commands are the run that is looked at, the same with the C, and its waveforms; its table is the program's map."""
    page, folder = text(name, 'README.md'), 'examples/' + name
    commands = [line.split() for line in re.findall(r'^    (\S.*)$', page, re.M)]
    bounds = commands[0][-2:] if commands else []
    due = ['./scicos simulate %s/diagram.json %s/inputs.json' % (folder, folder), './scicos host > host.c',
           'gcc -std=c99 -O2 -o %s %s/program.c host.c && ./%s %s/inputs.json' % (name, folder, name, folder),
           './scicos vcd %s/diagram.json %s/inputs.json' % (folder, folder), './scicos-kit waves --diagram %s/diagram.json %s.vcd > %s.svg' % (folder, name, name)]
    if commands != [due[0].split() + bounds, due[1].split(), due[2].split() + bounds, due[3].split() + bounds + ['>', name + '.vcd'], due[4].split()]:
        return ['the commands of the page are %r' % commands]
    blocks = [' '.join(line.split()[:3]) for line in answer(program, 'map', folder + '/diagram.json')[0].splitlines()]
    rows = [' '.join(row) for row in re.findall(r'^\| (\d+) \| (\S+) \| (\w+) \|', page, re.M)]
    return wrong_runs(program, name, bounds) + wrong_shown(program, name, bounds) + apart('the table', rows, blocks) + wrong_names(name, page)


def named(objects):
    """The names of the blocks of a diagram, in the order of `map`."""
    for thing in objects:
        model = thing.get('model', {})
        if model.get('sim') == 'super':
            yield from named(model['rpar']['objs'])
        elif thing['obj'] == 'Block' and thing['gui'] not in ('IN_f', 'OUT_f', 'CLKINV_f', 'CLKOUTV_f', 'CLKSOM_f', 'GOTO', 'FROM', 'CLKGOTO', 'CLKFROM'):
            yield thing['name']


def wrong_names(name, page):
    """The names in the page's table are those of the diagram."""
    rows = re.findall(r'^\| \d+ \| \S+ \| \w+ \| ([^|]+) \|', page, re.M)
    return apart('the names', rows, list(named(json.loads(text(name, 'diagram.json'))['objs'])))


def designs(program):
    """Each folder of examples/ but those of pictures and of the closed loop is a design that does what it must, and the list of examples names it."""
    folders = {name for name in os.listdir(EXAMPLES) if os.path.isdir(os.path.join(EXAMPLES, name))} - {'pictures', 'closed-loop'}
    listed = set(re.findall(r'^\| \[`([\w-]+)`\]', text('README.md'), re.M))
    wrong = [] if folders == listed == set(DESIGNS) else ['the folders are %r, the list has %r' % (folders, listed)]
    for name in sorted(DESIGNS):
        wrong += ['%s: %s' % (name, told) for told in wrong_design(program, name)]
    return '; '.join(wrong)


def pythons():
    """The interpreters that there are, Debian's and the one on the path, each once; those before 3.11 don't run the package."""
    found = {os.path.realpath(path): path for path in ('/usr/bin/python3', shutil.which('python3'), sys.executable) if path and os.path.exists(path)}
    return [path for path in found.values() if subprocess.run([path, '-c', 'import sys; sys.exit(sys.version_info < (3, 11))']).returncode == 0]


def lines_of(source):
    """How many lines a drawing in Python has behind its imports, without blank lines and comments."""
    drawn = re.split(r'^from scicos import (?:\([^)]*\)|.*)$', source, flags=re.M)[1]
    return sum(1 for line in drawn.splitlines() if line.strip() and not line.strip().startswith('#'))


def wrong_drawing(name, python, work):
    """The drawing in Python, run elsewhere without installation, writes the bytes of the diagram's file."""
    folder = os.path.join(work, 'examples', name)
    os.makedirs(folder, exist_ok=True)
    shutil.copy(os.path.join(EXAMPLES, name, 'design.py'), folder)
    run = subprocess.run([python, '-I', '-S', '-B', os.path.join(folder, 'design.py')], cwd='/', capture_output=True, timeout=120)
    if (run.returncode, run.stdout, run.stderr) != (0, b'', b''):
        return ['%s: design.py gives %r' % (name, run)]
    with open(os.path.join(folder, 'diagram.json')) as file:
        return apart('%s: diagram.json by %s' % (name, python), file.read().splitlines(), text(name, 'diagram.json').splitlines())


def designs_in_python(program):
    """Each design's `design.py` writes its `diagram.json`, byte for byte and by the standard library alone; `lint` has no warning but those that it grants;
    and the table of examples tells how many lines it has."""
    wrong = []
    with tempfile.TemporaryDirectory() as work:
        os.symlink(os.path.join(os.path.abspath(TOP), 'python'), os.path.join(work, 'python'))
        for name, python in itertools.product(sorted(DESIGNS), pythons()):
            wrong += wrong_drawing(name, python, work)
    for name in sorted(DESIGNS):
        run = subprocess.run([os.path.join(TOP, 'scicos-kit'), 'lint', os.path.join(EXAMPLES, name, 'diagram.json')], capture_output=True, timeout=120,
                             env=dict(os.environ, SCICOS=program))
        wrong += [] if (run.returncode, run.stdout, run.stderr) == (0, b'', b'') else ['%s: lint gives %r' % (name, run)]
    told = {name: int(count) for name, count in re.findall(r'^\| `([\w-]+)` \| (\d+) \| (?:\d+|-) \| (?:\d+|-) \|$', text('README.md'), re.M)}
    due = {name: lines_of(text(name, 'design.py')) for name in DESIGNS}
    return '; '.join(wrong + ([] if told == due else ['the lines of Python are told as %r in place of %r' % (told, due)]))
