"""Diagrams that break a rule or stand at a limit, each with the line that is due, worked out by hand.

A diagram is written as its objects in order. `block` gives a block of a kind; ports are of one element and of type int32
(code 3) unless it says otherwise. `wire` and `event` are a regular link and an activation link, from (block, port) to
(block, port).
"""


def block(gui, ins=(), outs=(), evtin=0, evtout=0, types=3, **model):
    """A block whose rows are `ins` and `outs`; `types` is the type of all its ports, or a list for each side."""
    intyp, outtyp = types if isinstance(types, tuple) else ([types] * len(ins), [types] * len(outs))
    model = dict({'in': list(ins), 'intyp': list(intyp), 'out': list(outs), 'outtyp': list(outtyp), 'evtin': [1] * evtin, 'evtout': [1] * evtout}, **model)
    return {'obj': 'Block', 'gui': gui, 'model': model}


def superblock(objs, ins=(), outs=(), evtin=0, evtout=0):
    return block('SUPER_f', ins, outs, evtin, evtout, sim='super', rpar={'objs': objs})


def wire(source, target, kind=1):
    return {'obj': 'Link', 'from': [*source, 0], 'to': [*target, 1], 'ct': [1, kind]}


def event(source, target):
    return {'obj': 'Link', 'from': [*source, 0], 'to': [*target, 1], 'ct': [5, -1]}


TEXT = {'obj': 'Text'}
CLOCK = block('EVTDLY_c', evtin=1, evtout=1, ipar=1, firing=0)


def constant(*values, rows=1, types=3):
    return block('CONST_m', outs=[rows], types=types, ipar=list(values))


def gain(ins=(1,), outs=(1,), types=3, factor=2):
    return block('GAINBLK', ins, outs, types=types, ipar=[0, factor])


def nested(levels, objs=()):
    """These objects below so many superblocks, so that they are in the level behind these."""
    objs = list(objs)
    for _ in range(levels):
        objs = [superblock(objs)]
    return objs


def sensor(column):
    return block('SENSOR', outs=[1], evtin=1, ipar=[column])


def delay(types=-1, rows=1):
    return block('DOLLAR_m', [rows], [rows], types=types, dstate=0)


ABSENT = object()


def gated(feed=ABSENT):
    """A gated delay in a cycle through its first input; `feed` is what its field says of its dependence on its inputs, where it is there."""
    model = {} if feed is ABSENT else {'dep_ut': feed}
    return [CLOCK, block('GATED_DELAY', [1, 1], [1], evtin=1, dstate=[0], **model), constant(1), block('SUMMATION', [1, 1], [1], ipar=[0, 1, 1]),
            event((1, 1), (1, 1)), event((1, 1), (2, 1)), wire((2, 1), (4, 1)), wire((3, 1), (4, 2)), wire((4, 1), (2, 1)), wire((3, 1), (2, 2))]


GOTO = block('GOTO', [1], ipar=[7, 1])
FROM = block('FROM', outs=[1], ipar=7)


# name, objects, what is due behind 'refused '
REFUSALS = [
    ('no objects', None, '2 MissingField at - 1'),
    ('no gui', [{'obj': 'Block', 'model': {}}], '2 MissingField at 1 3'),
    ('no diagram inside', [block('SUPER_f', sim='super')], '2 MissingField at 1 15'),
    ('a size that is no whole number', [block('CONST_m', outs=[1.5])], '3 WrongField at 1 9'),
    ('a size past 2^31 - 1', [block('CONST_m', outs=[2147483648])], '3 WrongField at 1 9'),
    ('seventeen levels, the last of them empty', nested(16), '4 TooDeep at ' + '/'.join(['1'] * 16) + ' 16'),
    ('seventeen levels, a block in the last', nested(16, [CLOCK]), '4 TooDeep at ' + '/'.join(['1'] * 16) + ' 16'),
    ('eighteen levels', nested(17), '4 TooDeep at ' + '/'.join(['1'] * 16) + ' 16'),
    ('no objects in the seventeenth level', nested(15, [block('SUPER_f', sim='super', rpar={})]), '4 TooDeep at ' + '/'.join(['1'] * 16) + ' 16'),
    ('seventeen levels behind another mistake', [TEXT, block('SCOPE')] + nested(16), '4 TooDeep at 3/' + '/'.join(['1'] * 15) + ' 16'),
    ('too many blocks', [CLOCK] * 2049, '5 TooManyBlocks at - 2049'),
    ('too many links', [CLOCK] + [event((1, 1), (1, 1))] * 16385, '6 TooManyLinks at - 16385'),
    ('an unknown block', [TEXT, block('SCOPE', ins=[1])], '7 UnknownBlock at 2'),
    ('an unknown block inside', [TEXT, superblock([TEXT, TEXT, block('SCOPE')])], '7 UnknownBlock at 2/3'),
    ('a mode that there is not', [block('ABS_VALUE', [1], [1], ipar=3)], '8 BadParameter at 1 1 1 3'),
    ('too many parameters', [block('ABS_VALUE', [1], [1], ipar=[0, 0])], '8 BadParameter at 1 1 0 2'),
    ('a state below its least', [block('Modulo_Count', outs=[1], evtin=1, ipar=3, dstate=-1)], '8 BadParameter at 1 2 1 -1'),
    ('a first date past 2^31 - 1', [block('EVTDLY_c', evtin=1, evtout=1, ipar=1, firing=2147483648)], '8 BadParameter at 1 3 1 2147483648'),
    ('no feedthrough where the kind has it', [block('GAINBLK', [1], [1], ipar=[0, 2], dep_ut=[False, False])], '8 BadParameter at 1 4 1 0'),
    ('no feedthrough, where the kind has it at its second input', gated([False, False]), '8 BadParameter at 2 4 1 0'),
    ('feedthrough at another input than the kind has', gated([[True, False], False]), '8 BadParameter at 2 4 2 0'),
    ('feedthrough of too few inputs', gated([[True], False]), '8 BadParameter at 2 4 0 1'),
    ('feedthrough of no inputs', gated([[], False]), '8 BadParameter at 2 4 0 0'),
    ('feedthrough of too many inputs', gated([[True, True, True], False]), '8 BadParameter at 2 4 0 3'),
    ('always active, and feedthrough of too few inputs', gated([[True], True]), '11 AlwaysActive at 2'),
    ('feedthrough of every input, and a loop', gated([True, False]), '24 AlgebraicLoop at 2 1 1 2 4'),
    ('feedthrough of each input, and a loop', gated([[True, True], False]), '24 AlgebraicLoop at 2 1 1 2 4'),
    ('a number for feedthrough of an input', gated([[1, True], False]), '3 WrongField at 2 18'),
    ('a list for feedthrough of an input', gated([[[True], True], False]), '3 WrongField at 2 18'),
    ('null for feedthrough', gated([None, False]), '3 WrongField at 2 18'),
    ('a list for always active', gated([True, [False]]), '3 WrongField at 2 18'),
    ('null for dependence', gated(None), '3 WrongField at 2 18'),
    ('a truth for dependence', gated(True), '3 WrongField at 2 18'),
    ('dependence without entries', gated([]), '3 WrongField at 2 18'),
    ('dependence of one entry', gated([[False, True]]), '3 WrongField at 2 18'),
    ('dependence of three entries', gated([[], True, 0]), '3 WrongField at 2 18'),
    ('tags are not counted as blocks', [GOTO] * 2049, '34 TooManyTags at - 2049'),
    ('1,025 tags', [block('CLKGOTO', evtin=1, ipar=[k + 1, 1]) for k in range(1025)], '34 TooManyTags at - 1025'),
    ('a tag given to an output', [TEXT, block('GOTO', [1], [1], ipar=[7, 1])], '31 TagShape at 2 1'),
    ('ports before parameters', [block('CLKFROM', ipar=[7, 1])], '31 TagShape at 1 1'),
    ('a tag given without a scope', [superblock([block('CLKGOTO', evtin=1, ipar=7)])], '31 TagShape at 1/1 2'),
    ('a tag taken with a scope', [block('FROM', outs=[1], ipar=[7, 3])], '31 TagShape at 1 2'),
    ('a tag past the greatest', [block('FROM', outs=[1], ipar=2147483648)], '31 TagShape at 1 2'),
    ('a tag given twice', [FROM, superblock([GOTO, GOTO]), GOTO], '32 TagTwice at 2/2 7'),
    ('a tag given everywhere twice', [superblock([block('GOTO', [1], ipar=[9, 3])]), GOTO, block('GOTO', [1], ipar=[9, 3])], '32 TagTwice at 3 9'),
    ('a tag given elsewhere', [superblock([GOTO]), superblock([FROM])], '33 TagMissing at 2/1 7'),
    ('a tag of activations alone', [block('CLKGOTO', evtin=1, ipar=[7, 3]), FROM], '33 TagMissing at 2 7'),
    ('tags before blocks', [block('SCOPE'), gain([1, 1]), FROM], '33 TagMissing at 3 7'),
    ('a tag that nothing feeds', [GOTO, FROM, gain(), wire((2, 1), (3, 1))], '15 NoSource at 3 1'),
    ('a tag that feeds itself', [GOTO, FROM, block('SPLIT_f', [1], [1, 1]), gain(), wire((2, 1), (3, 1)), wire((3, 1), (1, 1)), wire((3, 2), (4, 1))], '15 NoSource at 4 1'),
    ('a link to where a tag is taken', [GOTO, FROM, constant(1), wire((3, 1), (2, 1))], '12 LinkEnd at 4 2'),
    ('a tag missing inside before one behind it', [superblock([FROM]), block('FROM', outs=[1], ipar=8)], '33 TagMissing at 1/1 7'),
    ('a wrong tag inside before one behind it', [superblock([block('FROM', outs=[1], ipar=0)]), block('GOTO', ipar=[7, 1])], '31 TagShape at 1/1 2'),
    ('too many blocks before too many tags', [CLOCK] * 2049 + [GOTO] * 1025, '5 TooManyBlocks at - 2049'),
    ('too many tags before their forms', [block('GOTO', ipar=[7, 1])] + [GOTO] * 1024, '34 TooManyTags at - 1025'),
    ('tags before port blocks', [block('IN_f', outs=[1], ipar=1), FROM], '33 TagMissing at 2 7'),
    ('a link to a second port of a tag', [constant(1), GOTO, wire((1, 1), (2, 2))], '12 LinkEnd at 3 2'),
    ('a link from where a tag is given', [GOTO, gain(), wire((1, 1), (2, 1))], '12 LinkEnd at 3 1'),
    ('a tag given by two links', [constant(1), constant(1), GOTO, wire((1, 1), (3, 1)), wire((2, 1), (3, 1))], '13 InputTwice at 5 3 1'),
    ('feedthrough of a tag in a wrong form', [block('GOTO', [1], ipar=[7, 1], dep_ut=0)], '3 WrongField at 1 18'),
    ('a mark of where a tag is seen', [GOTO, block('GotoTagVisibility', ipar=7)], '7 UnknownBlock at 2'),
    ('a port block without a number', [superblock([block('IN_f', outs=[1], ipar=0)])], '8 BadParameter at 1/1 1 1 0'),
    ('one input too many', [block('GAINBLK', [1, 1], [1], ipar=[0, 2])], '9 PortShape at 1 1 2'),
    ('a missing type', [block('GAINBLK', [1], [1], types=([], [3]), ipar=[0, 2])], '9 PortShape at 1 6 0'),
    ('a split with an activation input', [block('SPLIT_f', [1], [1, 1], evtin=1)], '9 PortShape at 1 3 1'),
    ('a real type', [gain(types=([3], [1]))], '10 NotInteger at 1 2 1 1'),
    ('always active', [block('GAINBLK', [1], [1], ipar=[0, 2], dep_ut=[True, True])], '11 AlwaysActive at 1'),
    ('a link of another type', [constant(1), gain(), wire((1, 1), (2, 1), 2)], '12 LinkEnd at 3 0 2'),
    ('a link from no port', [constant(1), gain(), wire((1, 2), (2, 1))], '12 LinkEnd at 3 1'),
    ('a link to a text', [constant(1), TEXT, wire((1, 1), (2, 1))], '12 LinkEnd at 3 2'),
    ('a link between classes', [CLOCK, gain(), wire((1, 1), (2, 1))], '12 LinkEnd at 3 1'),
    ('two links to one input', [constant(1), constant(1), gain(), wire((1, 1), (3, 1)), wire((2, 1), (3, 1))], '13 InputTwice at 5 3 1'),
    ('a port block too few', [superblock([block('CLKINV_f', evtout=1, ipar=1)], evtin=2)], '14 SuperPorts at 1 3 2'),
    ('a port block too many', [superblock([block('OUT_f', ins=[1], ipar=2)])], '14 SuperPorts at 1 2 2'),
    ('a port block outside', [block('IN_f', outs=[1], ipar=1)], '14 SuperPorts at - 1 1'),
    ('the ports before the inside', [superblock([block('SCOPE')], ins=[1])], '14 SuperPorts at 1 1 1'),
    ('an input that nothing feeds', [gain()], '15 NoSource at 1 1'),
    ('a split that nothing feeds', [block('SPLIT_f', [1], [1, 1]), gain(), wire((1, 1), (1, 1)), wire((1, 2), (2, 1))], '15 NoSource at 2 1'),
    ('a column twice', [CLOCK, sensor(1), sensor(2), sensor(1)], '16 ColumnTwice at 4 1'),
    ('two types', [constant(0, types=5), gain(types=4, factor=1), wire((1, 1), (2, 1))], '17 TypeConflict at 1 2 1 4 5'),
    ('two sizes', [constant(0, rows=2), gain([3], [3]), wire((1, 1), (2, 1))], '18 SizeConflict at 1 2 1 1 2 3'),
    ('one unknown for rows and columns', [block('CONST_m', outs=[2], out2=[3], ipar=0), block('GAINBLK', [-1], [-1], in2=[-1], out2=[-1], ipar=[0, 2]),
                                          wire((1, 1), (2, 1))], '18 SizeConflict at 1 2 1 1 2 3'),
    ('unknowns that the kind has alike', [constant(0, rows=2), gain([-1], [-2]), wire((1, 1), (2, 1))], '20 SizeOpen at 2 2 1 1'),
    ('no type', [delay(), delay(), wire((1, 1), (2, 1)), wire((2, 1), (1, 1))], '19 TypeOpen at 1 1 1'),
    ('no size', [block('MUX', [-1, -2], [-3]), delay(types=3, rows=-1), wire((2, 1), (1, 1)), wire((2, 1), (1, 2)), wire((2, 1), (2, 1))], '20 SizeOpen at 1 1 1 1'),
    ('a value outside its type', [constant(200, types=5)], '21 TypeNotHere at 1 2 1 1'),
    ('rows that do not add up', [constant(0, rows=5), block('DEMUX', [5], [2, 2]), wire((1, 1), (2, 1))], '22 ShapeRule at 2 1 1 1'),
    ('an output of 257 elements', [constant(0, rows=257)], '23 SignalTooLarge at 1 1 257'),
    ('outputs of 65,537 elements', [constant(0, rows=256)] * 256 + [constant(0)], '23 SignalTooLarge at - 0 65537'),
]


# name, objects at a limit, what is due of a check
LIMITS = [
    ('2,048 blocks', [CLOCK] * 2048, 'ok 2048 2049 0 0\n'),
    ('16,384 links', [CLOCK] + [event((1, 1), (1, 1))] * 16384, 'ok 1 2 1 0\n'),
    ('sixteen levels, the last of them empty', nested(15), 'ok 0 1 0 0\n'),
    ('sixteen levels, a block in the last', nested(15, [CLOCK]), 'ok 1 2 0 0\n'),
    ('outputs of 65,536 elements, each of 256', [constant(0, rows=256)] * 256, 'ok 256 1 256 0\n'),
    ('71,500 ports of splits', [block('SPLIT_f', [1], [1] * 64)] * 1100, 'ok 0 1 0 0\n'),
    ('20,000 ports of a superblock', [superblock([block('CLKINV_f', evtout=1, ipar=k + 1) for k in range(20000)], evtin=20000)], 'ok 0 1 0 0\n'),
    ('1,024 tags', [block('GOTO', [1], ipar=[k + 1, 1]) for k in range(1024)], 'ok 0 1 0 0\n'),
    ('what is not looked at in a tag object', [block('GOTO', [1], types=([1], []), ipar=[7, 1], in2=[1, 2, 3], dstate='x', firing=[0.5], dep_ut=[True, True])], 'ok 0 1 0 0\n'),
    ('superblocks with names of tag objects', [dict(superblock([]), gui='GOTO'), dict(superblock([]), gui='FROM')], 'ok 0 1 0 0\n'),
    ('tags in a circle', [GOTO, FROM, wire((2, 1), (1, 1)), block('CLKGOTO', evtin=1, ipar=[7, 3]), block('CLKFROM', evtout=1, ipar=7), event((5, 1), (4, 1))], 'ok 0 1 0 0\n'),
    ('two clocks of one tag', [CLOCK, CLOCK, block('CLKGOTO', evtin=1, ipar=[7, 3]), superblock([block('CLKFROM', evtout=1, ipar=7), block('HALT_f', evtin=1), event((1, 1), (2, 1))]),
                               event((1, 1), (3, 1)), event((2, 1), (3, 1))], 'ok 3 3 2 0\n'),
    ('a tag taken by 1,023', [block('GOTO', [1], ipar=[2147483647, 3]), superblock([block('FROM', outs=[1], ipar=2147483647)] * 1023)], 'ok 0 1 0 0\n'),
    ('feedthrough by the kind', gated(), 'ok 4 2 5 0\n'),
    ('feedthrough of the second input', gated([[False, True], False]), 'ok 4 2 5 0\n'),
]


def object_with(model):
    """A diagram of one block of no kind, whose model is this text."""
    return b'{"objs":[{"obj":"Block","gui":"SCOPE","model":{%s}}]}' % model


# name, bytes, what is due behind 'refused ': 1 where the bytes are no JSON, and what comes next where they are
TEXTS = [
    ('127 levels', b'{"unread":' + b'[' * 126 + b']' * 126 + b'}', '2 MissingField at - 1'),
    ('128 levels', b'{"unread":' + b'[' * 127 + b']' * 127 + b'}', '1 NotJson at -'),
    ('200 brackets', b'[' * 200 + b']' * 200, '1 NotJson at -'),
    ('a number near the greatest float', b'{"unread":1.7e308}', '2 MissingField at - 1'),
    ('a number too large for a float', b'{"unread":1e400}', '1 NotJson at -'),
    ('a number too small for a float', b'{"unread":1e-400}', '2 MissingField at - 1'),
    ('a zero before a digit', b'{"unread":01}', '1 NotJson at -'),
    ('a mark of the byte order', b'\xef\xbb\xbf{"objs":[]}', '1 NotJson at -'),
    ('a byte that is no UTF-8', b'{"\xff":1}', '1 NotJson at -'),
    ('half of a pair', b'{"unread":"\\ud800"}', '1 NotJson at -'),
    ('both of a pair', b'{"unread":"\\ud83d\\ude00"}', '2 MissingField at - 1'),
    ('a second value', b'{"objs":[]} {}', '1 NotJson at -'),
    ('a comma at the end', b'{"objs":[],}', '1 NotJson at -'),
    ('a list for the diagram', b'[{"objs":[]}]', '3 WrongField at - 1'),
    ('the last of two lists', b'{"objs":[{"obj":1}],"objs":[{}]}', '2 MissingField at 1 2'),
    ('the last is no list', b'{"objs":[{}],"objs":1}', '3 WrongField at - 1'),
    ('an escape in a name', b'{"\\u006fbjs":[{"obj":"Link"}]}', '2 MissingField at 1 19'),
    ('numbers for objects', b'{"objs":[{"obj":"Text"},7]}', '3 WrongField at 2 2'),
    ('a wrong field before one that is missing', b'{"objs":[{"obj":"Block","gui":5}]}', '3 WrongField at 1 3'),
    ('a state that is not looked at but for its form', b'{"objs":[{"obj":"Block","gui":"SIGNUM","model":{"dstate":[0.5]}}]}', '3 WrongField at 1 14'),
    ('types of a split', b'{"objs":[{"obj":"Block","gui":"SPLIT_f","model":{"in":1,"out":1,"intyp":"x"}}]}', '3 WrongField at 1 8'),
    ('minus zero', object_with(b'"evtin":-0'), '3 WrongField at 1 12'),
    ('a float for a whole number', object_with(b'"evtin":[1,1.0]'), '3 WrongField at 1 12'),
    ('an exponent', object_with(b'"dstate":1e0'), '3 WrongField at 1 14'),
    ('2^63 - 1', object_with(b'"dstate":9223372036854775807'), '7 UnknownBlock at 1'),
    ('2^63', object_with(b'"dstate":9223372036854775808'), '3 WrongField at 1 14'),
    ('-2^63', object_with(b'"ipar":[-9223372036854775808]'), '7 UnknownBlock at 1'),
    ('below -2^63', object_with(b'"ipar":[-9223372036854775809]'), '3 WrongField at 1 16'),
    ('-2^31', object_with(b'"in":-2147483648'), '7 UnknownBlock at 1'),
    ('below -2^31', object_with(b'"in":-2147483649'), '3 WrongField at 1 6'),
    ('three flags', object_with(b'"dep_ut":[true,false,false]'), '3 WrongField at 1 18'),
    ('an end of a link with four numbers', b'{"objs":[{"obj":"Link","from":[1,1,0,0],"to":[1,1],"ct":[1,1]}]}', '3 WrongField at 1 19'),
    ('a type of a link with one number', b'{"objs":[{"obj":"Link","from":[1,1,0],"to":[1,1],"ct":[1]}]}', '3 WrongField at 1 21'),
]
