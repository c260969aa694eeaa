"""Every function of the library from Python on examples worked out by hand, for tests/run_python."""
import array
import dataclasses

import mant

from trying import Tally

EXAMPLE = bytes.fromhex('0300100B03E80640007001081212032413220276')
REPEATED = bytes.fromhex('0300000B03E806400107D07001081212032413220276')
# document 003, appendix D: header and payload, a time stamp and its quality beside them
EXCHANGE = bytes.fromhex('142484000600 00700D11 3384010DA4083F03A3083B03A5280A049984 02044D1C4A10 84030131')
SEALED = bytes.fromhex('0308101203E80640000003521146DF21A1E0FB1E425C931A7C6250')
KEY = b'keep me secret!!'
tally = Tally(lambda value: str(value)[:400])
same = tally.same


def number_of(function, *words, **settings):
    """The number that a call is refused with; 0 where it is not."""
    try:
        function(*words, **settings)
    except mant.Refused as refused:
        assert refused.meaning == mant.Number(refused.number).meaning and str(refused) == f'{refused.number}: {refused.meaning}'
        return refused.number
    return 0


def raised(function, *words, **settings):
    """The name and the words of what a call raises."""
    try:
        function(*words, **settings)
    except Exception as error:
        return type(error).__name__, str(error)
    return 'nothing', ''


def reading():
    header = mant.read(EXAMPLE)
    same('the example', header, mant.Header(
        protocol=0, time_stamp_request=False, port=0, encrypted=False, reserved=0, ack=False, added_header=False, hop_limit=1, source=1000,
        destination=1600, pdu_id=None, path=(), last_sender=1000, payload=EXAMPLE[9:], header_length=9, pdu_length=20))
    every = bytes([0x0F, 0xBF, 0xF0, 0x01, 1, 2, 3, 4, 5, 2, 6, 7, 8, 9, 10])
    same('every field', mant.read(every), mant.Header(1, True, 11, True, 3, True, True, 7, 258, 772, 5, (1543, 2057), 2057, b'\n', 14, 15))
    shown = mant.read(every, edition=mant.EDITION_1_1)
    same('edition 1.1', (shown.encrypted, shown.reserved), (None, 7))
    same('the path', (mant.path(every), mant.path(EXAMPLE), mant.path(bytes(6))), ((1543, 2057), (), None))
    same('an empty payload', mant.read(bytes.fromhex('000000000005')).payload, b'')
    for number, text in enumerate(('00' * 5, '40' + '00' * 5, '10' + '00' * 5, '08' + '00' * 5, '01' + '00' * 5, '000000010005'), 1):
        same(f'bytes that are refused with {number}', number_of(mant.read, bytes.fromhex(text)), number)
        same(f'their path, {number}', number_of(mant.path, bytes.fromhex(text)), number)
        same(f'their exchange, {number}', number_of(mant.write_exchange, bytes.fromhex(text)), number)
    for edition in (0, 10, 13, 2**32 + 11, 2**64 - 1):
        same(f'edition {edition}', number_of(mant.read, EXAMPLE, edition), 17)
    for form in (EXAMPLE, bytearray(EXAMPLE), memoryview(EXAMPLE), array.array('B', EXAMPLE), memoryview(b'x' + EXAMPLE)[1:], memoryview(EXAMPLE[::-1])[::-1]):
        same(f'the form {type(form)}', mant.read(form), header)
    same('the limits', mant.limits(), mant.Limits(6, 4095, 255, 520, 4615, 128, 16384))


def originating():
    asks = {'source': 1000, 'destination': 1600, 'hop_limit': 1, 'with_path': True}
    same('the example', mant.originate(EXAMPLE[9:], **asks), EXAMPLE)
    same('everything set', mant.originate(
        b'\x01', source=258, destination=772, hop_limit=7, port=15, time_stamp_request=True, with_path=True, reliable=True, pdu_id=99, encrypted=True).hex(),
        '0ff870010102030463' + '0001')
    for hop_limit in (8, 15, 263, 2**32 + 7, 2**64 - 1):
        same(f'hop limit {hop_limit}', number_of(mant.originate, b'', source=1, hop_limit=hop_limit), 10)
    for port in (16, 272, 2**64 - 1):
        same(f'port {port}', number_of(mant.originate, b'', source=1, hop_limit=7, port=port), 11)
    same('payload of 4,095', len(mant.originate(bytes(4095), **asks)), 4104)
    same('payload of 4,096', number_of(mant.originate, bytes(4096), **asks), 12)
    same('reliable to everyone', number_of(mant.originate, b'', source=1, hop_limit=1, reliable=True), 13)
    same('encrypted under 1.1', number_of(mant.originate, b'', encrypted=True, edition=11, **asks), 16)
    same('edition 0', number_of(mant.originate, b'', edition=0, **asks), 17)


def hearing():
    node = mant.Node(own=2000)
    same('the example at 2000', mant.hear(EXAMPLE, node), mant.Answer(39, 0, None, REPEATED, 1000, 20))
    same('the example at 1600', mant.hear(EXAMPLE, mant.Node(own=1600)), mant.Answer(0, 41, EXAMPLE[9:], None, 1000, 20))
    same('its repeat at 2000', mant.hear(REPEATED, node), mant.Answer(30, 30, None, None, 2000, 22))
    same('its repeat at 2000, echo off', mant.hear(REPEATED, mant.Node(own=2000, echo=False)), mant.Answer(39, 37, None, None, 2000, 22))
    same('hop limit 7', mant.hear(EXAMPLE[:2] + b'\x70' + EXAMPLE[3:], node).repeated[2], 0x70)
    same('a pass list, empty', mant.hear(EXAMPLE, mant.Node(own=2000, source_pass=mant.FIRST_LIST)).delivery, 31)
    season = mant.Node(own=2000, source_reject=mant.SECOND_LIST)
    same('the second list', mant.hear(EXAMPLE, season, mant.Lists(source_reject_second=(1000, 1000))).delivery, 32)
    same('the first list, not chosen', mant.hear(EXAMPLE, season, mant.Lists(source_reject=[1000, 1000])).delivery, 39)
    for count, repeat in ((254, 0), (255, 38)):
        pdu = bytes.fromhex('0200300003E8') + bytes([count]) + bytes(2 * count)
        answer = mant.hear(pdu, node)
        same(f'a path of {count}', (answer.repeat, answer.repeated and len(mant.path(answer.repeated))), (repeat, None if repeat else 255))
    same('nothing', mant.hear(b'', node), mant.Answer(1, 1, None, None, None, 0))
    same('no edition', mant.hear(EXAMPLE, mant.Node(2000, 13)).repeat, 17)
    same('edition 1.1', mant.hear(EXAMPLE, mant.Node(2000, mant.EDITION_1_1)), mant.hear(EXAMPLE, node))
    for number, values in ((0, [7] * 128), (22, [7] * 129), (22, [7] * 65536), (22, [7] * 65538), (21, [7] * 127), (20, [3, 9, 5, 4])):
        for field in ('source_pass', 'destination_reject_second'):
            lists, fault = mant.Lists(**{field: values}), mant.ListFault(number, field if number else None)
            same(f'a list with fault {number}', (mant.list_fault(lists), mant.hear(EXAMPLE, node, lists).delivery), (fault, number or 39))
            same(f'whether {number} is a fault', bool(mant.list_fault(lists)), number != 0)
    fields = [field.name for field in dataclasses.fields(mant.Lists)]
    for place, field in enumerate(fields):
        same(f'the first fault is in {field}', mant.list_fault(mant.Lists(**{name: [2, 1] for name in fields[place:]})), mant.ListFault(20, field))
    values = [1000, 1000]
    lists = mant.Lists(source_reject_second=values)
    values[0] = 999
    same('values that change later', mant.hear(EXAMPLE, season, lists).delivery, 32)
    same('lists with the same values', lists, mant.Lists(source_reject_second=(1000, 1000)))
    same('held', [mant.list_holds((1000, 1999, 3000, 3000), address) for address in (999, 1000, 1999, 2000, 3000)], [False, True, True, False, True])


def changing():
    node = mant.Node(2000, mant.EDITION_1_1, echo=False, destination_pass=mant.FIRST_LIST)
    for choice in (mant.NO_LIST, mant.FIRST_LIST, mant.SECOND_LIST):
        same(f'changed over to {choice}', mant.change_over(node, choice), mant.Node(2000, 11, False, True, choice, choice, choice, choice))
    for choice in (3, 257, -1):
        same(f'the choice {choice}', raised(mant.change_over, node, choice), ('ValueError', f'choice is {choice}; it can be 0 to 2'))


def walking():
    node = mant.Node(own=2000)
    steps = list(mant.walk(EXAMPLE + REPEATED + EXAMPLE[:9], node))
    same('a batch', steps, [mant.Step(0, mant.hear(EXAMPLE, node)), mant.Step(20, mant.hear(REPEATED, node)), mant.Step(42, mant.hear(EXAMPLE[:9], node))])
    for number, given in ((21, (node, mant.Lists(source_pass=[7]))), (17, (mant.Node(2000, 13),))):
        same(f'ended by {number}', [(int(step.answer.delivery), step.answer.taken) for step in mant.walk(EXAMPLE * 3, *given)], [(number, 0)])
    same('no bytes', list(mant.walk(b'', node)), [])
    same('16,384 bytes', len(list(mant.walk(bytes(16384), node))), 2731)
    same('16,385 bytes', number_of(lambda: list(mant.walk(bytes(16385), node))), 54)
    same('17 first', [int(step.answer.repeat) for step in mant.walk(bytes(16385), mant.Node(2000, 1))], [17])
    same('two at once', [pair[0] == pair[1] for pair in zip(mant.walk(EXAMPLE * 9, node), mant.walk(EXAMPLE * 9, node))], [True] * 9)


def planning():
    same('bounds', [mant.most_transmissions(*pair) for pair in ((3, 2), (3, 6), (3, 7), (3, 0), (0, 7))], [10, 16, 16, 1, 1])
    same('bytes', mant.most_bytes(2, 1, 20), 20 + 2 * 22)
    same('commands', (mant.most_for_command(0, 3, 3), mant.most_for_command(0, 5, 3), mant.most_for_command(2, 1, 1, 0, 7)), (272, 7482, 12))
    same('commands refused', (number_of(mant.most_for_command, 0, 1, 8, 1, 7), number_of(mant.most_for_command, 0, 1, 7, 1, 8)), (10, 10))
    same('hop limit 8', (number_of(mant.most_transmissions, 3, 8), number_of(mant.most_bytes, 3, 263, 20)), (10, 10))
    same('too large', raised(mant.most_transmissions, 1000, 7), (
        'OverflowError', 'the bound is above 18,446,744,073,709,551,615, and the library counts no further'))
    same('bounds and numbers that plan refuses', (mant.most_transmissions(70000, 1), mant.most_bytes(1, 1, 0)), (70001, 2))
    found = mant.reach(1, {7: [8], 8: [9], 9: [10], 11: [7]})
    same('reach', found, mant.Reach((mant.Reached(7, 0, None), mant.Reached(8, 1, 0), mant.Reached(9, 2, 1), mant.Reached(10, 3, None),
                                     mant.Reached(11, None, None)), None))
    same('out of reach', found.out_of_reach, (10, 11))
    same('reach, in pairs', mant.reach(1, [(7, [8]), (8, [9]), (9, [10]), (11, [7])]), found)
    same('a node named twice', mant.reach(1, [(7, [8]), (7, [9])]).out_of_reach, ())
    same('a hearing that is no list', raised(mant.reach, 1, {1: 2}), ('TypeError', 'what hears 1 is 2; give the addresses that hear it, as [2]'))
    for words, said in (((8, {1: [2]}), 'hop_limit is 8; it can be 0 to 7'), ((1, {}), 'heard_by names no node; the first is the originator'),
                        ((1, {1: [70000]}), 'an address is 70000; it can be 0 to 65535'), ((1, {1: range(2, 257)}), 'there are more than 255 nodes')):
        same('a network that is refused', raised(mant.reach, *words), ('ValueError', said))


def networks():
    """A line with a base station in it that does not repeat, two ways, and every node that hears every other."""
    line = {node: [node + 1] for node in range(1, 9)}
    same('at hop limits 6 and 7', (mant.reach(6, line).out_of_reach, mant.reach(7, line).out_of_reach, mant.reach(6, line).least_hop_limit), ((9,), (), 7))
    muted = mant.Network(line, not_repeating=[4])
    same('a station in the middle', (muted.reach(7).out_of_reach, muted.reach(7).nodes[3].path_count), ((5, 6, 7, 8, 9), 2))
    whole = mant.Network(line)
    same('how often it goes out', (muted.transmissions(7).total, whole.transmissions(6).total, whole.transmissions(7).total), (3, 7, 9))
    same('a node that only does not repeat', mant.Network({1: [2]}, not_repeating=[3]).addresses, (1, 2, 3))
    ways = mant.Network({1000: [1, 4], 1: [2], 2: [9], 4: [9]})
    same('two ways', (ways.transmissions(6), ways.bytes(6, 20)), (
        mant.Airtime(6, {1000: 1, 1: 1, 4: 1, 2: 1, 9: 2}), mant.Airtime(138, {1000: 20, 1: 22, 4: 22, 2: 24, 9: 50})))
    same('whom failures cut off', (ways.cut_off(), muted.cut_off()), ({1: (2,)}, {2: (3, 4), 3: (4,)}))
    same('without a node', ways.lengths(failed=4), (0, 1, None, 2, 3))
    same('enough', raised(ways.transmissions, 6, 6), ('OverflowError', 'the report goes out 6 times or more, and the count stops there'))
    same('enough bytes', raised(ways.bytes, 6, 20, 138), ('OverflowError', '138 bytes or more go out, and the count stops there'))
    full = mant.Network({node: [other for other in range(5) if other != node] for node in range(5)})
    same('the worst network', [full.transmissions(hop).total for hop in range(8)], [mant.most_transmissions(4, hop) for hop in range(8)])


def flooded(count, hop_limit, with_path=True, echo=True, echo_at_originator=True, hears_itself=False):
    """How many transmissions there are where all hear one another, each transmission once."""
    nodes = [mant.Node(1, echo=echo_at_originator), *(mant.Node(2 + place, echo=echo) for place in range(count))]
    on_the_air = [(1, mant.originate(b'rain', source=1, hop_limit=hop_limit, with_path=with_path))]
    for sender, pdu in on_the_air:
        answers = [(node.own, mant.hear(pdu, node).repeated) for node in nodes if hears_itself or node.own != sender]
        on_the_air += [(own, repeated) for own, repeated in answers if repeated is not None]
    return len(on_the_air)


def flooding():
    """The bound is met, and each of its conditions is needed, as docs/planning.md says."""
    same('met', [flooded(*pair) for pair in ((2, 3), (3, 7), (4, 3))], [mant.most_transmissions(*pair) for pair in ((2, 3), (3, 7), (4, 3))])
    same('two nodes, hop limit 3', (mant.most_transmissions(2, 3), flooded(2, 3, with_path=False), flooded(2, 3, echo=False)), (5, 7, 7))
    same('one node, hop limit 2', (mant.most_transmissions(1, 2), flooded(1, 2, echo_at_originator=False)), (2, 3))
    same('one node that hears itself', (flooded(1, 2, with_path=False, hears_itself=True), flooded(1, 2, echo=False, hears_itself=True)), (3, 3))


def exchanging():
    pdu = EXCHANGE[5:11] + EXCHANGE[14:27]
    same('an exchange', mant.read_exchange(EXCHANGE), mant.Exchange(EXCHANGE[5:11], EXCHANGE[14:27], 5, 14))
    same('written', mant.write_exchange(pdu + b'after'), b'\x14\x19' + EXCHANGE[2:27])
    run = bytes.fromhex('750101 18021F40 77055341 43434F') + EXCHANGE
    same('in front', number_of(mant.read_exchange, run), 59)
    found = list(mant.elements(run))
    same('elements', [(element.type_number, element.place, element.end) for element in found], [(117, 0, 3), (24, 3, 7), (119, 7, 14), (20, 14, 52)])
    same('their values', [element.value for element in found], [b'\x01', b'\x1F\x40', b'SACCO', EXCHANGE[2:]])
    same('of none', list(mant.elements(b'')), [])
    same('of one that is cut', number_of(lambda cut: list(mant.elements(cut)), run[:-1]), 57)
    longest = bytes([0x0B, 0, 0x0F, 0xFF, 0, 0, 0, 0, 0, 255]) + bytes(4605)
    same('the longest', len(mant.write_exchange(longest)), 4626)
    for number, text in ((57, '14030502010000'), (58, '0A080A060A040A020100'), (59, ''), (2, '140C840006400000000000840100'),
                         (63, '140D84000600000000000584 0101FF')):
        same(f'an exchange that is refused with {number}', number_of(mant.read_exchange, bytes.fromhex(text)), number)


def stations_heard():
    stations, node = mant.Stations(), mant.Node(own=2000)
    stations.count_answer(EXAMPLE, mant.hear(EXAMPLE, node))
    stations.count_answer(REPEATED, mant.hear(REPEATED, node))
    stations.count_answer(EXAMPLE[:9], mant.hear(EXAMPLE[:9], node))
    stations.count(999)
    same('two heard', (len(stations), list(stations)), (2, [mant.Station(999, 1, 0, None), mant.Station(1000, 2, 1, 0)]))
    same('past the last', (number_of(stations.at, 2), number_of(stations.get, 998), number_of(stations.remove, 998)), (56, 56, 56))
    same('the words', (stations.words[:9], len(stations.words)), ((2, 999, 1, 0, 0, 1000, 2, 1, 1), 513))
    for address in range(126):
        stations.count(2 * address, echo=True, path_count=255)
    full = stations.words
    same('full', (len(stations), number_of(stations.count, 1), number_of(stations.count, 999), stations.get(2)), (128, 55, 0, mant.Station(2, 1, 1, 255)))
    from_1 = mant.originate(b'', source=1, hop_limit=0)
    same('full for an answer', number_of(stations.count_answer, from_1, mant.hear(from_1, node)), 55)
    again = mant.Stations(full)
    again.remove(1000)
    same('kept elsewhere', (len(again), number_of(again.get, 1000), number_of(again.count, 1)), (127, 56, 0))
    same('arbitrary words', (len(mant.Stations([65535] * 513)), mant.Stations([65535] * 513).at(127)), (128, mant.Station(65535, 65535, 65535, 65534)))


def queueing():
    queue, pdu = mant.Queue(), mant.originate(bytes(58), source=1, hop_limit=3)
    same('none held', (queue.take(0), queue.level), (b'', (0, 0)))
    for _ in range(32):
        queue.add(pdu)
    full = queue.memory
    same('full', (queue.level, number_of(queue.add, pdu), number_of(queue.add, pdu[1:]), number_of(queue.take, 63)), ((32, 2048), 60, 61, 62))
    same('refused', queue.memory, full)
    same('taken', (queue.take(130), queue.level, queue.memory[:6]), (2 * pdu, (30, 1920), bytes([0, 30, 7, 128, 0, 128])))
    same('kept elsewhere', mant.Queue(queue.memory).take(4000), 30 * pdu)
    queue.clear()
    same('cleared', (queue.level, queue.memory[:6], queue.memory[6:]), ((0, 0), bytes(6), full[6:]))
    same('arbitrary bytes', (mant.Queue(b'\xFF' * 2566).level, mant.Queue(b'\xFF' * 2566).take(9)), ((32, 2048), b''))


def sealing():
    record = mant.Record()
    same('sealed', mant.seal(EXAMPLE, KEY, 850), SEALED)
    changed = SEALED[:-1] + bytes([SEALED[-1] ^ 1])
    same('changed on its way', number_of(mant.open, changed, KEY, record), 83)
    same('opened', mant.open(mant.hear(SEALED, mant.Node(own=2000)).repeated, KEY, record), EXAMPLE[9:])
    same('again', number_of(mant.open, SEALED, KEY, record), 82)
    same('the record', record.words[:4], (1, 1000, 850, 0))
    same('after a restart', number_of(mant.open, SEALED, KEY, mant.Record(record.words)), 82)
    same('not encrypted', number_of(mant.open, EXAMPLE, KEY, record), 80)
    same('encrypted already', number_of(mant.seal, SEALED, KEY, 1), 88)
    same('number too large', (number_of(mant.seal, EXAMPLE, KEY, 2**24), number_of(mant.seal, EXAMPLE, KEY, 2**32 + 5)), (86, 86))
    same('a full record', number_of(mant.open, SEALED, KEY, mant.Record([64] + [0] * 128)), 84)


def by_hand():
    for part in (reading, originating, hearing, changing, walking, planning, networks, flooding, exchanging, stations_heard, queueing, sealing):
        part()
    return tally.told('python: by hand')
