"""The lines that `jobs lines` prints (rust/jobs/src/lines.rs): a call of the library from Python for each, beside what the reference model returns."""
import dataclasses

import mant

from trying import counted

record = None  # what each opening is asked with


def bytes_of(word):
    return b'' if word == '.' else bytes.fromhex(word)


def values_of(word):
    return () if word == '.' else tuple(map(int, word.split(',')))


def some(word, made=int):
    return None if word == '-' else made(word)


def flag_of(word):
    return word == '1'


def refused_or(call):
    """What a call answers after 0, or the number that it is refused with."""
    try:
        return 0, call()
    except mant.Refused as refused:
        return int(refused.number), None


def written(answer):
    return int(answer[0]), bytes_of(answer[1]) if len(answer) > 1 else None


def header_of(words):
    flags = [flag_of(words[place]) for place in (1, 5, 6)]
    return mant.Header(
        int(words[0]), flags[0], int(words[2]), some(words[3], flag_of), int(words[4]), flags[1], flags[2], int(words[7]), int(words[8]), some(words[9]),
        some(words[10]), some(words[11], values_of), some(words[12]), bytes_of(words[13]), int(words[14]), int(words[15]))


def node_of(words):
    own, edition, echo, repeating, *choices = words
    return mant.Node(int(own), int(edition), flag_of(echo), flag_of(repeating), *map(int, choices))


def lists_of(word):
    return mant.Lists(*map(values_of, word.split(';')))


def answer_of(words):
    delivery, repeat, payload, repeated, last, taken = words
    return mant.Answer(int(delivery), int(repeat), some(payload, bytes_of), some(repeated, bytes_of), some(last), int(taken))


def check_read(words, answer):
    found = refused_or(lambda: mant.read(bytes_of(words[1]), int(words[0])))
    return found, (int(answer[0]), header_of(answer[1:]) if answer[0] == '0' else None)


def check_originate(words, answer):
    edition, source, destination, hop_limit, port, stamp, path, reliable, pdu_id, encrypted, payload = words
    return refused_or(lambda: mant.originate(
        bytes_of(payload), source=int(source), destination=some(destination), hop_limit=int(hop_limit), port=int(port), time_stamp_request=flag_of(stamp),
        with_path=flag_of(path), reliable=flag_of(reliable), pdu_id=int(pdu_id), encrypted=flag_of(encrypted), edition=int(edition))), written(answer)


def check_lists(words, answer):
    lists = lists_of(words[0])
    fault = mant.ListFault(int(answer[0]), some(answer[1], lambda place: dataclasses.fields(mant.Lists)[int(place)].name))
    return (mant.list_fault(lists), mant.list_holds(lists.source_pass, int(words[1]))), (fault, flag_of(answer[2]))


def check_change(words, answer):
    return mant.change_over(node_of(words[:-1]), int(words[-1])), node_of(answer)


def check_hear(words, answer):
    *node, lists, received = words
    return mant.hear(bytes_of(received), node_of(node), lists_of(lists)), answer_of(answer)


def check_walk(words, answer):
    *node, lists, batch = words
    found = refused_or(lambda: list(mant.walk(bytes_of(batch), node_of(node), lists_of(lists))))
    steps = [mant.Step(int(answer[at]), answer_of(answer[at + 1:at + 7])) for at in range(1, len(answer), 7)]
    return found, (int(answer[0]), None if answer[0] != '0' else steps)


def check_bound(words, answer):
    def value(call):
        try:
            return call()
        except OverflowError:
            return None
    nodes, hop_limit, size = map(int, words)
    found = refused_or(lambda: (value(lambda: mant.most_transmissions(nodes, hop_limit)), value(lambda: mant.most_bytes(nodes, hop_limit, size))))
    return found, (int(answer[0]), None if answer[0] != '0' else (some(answer[1]), some(answer[2])))


def check_exchange(words, answer):
    found = refused_or(lambda: mant.read_exchange(bytes_of(words[0])))
    parts = None if answer[0] != '0' else mant.Exchange(bytes_of(answer[1]), bytes_of(answer[2]), int(answer[3]), int(answer[4]))
    return found, (int(answer[0]), parts)


def check_pack(words, answer):
    return refused_or(lambda: mant.write_exchange(bytes_of(words[0]))), written(answer)


def check_seal(words, answer):
    return refused_or(lambda: mant.seal(bytes_of(words[2]), bytes_of(words[0]), int(words[1]))), written(answer)


def check_record(words, answer):
    global record
    record = mant.Record()
    return record.words, (0,) * 129


def check_open(words, answer):
    return refused_or(lambda: mant.open(bytes_of(words[1]), bytes_of(words[0]), record)), written(answer)


def said_of(node, mute, times, octets):
    """The line that `reach` prints of a node."""
    chain = 'no chain' if node.chain is None else f'chain of {counted(node.chain, "hearing")}'
    reached = 'out of reach' if node.is_out_of_reach else f'delivered with path count {node.path_count}' + ' if its lists let it in' * mute
    sends = '; does not repeat' if mute else f'; sends it {counted(times[node.address], "time")}, {counted(octets[node.address], "byte")}' if times else ''
    return f'node {node.address}: ' + ('the originator' if node.chain == 0 else f'{chain}, {reached}') + sends


def check_reach(words, answer):
    hop_limit, lines, mute = int(words[0]), [values_of(word) for word in words[1].split(';')], values_of(words[2])
    network = mant.Network({line[0]: line[1:] for line in lines}, mute)
    found, said = network.reach(hop_limit), ' '.join(answer).split('/')
    try:
        times, octets = network.transmissions(hop_limit), network.bytes(hop_limit, int(words[3]))
    except OverflowError:
        times = octets = mant.Airtime(0, {})
    printed = [f'hop limit {hop_limit}, originator {lines[0][0]}',
               *(said_of(node, node.chain != 0 and node.address in mute, times.by_node, octets.by_node) for node in found.nodes),
               f'{counted(len(found.out_of_reach), "node")} out of reach',
               'no hop limit reaches all' if found.least_hop_limit is None else f'the least hop limit that reaches all is {found.least_hop_limit}',
               f'the report goes out {counted(times.total, "time")} on this network' if times.total else 'the report goes out 10000000 times or more',
               *(f'without node {failed} no chain leads to {" ".join(map(str, others))}' for failed, others in network.cut_off().items())]
    conditions = next(place for place, line in enumerate(said) if line.startswith('This holds'))
    kept = [line.split(',')[0] if line.startswith('the report goes out') else line for line in said[:conditions]
            if not line.startswith(('that is', 'no single')) and 'does not reach' not in line]
    return printed, kept


CHECKS = {name[len('check_'):]: value for name, value in list(globals().items()) if name.startswith('check_')}


def compared(line):
    """What a line asks for, what Python returns, and what the model does."""
    words, answer = line.rstrip('\n').split(' =', 1)
    verb, *words = words.split(' ')
    return (verb, *CHECKS[verb](words, answer.split()))
