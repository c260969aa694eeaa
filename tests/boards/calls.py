"""Every call that a program makes of the library on x86-64, recorded, and made again with the library of another processor.

The C between both and the library is written from include/mant.h: what a call takes, what it returns, and which memory it is lent. So a new function is
recorded and made again without a line here."""
import pathlib

import board_header

HERE = pathlib.Path(__file__).resolve().parent
END = 255  # in place of a function's number


def struct_ways(header, put, number):
    """A function for each struct that goes through its numbers in their order."""
    lines, known = [], set(board_header.NUMBERS)
    for name, fields in header.structs.items():
        if any(field.kind not in known for field in fields):
            continue  # what holds a pointer is passed to no call
        known.add(name)
        pointer = f'{name} *s' if put == 'get' else f'const {name} *s'
        body = []
        for field in fields:
            one = f's->{field.name}' + ('[i]' if field.times else '')
            step = f'{put}_{field.kind}(&{one});' if field.kind in header.structs else number.format(one=one, kind=field.kind)
            body.append(f'    for (size_t i = 0; i < {field.times}; i++) {{ {step} }}' if field.times else f'    {step}')
        lines += [f'__attribute__((unused)) static void {put}_{name}({pointer})', '{', *body, '}', '']
    return lines


def fits(header, kind, one):
    """The conditions under which every size in a value is one on a processor of 32 bits too."""
    if kind == 'size_t':
        return [f'{one} <= UINT32_MAX']
    return [fact for field in header.structs.get(kind, ()) for fact in fits(header, field.kind, f'{one}.{field.name}')]


def lent_of(name, function, lengths):
    """The parameters that are lent memory, each with how many bytes: by the length in the call, or by the one that the header says."""
    return {one.name: f'{lengths.get((name, one.name), one.times or 1)} * sizeof({one.kind})' for one in function.parameters if one.points}


def places_of(header):
    """A number for each name of a parameter that is lent memory."""
    names = [one.name for function in header.functions.values() for one in function.parameters if one.points]
    return {name: place for place, name in enumerate(dict.fromkeys(names))}


def result_lines(header, function):
    if function.returned == 'void':
        return []
    return [f'    mix_{function.returned}(&result);' if function.returned in header.structs else '    mix_number(result);']


def changed(function):
    return [one.name for one in function.parameters if one.points and not one.constant]


def recorded(header, lent, places, order, name, function):
    words = function.words or 'void'
    call = f'real_{name}({", ".join(one.name for one in function.parameters)});'
    alone = f'{{ {call} return; }}' if function.returned == 'void' else f'{{ return {call} }}'
    facts = [fact for one in function.parameters if not one.points for fact in fits(header, one.kind, one.name)]
    lines = [f'extern {function.returned} real_{name}({words});', f'{function.returned} {name}({words})', '{',
             f'    if (!({" && ".join([*facts, f"begin({order})"])})) {alone}']
    for one in function.parameters:
        if not one.points:
            lines.append(f'    put_{one.kind}(&{one.name});' if one.kind in header.structs else f'    put({one.name});')
    lines += [f'    lend({places[word]}, {word}, {size});' for word, size in lent.items()]
    lines.append(f'    {call}' if function.returned == 'void' else f'    {function.returned} result = {call}')
    lines += [f'    left({places[word]}, {word}, {lent[word]});' for word in changed(function)]
    return lines + result_lines(header, function) + ['    end();', *(['    return result;'] if function.returned != 'void' else []), '}', '']


def replayed(header, lent, places, name, function):
    kinds = {one.name: one.kind for one in function.parameters}
    lines = [f'static void call_{name}(void)', '{']
    for one in function.parameters:
        if not one.points:
            lines.append(f'    {one.kind} {one.name};' if one.kind in header.structs else f'    {one.kind} {one.name} = ({one.kind})get();')
            lines += [f'    get_{one.kind}(&{one.name});'] if one.kind in header.structs else []
    lines += [f'    {kinds[word]} *{word} = borrow({places[word]}, {size});' for word, size in lent.items()]
    call = f'{name}({", ".join(one.name for one in function.parameters)});'
    lines.append(f'    {call}' if function.returned == 'void' else f'    {function.returned} result = {call}')
    lines += [f'    mix_lent({places[word]}, {lent[word]});' for word in changed(function)]
    return lines + result_lines(header, function) + [f'    compare("{name}");', '}', '']


def write(header, lengths, folder):
    """Writes recorder.c, for this machine, and replayer.c, for every processor. `lengths` has of each slice the parameter that is its length."""
    functions, places = list(header.functions.items()), places_of(header)
    lent = {name: lent_of(name, function, lengths) for name, function in functions}
    board_header.need(len(functions) < END, f'{len(functions)} functions, and a byte counts them')
    room, mixing = f'#define PLACES {len(places)}\n', struct_ways(header, 'mix', 'mix_number({one});')
    text = [room, (HERE / 'recorder.c').read_text(), *struct_ways(header, 'put', 'put({one});'), *mixing]
    for order, (name, function) in enumerate(functions):
        text += recorded(header, lent[name], places, order, name, function)
    without = [f'    {name}();' for name, function in functions if not function.parameters]  # what has no argument no test needs to generate
    text += ['__attribute__((destructor)) static void close_calls(void)', '{', *without, f'    put({END});',
             '    if (fclose(file) != 0) { fail("MANT_CALLS cannot be written"); }', '}']
    (folder / 'recorder.c').write_text('\n'.join(text) + '\n')
    text = [room, (HERE / 'replayer.c').read_text(), *struct_ways(header, 'get', '{one} = ({kind})get();'), *mixing]
    for name, function in functions:
        text += replayed(header, lent[name], places, name, function)
    table = ', '.join(f'{{call_{name}, "{name}"}}' for name, _ in functions)
    text += [f'static const struct {{ void (*call)(void); const char *name; }} all[] = {{{table}}};', MAIN]
    (folder / 'replayer.c').write_text('\n'.join(text))


MAIN = '''
int main(void)
{
    static unsigned long times[sizeof all / sizeof all[0]];
    if ((file = open("calls", O_RDONLY)) < 0) {
        fail("there is no file calls");
    }
    for (uint64_t function = get(); function != %d; function = get()) {
        if (function >= sizeof all / sizeof all[0]) {
            fail("a function that is not known");
        }
        all[function].call();
        times[function]++;
    }
    for (size_t i = 0; i < sizeof all / sizeof all[0]; i++) {
        if (times[i] == 0) {
            printf("calls: no call of %%s\\n", all[i].name);
            return 1;
        }
    }
    printf("%%lu calls of %%u functions return and write the same\\n", calls, (unsigned)(sizeof all / sizeof all[0]));
    return 0;
}
''' % END
