"""The planner's page, one HTML file, put together from page/: its HTML and CSS, its ES modules behind one another, and the library as WebAssembly. Structs and
functions come from include/mant.h by way of libmant.json (tools/boards.py), the words of numbers from docs/NUMBERS.md, so that none of them stands in page/ a
second time."""
import base64
import hashlib
import json
import pathlib
import re

TOP = pathlib.Path(__file__).resolve().parent.parent
PAGE = TOP / 'page'
STYLES = ('base.css', 'network.css', 'pdu.css', 'media.css')
CORE, MAIN = 'jobs', 'main'  # the modules from which the Worker's part and the whole page are reached
LIMIT = 300_000
IMPORT = re.compile(r"^import \{([^}]*)\} from '\./(\w+)\.js';\n", re.M)
EXPORT = re.compile(r'^export (?:async )?(?:function\*?|const|class) ([\w$]+)', re.M)  # one name each
NUMBER = re.compile(r'^\| (\d+) \| `\w+` \| ([^|]+) \|', re.M)


class Unmade(Exception):
    """Why there is no page, in words."""


def module(name):
    file = PAGE / f'{name}.js'
    if not file.is_file():
        raise Unmade(f'page/{name}.js is imported and not there')
    return file.read_text()


def ordered(name, done, open_=()):
    """The modules that a module needs, each behind those that it needs itself."""
    if name in open_:
        raise Unmade(f'page/{name}.js imports itself by way of {" and ".join(open_)}')
    for _, needed in IMPORT.findall(module(name)):
        if needed not in done:
            ordered(needed, done, (*open_, name))
    if name not in done:
        done.append(name)
    return done


def exported(text):
    return EXPORT.findall(text)


def wrapped(name):
    """A module as a constant that has its exports, with a scope of its own."""
    text = module(name)
    names = exported(text)
    for words, needed in IMPORT.findall(text):
        for word in filter(None, (part.strip() for part in words.split(','))):
            if word not in exported(module(needed)):
                raise Unmade(f'page/{name}.js imports {word}, which page/{needed}.js does not export')
    text = IMPORT.sub(lambda found: f'const {{{found[1]}}} = module_{found[2]};\n', text)
    text = re.sub(r'^export ', '', text, flags=re.M)
    return f'const module_{name} = (() => {{\n{text}return {{ {", ".join(names)} }};\n}})();\n'


def script(names, constants):
    made = ''.join(f'const {name} = {json.dumps(value, ensure_ascii=False, separators=(",", ":"))};\n' for name, value in constants.items())
    made += ''.join(wrapped(name) for name in names)
    if '</script' in made:
        raise Unmade('a module holds the end of a script')
    return f'\n{made}'


def parameters(takes):
    """Each parameter as [type, how]: a number, a struct, a slice, whose length comes with it, or an array of known size."""
    found = []
    for kind, name, *_ in takes:
        if kind == 'size_t' and found and found[-1][2] and name.startswith(f'{found[-1][3]}_'):
            found[-1][1:3] = 'slice', False
        else:
            found.append([kind.rstrip(' *'), 'array' if kind.endswith('*') else 'struct' if kind.startswith('Mant') else 'number', kind.endswith('*'), name])
    return [one[:2] for one in found]


def declared(names, header):
    """The functions that the page calls, and the structs that these need, as wasm.js reads them."""
    called = sorted({name for module_name in names for name in re.findall(r"'(mant_\w+)'", module(module_name))})
    if missing := [name for name in called if name not in header['functions']]:
        raise Unmade(f'the page calls {", ".join(missing)}, which include/mant.h does not declare')
    functions = {name: [header['functions'][name]['returns'], parameters(header['functions'][name]['takes'])] for name in called}
    known = {name: [struct['size'], [[field, kind, place, *times] for field, (place, kind, *times) in struct['fields'].items()]]
             for name, struct in header['structs'].items()}
    wanted = {kind for answers, takes in functions.values() for kind in (answers, *(kind for kind, how in takes if how == 'struct'))}
    while more := {kind for name in wanted & set(known) for _, kind, *_ in known[name][1]} - wanted:
        wanted |= more
    return {'STRUCTS': {name: struct for name, struct in known.items() if name in wanted}, 'FUNCTIONS': functions}


def hashed(text):
    return f"'sha256-{base64.b64encode(hashlib.sha256(text.encode()).digest()).decode()}'"


def page(wasm, header):
    """The page's text, with this library and what libmant.json says of it."""
    core = ordered(CORE, [])
    others = [name for name in ordered(MAIN, []) if name not in core]
    if unused := {file.stem for file in PAGE.glob('*.js')} - {*core, *others}:
        raise Unmade(f'no module imports page/{min(unused)}.js')
    first = script(core, declared([*core, *others], header))
    rest = script(others, {'MEANINGS': dict(NUMBER.findall((TOP / 'docs/NUMBERS.md').read_text()))})
    parts = {'STYLE': '\n'.join((PAGE / name).read_text() for name in STYLES), 'PICTURE_STYLE': (PAGE / 'picture.css').read_text(), 'CORE': first,
             'SCRIPT': rest, 'HASHES': f'{hashed(first)} {hashed(rest)}', 'WASM': base64.b64encode(wasm).decode(), 'VERSION': hashlib.sha256(wasm).hexdigest()[:12],
             **{f'PART_{name.upper()}': (PAGE / f'{name}.html').read_text() for name in ('network', 'pdu', 'box')}}
    text = (PAGE / 'index.html').read_text()
    for _ in range(2):  # a part of the page may hold another
        text = re.sub(r'\{\{([A-Z_]+)\}\}', lambda found: parts[found[1]], text)
    size = len(text.encode())
    if size >= LIMIT:
        raise Unmade(f'the page has {size:,} bytes; its limit is {LIMIT:,}')
    return text
