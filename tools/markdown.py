"""Markdown as tools/docs reads it: links, code spans and code blocks, the anchors of headings, and the items that a text is made of."""
import re

BLOCK = re.compile(r'^```(\w*)\n(.*?)^```$', re.M | re.S)
SPAN = re.compile(r'`([^`]+)`')
LINK = re.compile(r'\[[^\]]*\]\(([^)\s]+)\)')
SENTENCE = re.compile(r'(?<=[.;])\s+(?=[A-Z0-9`(])')


def line_of(text, place):
    return text.count('\n', 0, place) + 1


def emptied(found):
    """As many lines as were found, with nothing in them."""
    return '\n' * found.group(0).count('\n')


def blocks(text):
    """Each code block: its first line, its language or '', and what stands in it."""
    for found in BLOCK.finditer(text):
        yield line_of(text, found.start()) + 1, found.group(1), found.group(2)


def prose(text):
    return BLOCK.sub(emptied, text)


def links(text):
    text = SPAN.sub(emptied, prose(text))
    return [(line_of(text, found.start()), found.group(1)) for found in LINK.finditer(text)]


def anchors(text):
    """The names by which the headings can be linked to."""
    found = set()
    for heading in re.findall(r'^#+ (.*)$', prose(text), re.M):
        slug = re.sub(r'[^\w\- ]', '', heading.lower()).replace(' ', '-')
        found.add(slug if slug not in found else f'{slug}-{sum(other.startswith(slug) for other in found)}')
    return found


def items(text):
    """The paragraphs, list items and table rows of a text, each with its first line and as one line."""
    text, start = prose(text), 0
    for end in [found.start() for found in re.finditer(r'\n(?=\n|- |\d+\. |\||#)', text)] + [len(text)]:
        item = text[start:end]
        if item.strip():
            yield line_of(text, start + len(item) - len(item.lstrip())), ' '.join(item.split())
        start = end


def spans(text):
    return [' '.join(span.split()) for span in SPAN.findall(text)]
