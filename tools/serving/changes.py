"""Changes of a source that keep its bytes: the source is assembled before and after, and the change is refused else."""
import re

from expanding.macros import NAME as MACRO_NAME

from . import names
from .analysis import image_of
from .rpc import Refused
from .text import edits
from .tokens import LOCAL, REGISTER, replaced, set_out

LABEL = re.compile(r'[A-Z][0-9A-Z]{0,5}')


def check_name(key, new):
    """Refuses a word that is no name of the kind."""
    if key.kind == names.MACRO:
        if not MACRO_NAME.fullmatch(new):
            raise Refused(f'{new} is no name of a macro: a letter, and up to 30 letters, digits or _')
    elif LOCAL.fullmatch(key.written):
        if not LOCAL.fullmatch(new):
            raise Refused(f'{new} is no local label: a full stop, and up to 31 letters, digits or _')
    elif not LABEL.fullmatch(new.upper()):
        raise Refused(f'{new} is no name: a name is a letter and up to five letters or digits')
    elif REGISTER.fullmatch(new.upper()):
        raise Refused(f'{new} is a register')


def renamed(analysis, key, new):
    """The lines of all texts in which a name is another one, by their URIs."""
    lines = {}
    for it in names.places(analysis, key):
        lines.setdefault((it.document.uri, it.number), (it.document, []))[1].append((it.start, it.end, new))
    texts = {it.uri: list(it.lines) for it in analysis.source.documents if it.uri in {uri for uri, _ in lines}}
    for (uri, number), (document, changes) in lines.items():
        line = document.line(number)
        texts[uri][number] = replaced(line, changes) + document.lines[number][len(line):]
    return texts


def set_out_lines(language, document, first, last, columns):
    """The lines of a text, some of which are set out in columns."""
    lines = list(document.lines)
    for number in range(max(0, first), min(last, len(lines) - 1) + 1):
        line = document.line(number)
        lines[number] = set_out(language, line, columns) + lines[number][len(line):]
    return lines


def check(work, folders, source, texts, refused, reason, defines):
    """Refuses a change unless the source gives the same bytes with other texts."""
    before_folder, after_folder = folders.new(), folders.new()
    try:
        before, why = image_of(work, source, before_folder, defines)
        if before is None:
            raise Refused(f'{refused}: the source is refused as it is, {why}')
        after, why = image_of(work, source.with_lines(texts), after_folder, defines)
        if after is None:
            raise Refused(f'{refused}: the source would be refused, {why}')
        if after != before:
            made = 'image' if source.language == 'gpl' else 'object text'
            raise Refused(f'{refused}: {reason or f"the source would not give the same {made}"}')
    finally:
        before_folder.remove()
        after_folder.remove()


def workspace_edit(documents, texts):
    """The change of texts, as the protocol has it."""
    found = {uri: list(edits(documents[uri].lines, lines)) for uri, lines in texts.items()}
    return {'documentChanges': [
        {'textDocument': {'uri': uri, 'version': documents[uri].version}, 'edits': listed}
        for uri, listed in found.items() if listed]}
