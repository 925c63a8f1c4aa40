"""The two languages of listings, by the texts of their lines: where a line leads to, and which of its numbers are
addresses. How an instruction is coded, and how long it is, is not known here."""
import collections
import dataclasses
import re

# A number in a line that is an address, or might be one: its place in the text, and what it is: the target of a
# 'branch' or a 'call', the 'vector' of BLWP, the place of 'data', or a 'value'.
Reference = collections.namedtuple('Reference', 'start end address kind')
NUMBER = '(>[0-9A-F]{4})'
TARGET = re.compile(rf'\w+ @?{NUMBER}')


class Line:
    """A line of a listing without its blanks, with the length of its bytes and its addresses from the left; `leads` are
    the ones that lead somewhere."""
    __slots__ = 'text', 'length', 'operation', 'is_code', 'references', 'leads'

    def __init__(self, language, text, length):
        self.text, self.length = text, length
        self.operation = text.partition(' ')[0]
        self.is_code = self.operation != language.nothing and self.operation != 'BYTE'
        self.references = language.references(self.operation, text) if self.is_code else ()
        self.leads = [it for it in self.references if it.kind in ('branch', 'call', 'vector')]


@dataclasses.dataclass(frozen=True)
class Language:
    lister: str
    assembler: str
    longest: int         # bytes of the longest instruction
    filler: bytes        # bytes that begin no instruction; an instruction begins at a multiple of their number
    nothing: str         # the operation of bytes that are no instruction
    near: frozenset      # operations whose target has to lie near their own place
    reach: int           # how far from there a target may be in a source
    ends: frozenset      # operations after which the program does not go on
    targets: dict        # operations whose operand is where the program goes, and the kind of the address
    data: re.Pattern     # a place in the image
    value: re.Pattern    # a number that may be anything
    cells: re.Pattern    # a place outside of the image, with its prefix

    def references(self, operation, text):
        """The addresses in a line, from the left."""
        kind = self.targets.get(operation)
        found = kind and TARGET.fullmatch(text)
        if found:
            return (_reference(found, kind),)
        places = [_reference(it, 'data') for it in self.data.finditer(text)]
        found = self.value.search(text)
        return tuple(places + [_reference(found, 'value')] if found else places)

    def cells_of(self, text):
        """The places outside of the image in a line, each with its prefix and where its number stands."""
        return [(found[1], _reference(found, 'cell', 2)) for found in self.cells.finditer(text)]


def _reference(found, kind, group=1):
    start, end = found.span(group)
    return Reference(start, end, int(found[group][1:], 16), kind)


JUMPS = 'JMP JEQ JGT JH JHE JL JLE JLT JNC JNE JNO JOC JOP'.split()

GPL = Language(
    lister='gdis', assembler='gasm', longest=13, filler=b'\x0F', nothing='BYTE',
    near=frozenset(['BR', 'BS']), reach=0x2000, ends=frozenset(['RTN', 'RTNC', 'EXIT', 'B']),
    targets={'B': 'branch', 'BR': 'branch', 'BS': 'branch', 'CALL': 'call'},
    data=re.compile(f'G@{NUMBER}'), value=re.compile(f',{NUMBER}$'),
    cells=re.compile(rf'(V@|(?<![VG])@|\*){NUMBER}'))

TMS = Language(
    lister='dis', assembler='asm', longest=6, filler=b'\0\0', nothing='DATA',
    near=frozenset(JUMPS), reach=0x100, ends=frozenset(['JMP', 'B', 'RTWP']),
    targets={**dict.fromkeys(JUMPS, 'branch'), 'B': 'branch', 'BL': 'call', 'BLWP': 'vector'},
    data=re.compile(f'@{NUMBER}'), value=re.compile(rf'^(?:(?:LI|AI|CI) R\d+,|LWPI ){NUMBER}$'),
    cells=re.compile(f'(@){NUMBER}'))
