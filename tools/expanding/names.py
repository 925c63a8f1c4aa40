"""The words that stand in the operation field of a source."""
import typing

from lib.languages import ASSEMBLER, DIRECTIVES, GPL, OPERATIONS


class Words(typing.NamedTuple):
    """The words of a language: all that the program knows, and those whose operands have no local labels, since they
    are not read, or are names for other modules."""
    known: frozenset
    bare: frozenset


def _words(language, bare):
    return Words(frozenset(OPERATIONS[language] | DIRECTIVES[language]), frozenset(bare.split()))


WORDS = {
    GPL: _words(GPL, 'RTN RTNC H GT EXIT CARRY OVF'),
    ASSEMBLER: _words(ASSEMBLER, 'RTWP IDLE RSET CKON CKOF LREX NOP RT EVEN PAGE LIST UNL DEF REF'),
}
# the forms that are expanded: those that name a file, those without operands, and the others
FILE_FORMS, BARE_FORMS = frozenset(['COPY', 'BIN']), frozenset(['ENDM', 'ELSE', 'ENDIF'])
FORMS = FILE_FORMS | BARE_FORMS | frozenset(['MACRO', 'IF', 'IFDEF', 'CELLS', 'CELL'])
# those that the program refuses: asm itself reads COPY
REFUSED = {GPL: FORMS, ASSEMBLER: FORMS - {'COPY'}}
