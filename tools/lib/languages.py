"""The names of operations and directives of both languages, by which a note says that a line is of the other one."""
from lib.operations import ASSEMBLER, GPL, TABLE
from lib.other_operations import NAMES

# the language of a source, by the command of ti_bench or ti_debug that takes it
OF_COMMAND = {'gasm': GPL, 'glist': GPL, 'gsteps': GPL, 'asm': ASSEMBLER, 'list': ASSEMBLER}
KINDS = {GPL: 'a GPL source', ASSEMBLER: 'an assembler source'}
OWNERS = {GPL: 'GPL', ASSEMBLER: 'the TMS9900'}

OPERATIONS = {language: {name for name, it in rows.items() if not it.is_directive} for language, rows in TABLE.items()}
DIRECTIVES = {language: {name for name, it in rows.items() if it.is_directive and not it.is_form}
              for language, rows in TABLE.items()}
# the operations of GPL that the assembler does not have
LEFT_OUT = NAMES


def other(language):
    return ASSEMBLER if language == GPL else GPL


def of_the_other(operation, language):
    """What a name is in the other language, as a sentence; None if it is nothing there, or something in its own too."""
    own, far = OPERATIONS[language] | DIRECTIVES[language], other(language)
    if operation in own:
        return None
    if operation in OPERATIONS[far] or (far == GPL and operation in LEFT_OUT):
        return f'{operation} is an operation of {OWNERS[far]}, and this is {KINDS[language]}'
    if operation in DIRECTIVES[far]:
        return f'{operation} is a directive of {KINDS[far]}, and this is {KINDS[language]}'
    return None
