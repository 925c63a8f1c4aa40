"""The reports of link and exec: object text linked, and run on the processor, by the Editor/Assembler manual and the
TMS 9900 data manual."""
import tms_dump
import tms_linker
import tms_memory
import tms_processor
import tms_reader

LARGEST = 1048576
WORKSPACE = 0x83E0


def refusal(why, name=''):
    """The fault line of a refused object text."""
    if isinstance(why, tms_reader.TextRefused):
        line, text = why.args
        return f'{name}line {line}: {text}\n'.encode('latin-1')
    return f'{why}\n'.encode('latin-1')


def linked(texts):
    """The linked modules of object texts, given with what their fault lines begin with; or a fault line."""
    modules = []
    for name, data in texts:
        try:
            modules += tms_reader.modules(data)
        except tms_reader.TextRefused as why:
            return None, refusal(why, name)
    try:
        return tms_linker.linked(modules), b''
    except tms_linker.LinkRefused as why:
        return None, refusal(why)


def link_report(given):
    """The status, the memory and the fault line of object text."""
    if len(given) > LARGEST:
        return 1, b'', b'too large\n'
    found, fault = linked([('', given)])
    return (0, tms_linker.listing(found), b'') if found else (1, b'', fault)


def files_report(names, files):
    """The same of files: all are read first."""
    for name in names:
        if name not in files:
            return 1, b'', f'missing {name}\n'.encode()
        if len(files[name]) > LARGEST:
            return 1, b'', b'too large\n'
    found, fault = linked([(f'{name} ', files[name]) for name in names])
    return (0, tms_linker.listing(found), b'') if found else (1, b'', fault)


def machine(found):
    """The processor before the first instruction of a linked program."""
    memory = tms_memory.Memory()
    for address, word in found.words.items():
        memory.load(address, word)
    return tms_processor.Processor(memory, WORKSPACE, found.entry)


def exec_report(given, limit):
    """The status, the report and the fault line of a run, and how many instructions it had."""
    if len(given) > LARGEST:
        return 1, b'', b'too large\n', 0
    found, fault = linked([('', given)])
    if not found:
        return 1, b'', fault, 0
    cpu = machine(found)
    end = cpu.run(limit)
    status = 7 if end.startswith(('end refused', 'end port')) else 0
    lines = [end, *tms_dump.dump(cpu)]
    return status, ''.join(f'{line}\n' for line in lines).encode(), b'', cpu.count
