"""The command that finds the first step after which a watched range differs, or a watched address is reached."""
import typing

from gpl_report import Run

SCRATCHPAD = 0x8300
VISIBLE_END = 0x83C2
VDP_SIZE = 0x4000

# a watched place: 'pad' or 'vdp' with first address and length, or 'pc' with its address
Item = typing.NamedTuple('Item', [('kind', str), ('at', int), ('length', int)])


def allowed(items):
    """Whether items are ones that the command takes: 1 to 8, each range in the visible cells or in VDP memory."""
    return 1 <= len(items) <= 8 and all(
        item.kind == 'pc' or item.length >= 1 and (
            item.at >= SCRATCHPAD and item.at + item.length <= VISIBLE_END if item.kind == 'pad'
            else item.at + item.length <= VDP_SIZE) for item in items)


def hit(items, console):
    """The first item that holds after a step, with its lowest changed address and new byte, or None."""
    changes = {'pad': [(SCRATCHPAD + offset, console.cells[offset]) for offset, old in console.old_cells.items()
                       if console.cells[offset] != old],
               'vdp': [(address, console.vdp[address]) for address, old in console.old_vdp.items()
                       if console.vdp[address] != old]}
    for number, item in enumerate(items, 1):
        if item.kind == 'pc':
            if console.pc == item.at:
                return f'item {number} pc'
            continue
        found = [change for change in changes[item.kind] if item.at <= change[0] < item.at + item.length]
        if found:
            address, byte = min(found)
            return f'item {number} >{address:04X}={byte:02X}'
    return None


def watched(items, console, limit):
    """The run up to the first hit, the limit or its end, and the first line of its report."""
    run = Run(console, 0)
    while run.steps < limit:
        before = console.pc
        run.one(None)
        if run.stop is not None:
            break
        found = hit(items, console)
        if found:
            return run, f'hit {run.steps} at >{before:04X} {found}'
    return run, 'no hit'
