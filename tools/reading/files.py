"""Where the definitions stand that a file cites."""
from lib.repository import TOP


def file_of(crate, module):
    """The file of a module `Rattle.CRATE.specs.MODULE`, which is in specs/, or in src/ if it is `declared`; None for a
    library of the toolchain."""
    parts, folder, ending = module.split('.'), TOP / 'crates' / crate / 'specs', '.antt'
    if parts[0] == 'declared':
        parts, folder, ending = parts[1:], TOP / 'crates' / crate / 'src', '.rt'
    paths = (folder / f'{"/".join(parts[:count])}{ending}' for count in range(len(parts), 0, -1))
    return next((path for path in paths if path.is_file()), None)
