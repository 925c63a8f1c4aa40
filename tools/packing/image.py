"""The image of a cartridge in whole GROMs, and a packed file of it."""
import io
import zipfile

from lib.command import Stopped

FIRST, GROM = 0x6000, 0x2000
# a packed file has the same bytes whenever it is made
MOMENT = (1980, 1, 1, 0, 0, 0)
LAYOUT = '''<?xml version="1.0" encoding="utf-8"?>
<romset version="1.0">
  <resources>
    <rom id="gromimage" file="{file}"/>
  </resources>
  <configuration>
    <pcb type="standard">
      <socket id="grom_socket" uses="gromimage"/>
    </pcb>
  </configuration>
</romset>
'''


def filled(lines, image):
    """The bytes of an image from >6000 on, filled up with zeros to whole GROMs. The lines of its listing say where each
    byte is, and they must have the bytes of the image."""
    placed = {line.address + at: byte for line in lines for at, byte in enumerate(line.data)}
    if not placed:
        raise Stopped('the source places no byte')
    if min(placed) < FIRST:
        raise Stopped(f'a byte is at >{min(placed):04X}: the GROMs below >{FIRST:04X} are those of the console')
    if bytes(placed.get(at, 0) for at in range(min(placed), max(placed) + 1)) != image:
        raise Stopped('the listing and the image that the program wrote have not the same bytes')
    return bytes(placed.get(at, 0) for at in range(FIRST, (max(placed) // GROM + 1) * GROM))


def packed(name, data):
    """A packed cartridge: a zip file of the GROMs and of a layout that names them."""
    made, file = io.BytesIO(), f'{name}G.bin'
    with zipfile.ZipFile(made, 'w') as archive:
        for entry, text in ((file, data), ('layout.xml', LAYOUT.format(file=file).encode())):
            archive.writestr(zipfile.ZipInfo(entry, MOMENT), text, zipfile.ZIP_DEFLATED)
    return made.getvalue()
