"""Images of littlefs, disk version 2.0: made, read and changed by the program lfsed.

>>> import lfsed, pathlib
>>> folder = pathlib.Path("fw")
>>> folder.mkdir()
>>> _ = (folder / "config").write_text("wifi=on")
>>> image = lfsed.pack("fw.img", folder, block=512, count=64)
>>> image.read("/config")
b'wifi=on'
>>> image.write("/logs/boot", b"started", parents=True)
>>> [row.path for row in image.rows()]
['/', '/config', '/logs', '/logs/boot']

A change is kept in a journal beside the image, and is taken back byte for byte.

>>> image.undo()
>>> [row.path for row in image.rows()]
['/', '/config']

What is refused changes nothing, and is told as a fault.

>>> image.remove("/logs")
Traceback (most recent call last):
lfsed.Refusal: 30 NotFound: fw.img: /logs: nothing is there

What is written with littlefs-python, where `fs` is an image in memory, and what stands for it here, where `image` is one in a file:

    fs = LittleFS(block_size=512, block_count=64)    image = lfsed.format("fw.img", block=512, count=64)
    fs.context.buffer                                pathlib.Path("fw.img").read_bytes()
    fs.context.buffer = bytearray(data)              pathlib.Path("fw.img").write_bytes(data); image = lfsed.Image("fw.img")
    fs.open("f", "w"), fs.open("f", "rb")            image.open("/f", "w"), image.open("/f", "rb")
    fs.listdir("d"), fs.walk("d")                    image.listdir("/d"), image.walk("/d")
    fs.stat("f").size                                image.stat("/f").size
    fs.mkdir("d"), fs.makedirs("d/e")                image.mkdir("/d"), image.mkdir("/d/e", parents=True)
    fs.remove("f"), fs.rmdir("d")                    image.remove("/f"), image.remove("/d")
    fs.rename("f", "g")                              image.rename("/f", "/g"): /g isn't replaced
    fs.setattr("f", "t", b"x")                       image.set_attribute("/f", ord("t"), b"x")
    fs.getattr("f", "t"), fs.removeattr("f", "t")    image.attributes("/f")[ord("t")], image.remove_attribute("/f", ord("t"))
    fs.used_block_count                              summary = image.check(); summary.count - summary.free
    fs.fs_grow(128)                                  image.grow(128)
    LittleFSError                                    lfsed.Fault

A path begins with a slash. Each call runs the program: many changes are faster in a batch.

Paths are texts, or bytes; a byte of a path that is no UTF-8 stands in a text as `os.fsdecode` puts it there. Such a path, and one with a
zero byte, is listed and taken in batches; the program's command line doesn't take it. Contents and values of attributes are bytes. The
program is the one that the variable LFSED names, or else the one beside this module, or on the path.
"""
from ._faults import Fault, HostFault, ImageFault, UsageError, Refusal
from ._image import Batch, Image, find, format, pack, repack
from ._records import BlockRange, BlockSum, Change, Difference, Limits, Place, Row, Summary

__version__ = "0.2.0"
__all__ = [
    "Batch", "BlockRange", "BlockSum", "Change", "Difference", "Fault", "HostFault", "Image", "ImageFault", "Limits", "Place", "UsageError",
    "Refusal", "Row", "Summary", "find", "format", "pack", "repack",
]

for each in Fault, HostFault, ImageFault, UsageError, Refusal:
    each.__module__ = __name__
