#!/usr/bin/python3
"""Makes TIFF files with tifffile, Pillow and libtiff, and writes beside each what its maker reads of it.

    make.py FOLDER [NAME..]

writes FOLDER/NAME.tif and, for each page N, FOLDER/NAME.N.picture: what the maker reads, as Hamrisk renders a picture
(docs/RULES.md, 6). That is: pixels in rows, channels side by side; 16 bits most significant byte first; bilevel as 0 and
255; where 0 is white, inverted; a palette's colours by their high bytes; colours that were multiplied by alpha divided
by it again.
"""

import ctypes
import itertools
import subprocess
import sys
import tempfile
from pathlib import Path

import numpy
import tifffile
from PIL import Image, TiffImagePlugin

W, H = 13, 7
ASSOCIATED, UNASSOCIATED = 1, 2


def noise(shape, dtype=numpy.uint8):
    """Samples that look random, the same on each run."""
    top = numpy.iinfo(dtype).max
    return numpy.random.RandomState(numpy.prod(shape) + top % 97).randint(0, top + 1, shape).astype(dtype)


def runs(shape, dtype=numpy.uint8):
    """The same with runs of equal samples, which PackBits repeats."""
    samples = noise(shape, dtype)
    samples[:, 2:9] = samples[:, 2:3]
    return samples


def bits():
    return noise((H, W)) > 127


def multiplied():
    """Colours and alpha, the colours multiplied by it."""
    pixels = noise((H, W, 4))
    alpha = pixels[..., 3:].astype(int)
    pixels[..., :3] = pixels[..., :3] * alpha // 255
    return pixels


def divided(pixels):
    """Colours that were multiplied by alpha, divided by it: to nearest, halves upward, at most 255, 0 beside an alpha of 0."""
    alpha = pixels[..., -1:].astype(int)
    full = 255 * pixels[..., :-1].astype(int)
    colours = numpy.minimum(255, (2 * full + alpha) // numpy.maximum(2 * alpha, 1))
    return numpy.concatenate([numpy.where(alpha == 0, 0, colours), alpha], axis=-1).astype(numpy.uint8)


def differences(samples):
    """Each sample less the one a pixel before it."""
    result = samples.copy()
    result[:, 1:] = samples[:, 1:] - samples[:, :-1]
    return result


def inverted(samples, alpha):
    """Samples of which 0 is white; alpha, where there is one, stays."""
    result = numpy.iinfo(samples.dtype).max - samples
    if alpha:
        result[..., -1] = samples[..., -1]
    return result


def picture(samples):
    """The bytes of a picture whose channels are side by side."""
    return samples.astype(samples.dtype.newbyteorder(">")).tobytes()


# tifffile: what it reads are the samples as they are stored, planes apart where they are. Debian's unpacks PackBits, but has to
# be lent what packs a strip: each row, which is the last two axes, on its own


def packed(row):
    """A row of bytes as repeats of runs of three and more, and literals."""
    result, literal = bytearray(), bytearray()

    def put_literal():
        for at in range(0, len(literal), 128):
            part = literal[at : at + 128]
            result.extend(bytes([len(part) - 1]) + part)
        literal.clear()

    for byte, run in itertools.groupby(row):
        count = len(list(run))
        while count > 2:
            put_literal()
            result.extend([257 - min(count, 128), byte])
            count -= min(count, 128)
        literal.extend([byte] * count)
    put_literal()
    return bytes(result)


def packed_strip(samples, axis):
    assert axis == -2
    return b"".join(packed(row.tobytes()) for row in samples.reshape(-1, *samples.shape[-2:]))


tifffile.tifffile.imagecodecs.packbits_encode = packed_strip


def write_tifffile(path, *pages, little=True, predicted=False, **options):
    """tifffile reads prediction without compression but does not write it: its tag is written as 318, and renamed."""
    if predicted:
        options["extratags"] = [(318, 3, 1, 2, True)]
    with tifffile.TiffWriter(path, byteorder="<" if little else ">") as writer:
        for page in pages:
            writer.write(page, contiguous=False, **options)
    if predicted:
        with tifffile.TiffFile(path) as file:
            at = file.pages[0].tags[318].offset
        content = bytearray(path.read_bytes())
        content[at : at + 2] = (317).to_bytes(2, "little" if little else "big")
        path.write_bytes(content)


def read_tifffile(path):
    with tifffile.TiffFile(path) as file:
        return [from_tifffile(page) for page in file.pages]


def from_tifffile(page):
    if page.predictor == 1:
        samples = page.asarray()
    else:
        # asarray of tifffile 2023.2.3 fails on prediction without compression; strip by strip it is undone
        samples = numpy.concatenate([strip[0] for strip, _, _ in page.segments()]).reshape(page.shape)
    if page.planarconfig == 2 and page.samplesperpixel > 1:
        samples = numpy.moveaxis(samples, 0, -1)
    if page.photometric == tifffile.PHOTOMETRIC.PALETTE:
        # three rows of colours of two bytes
        return picture((numpy.moveaxis(page.colormap, 0, -1) >> 8).astype(numpy.uint8)[samples])
    if samples.dtype == bool:
        samples = samples.astype(numpy.uint8) * 255
    if page.photometric == tifffile.PHOTOMETRIC.MINISWHITE:
        samples = inverted(samples, page.extrasamples)
    if page.extrasamples == (ASSOCIATED,):
        samples = divided(samples)
    return picture(samples)


def by_tifffile():
    grey, wide, colour = noise((H, W)), noise((H, W), numpy.uint16), noise((H, W, 3))
    wide_colour, alpha = noise((H, W, 3), numpy.uint16), noise((H, W, 4))
    apart = {"photometric": "rgb", "planarconfig": "separate"}
    planes = lambda samples: numpy.moveaxis(samples, -1, 0)
    packbits = {"compression": "packbits"}
    return {
        "grey": ([grey], {}),
        "grey-mm-strips": ([grey], {"little": False, "rowsperstrip": 2}),
        "grey-white": ([grey], {"photometric": "miniswhite"}),
        "grey16": ([wide], {"rowsperstrip": 3}),
        "grey16-mm": ([wide], {"little": False}),
        "grey16-white-mm": ([wide], {"little": False, "photometric": "miniswhite"}),
        "bilevel": ([bits()], {"photometric": "minisblack"}),
        "bilevel-white-mm": ([bits()], {"photometric": "miniswhite", "little": False}),
        "colour-mm": ([colour], {"photometric": "rgb", "little": False, "rowsperstrip": 4}),
        "colour16": ([wide_colour], {"photometric": "rgb", "rowsperstrip": 5}),
        "colour-apart-strips": ([planes(colour)], {**apart, "rowsperstrip": 3}),
        "colour16-apart-mm": ([planes(wide_colour)], {**apart, "little": False}),
        "alpha": ([alpha], {"photometric": "rgb", "extrasamples": ["unassalpha"]}),
        "alpha-multiplied": ([multiplied()], {"photometric": "rgb", "extrasamples": ["assocalpha"], "rowsperstrip": 2}),
        "alpha-multiplied-apart": ([planes(multiplied())], {**apart, "extrasamples": ["assocalpha"]}),
        "grey-alpha-mm": (
            [noise((H, W, 2))],
            {"photometric": "minisblack", "planarconfig": "contig", "extrasamples": ["unassalpha"], "little": False},
        ),
        "palette8": ([grey], {"photometric": "palette", "colormap": noise((3, 256), numpy.uint16)}),
        "palette8-mm": ([grey], {"photometric": "palette", "colormap": noise((3, 256), numpy.uint16), "little": False}),
        "packed-grey-strips": ([runs((H, W))], {**packbits, "rowsperstrip": 2}),
        "packed-grey-wide": ([runs((H, 400))], {**packbits, "rowsperstrip": 3}),
        "packed-grey16-mm": ([runs((H, W), numpy.uint16)], {**packbits, "little": False}),
        "packed-colour": ([runs((H, W, 3))], {**packbits, "photometric": "rgb"}),
        "packed-colour-apart-strips": ([planes(runs((H, W, 3)))], {**packbits, **apart, "rowsperstrip": 3}),
        "packed-palette8-mm": (
            [runs((H, W))],
            {**packbits, "photometric": "palette", "colormap": noise((3, 256), numpy.uint16), "little": False},
        ),
        "packed-predicted16": ([differences(runs((H, W), numpy.uint16))], {**packbits, "predicted": True}),
        "packed-predicted-mm": (
            [differences(runs((H, W, 3)))],
            {**packbits, "photometric": "rgb", "rowsperstrip": 2, "little": False, "predicted": True},
        ),
        "predicted": ([differences(colour)], {"photometric": "rgb", "rowsperstrip": 2, "predicted": True}),
        "predicted16": ([differences(wide)], {"predicted": True}),
        "predicted16-mm": ([differences(wide_colour)], {"photometric": "rgb", "little": False, "predicted": True}),
        "pages": ([grey, wide, bits()], {"rowsperstrip": 4}),
    }


# Pillow: it renders bilevel, 0 as white, palettes and multiplied colours itself


def write_pillow(path, *pages, **options):
    """Many strips come from Pillow's use of libtiff alone."""
    TiffImagePlugin.WRITE_LIBTIFF = "strip_size" in options
    first, *others = pages
    first.save(path, "TIFF", save_all=True, append_images=others, **options)


def read_pillow(path):
    pictures = []
    with Image.open(path) as image:
        for page in range(image.n_frames):
            image.seek(page)
            pictures.append(from_pillow(image))
    return pictures


def from_pillow(image):
    if image.mode == "1":
        return picture(numpy.asarray(image).astype(numpy.uint8) * 255)
    if image.mode == "P":
        return picture(numpy.asarray(image.convert("RGB")))
    return picture(numpy.asarray(image))


def by_pillow():
    image = lambda samples, mode=None: Image.fromarray(samples, mode)
    grey, colour = image(noise((H, W))), image(noise((H, W, 3)))
    indexed = image(noise((H, W)), "P")
    indexed.putpalette(noise((768,)).tobytes())
    wide = noise((H, W), numpy.uint16)
    big = Image.frombytes("I;16B", (W, H), wide.astype(">u2").tobytes())
    white = {"tiffinfo": {TiffImagePlugin.PHOTOMETRIC_INTERPRETATION: 0}}
    packbits = {"compression": "packbits"}
    few = image(runs((H, W)), "P")
    few.putpalette(noise((768,)).tobytes())
    return {
        "grey": ([grey], {}),
        "grey-white": ([grey], white),
        "grey16": ([image(wide)], {}),
        "grey16-mm": ([big], {}),
        "bilevel": ([image(bits())], {}),
        "bilevel-white-strips": ([image(bits())], {**white, "strip_size": 5}),
        "colour-strips": ([colour], {"strip_size": 2 * 3 * W}),
        "alpha": ([image(noise((H, W, 4)))], {}),
        "grey-alpha": ([image(noise((H, W, 2)), "LA")], {}),
        "palette8": ([indexed], {}),
        "packed-grey-wide": ([image(runs((H, 400)))], packbits),
        "packed-grey16": ([image(runs((H, W), numpy.uint16))], packbits),
        "packed-bilevel": ([image(bits())], packbits),
        "packed-colour-strips": ([image(runs((H, W, 3)))], {**packbits, "strip_size": 2 * 3 * W}),
        "packed-alpha": ([image(runs((H, W, 4)))], packbits),
        "packed-palette8": ([few], packbits),
        "pages": ([grey, colour, indexed], {}),
    }


# libtiff: its tools write, and its library where no tool does; TIFFReadRGBAImage renders what has 8 bits and fewer


def tool(*words):
    """Runs one of libtiff's tools: its name, options, inputs, and the file that it writes."""
    subprocess.run([str(word) for word in words], check=True, stdout=subprocess.DEVNULL, stderr=subprocess.DEVNULL)


class Libtiff:
    def __init__(self):
        self.library = ctypes.CDLL("libtiff.so.6")
        for name in ["TIFFSetWarningHandler", "TIFFOpen"]:
            getattr(self.library, name).restype = ctypes.c_void_p
        self.library.TIFFSetWarningHandler(None)

    def open(self, path, mode):
        file = self.library.TIFFOpen(str(path).encode(), mode.encode())
        assert file, path
        return ctypes.c_void_p(file)

    def get(self, file, tag, default=0):
        value = ctypes.c_uint32(0)
        return value.value if self.library.TIFFGetField(file, tag, ctypes.byref(value)) else default

    def write(self, path, mode, rows, fields, colours=None):
        """A page of these rows of bytes, with these fields."""
        file = self.open(path, mode)
        for tag, value in fields.items():
            values = value if isinstance(value, tuple) else (value,)
            assert self.library.TIFFSetField(file, tag, *values), (path, tag)
        if colours is not None:
            lists = [numpy.ascontiguousarray(one) for one in colours]
            assert self.library.TIFFSetField(file, 320, *(ctypes.c_void_p(one.ctypes.data) for one in lists))
        for y, row in enumerate(rows):
            assert self.library.TIFFWriteScanline(file, row, y, 0) == 1, path
        self.library.TIFFClose(file)

    def read(self, path):
        file = self.open(path, "r")
        pictures = [self.page(file)]
        while self.library.TIFFReadDirectory(file):
            pictures.append(self.page(file))
        self.library.TIFFClose(file)
        return pictures

    def page(self, file):
        samples = self.get(file, 277, 1)
        return self.rendered(file) if self.get(file, 258, 1) < 16 and samples in (1, 3) else self.stored(file, samples)

    def rendered(self, file):
        """TIFFReadRGBAImage gives red, green, blue and alpha of each pixel; grey has all three alike."""
        w, h = self.get(file, 256), self.get(file, 257)
        pixels = numpy.zeros((h, w), numpy.uint32)
        assert self.library.TIFFReadRGBAImageOriented(file, w, h, ctypes.c_void_p(pixels.ctypes.data), 1, 1)
        colours = numpy.stack([pixels >> shift & 255 for shift in (0, 8, 16)], axis=-1).astype(numpy.uint8)
        return picture(colours[..., 0] if self.get(file, 262) < 2 else colours)

    def stored(self, file, channels):
        """TIFFReadScanline gives the samples of a row, in this machine's byte order."""
        w, h, apart = self.get(file, 256), self.get(file, 257), self.get(file, 284, 1) == 2
        dtype = numpy.uint16 if self.get(file, 258) == 16 else numpy.uint8
        planes = numpy.zeros((channels, h, w) if apart else (1, h, w * channels), dtype)
        for plane in range(len(planes)):
            for y in range(h):
                row = ctypes.c_void_p(planes[plane, y].ctypes.data)
                assert self.library.TIFFReadScanline(file, row, y, plane) == 1
        samples = numpy.moveaxis(planes, 0, -1) if apart else planes.reshape(h, w, channels)
        kind = self.extra(file)
        if self.get(file, 262) == 0:
            samples = inverted(samples, kind)
        return picture(divided(samples) if kind == ASSOCIATED else samples)

    def extra(self, file):
        count, kinds = ctypes.c_uint16(0), ctypes.POINTER(ctypes.c_uint16)()
        found = self.library.TIFFGetField(file, 338, ctypes.byref(count), ctypes.byref(kinds))
        return kinds[0] if found and count.value else 0


def by_tools(folder):
    """Names, and the words of the tool that makes each, all but the file that it writes."""
    grey, wide, colour = folder / "grey.raw", folder / "wide.raw", folder / "colour.raw"
    grey.write_bytes(noise((H, W)).tobytes())
    wide.write_bytes(noise((H, W), numpy.uint16).astype("<u2").tobytes())
    colour.write_bytes(noise((H, W, 3)).tobytes())
    pbm, ppm = folder / "bits.pbm", folder / "colour.ppm"
    pbm.write_bytes(b"P4 %d %d\n" % (W, H) + numpy.packbits(bits(), axis=1).tobytes())
    ppm.write_bytes(b"P6 %d %d 255\n" % (W, H) + colour.read_bytes())
    # M: without it raw2tiff writes bytes whose bits run from the low end (FillOrder 2)
    raw = ["raw2tiff", "-M", "-w", W, "-l", H, "-c", "none"]
    copy = ["tiffcp", "-c", "none"]
    first, second, third = folder / "first.tif", folder / "second.tif", folder / "third.tif"
    tool(*raw, grey, first)
    tool(*raw, "-d", "short", wide, second)
    tool("ppm2tiff", "-c", "none", ppm, third)
    black, flat = folder / "black.tif", folder / "flat.tif"
    tool("ppm2tiff", "-c", "none", pbm, black)
    flat_ppm = folder / "flat.ppm"
    flat_ppm.write_bytes(b"P6 %d %d 255\n" % (W, H) + runs((H, W, 3)).tobytes())
    tool("ppm2tiff", "-c", "none", flat_ppm, flat)
    pack = ["tiffcp", "-c", "packbits"]
    return {
        "grey": [*raw, grey],
        "grey-white-strips": [*raw, "-p", "miniswhite", "-r", 2, grey],
        "grey16": [*raw, "-d", "short", wide],
        "grey16-mm": [*copy, "-B", "-r", 3, second],
        "bilevel-strips": ["ppm2tiff", "-c", "none", "-r", 3, pbm],
        "colour": ["ppm2tiff", "-c", "none", ppm],
        "colour-apart-mm": [*copy, "-B", "-p", "separate", "-r", 2, third],
        "pages": [*copy, "-r", 4, first, second, third],
        "pages-mm": [*copy, "-B", first, second, third],
        "packed-bilevel-strips": [*pack, "-r", 3, black],
        "packed-colour-strips-mm": [*pack, "-B", "-r", 2, flat],
        "packed-colour-apart": [*pack, "-p", "separate", "-r", 4, flat],
        "packed-grey16": [*pack, "-r", 3, second],
        "packed-pages": [*pack, first, second, flat, black],
    }


def by_library():
    """Names; the mode that a file is opened with, rows of bytes, fields, and the colours of a palette."""
    fields = lambda **other: {256: W, 257: H, 259: 1, 277: 1, 284: 1, **{int(tag[1:]): v for tag, v in other.items()}}
    in_bytes = numpy.packbits(bits(), axis=1)
    nibbles = noise((H, W + 1)) >> 4
    pairs = nibbles[:, 0::2] << 4 | nibbles[:, 1::2]
    colours = lambda count: noise((3, count), numpy.uint16)
    extra = lambda kind: (1, ctypes.byref(ctypes.c_uint16(kind)))
    rows = lambda samples: [row.tobytes() for row in samples]
    return {
        "palette1": ("wl", rows(in_bytes), fields(t258=1, t262=3, t278=H), colours(2)),
        "palette1-mm": ("wb", rows(in_bytes), fields(t258=1, t262=3, t278=2), colours(2)),
        "palette4": ("wl", rows(pairs), fields(t258=4, t262=3, t278=3), colours(16)),
        "palette4-mm": ("wb", rows(pairs), fields(t258=4, t262=3, t278=H), colours(16)),
        "palette8-mm": ("wb", rows(noise((H, W))), fields(t258=8, t262=3, t278=H), colours(256)),
        "bilevel-mm": ("wb", rows(in_bytes), fields(t258=1, t262=1, t278=4), None),
        "packed-palette1": ("wl", rows(in_bytes), fields(t258=1, t259=32773, t262=3, t278=2), colours(2)),
        "packed-palette4-mm": ("wb", rows(pairs), fields(t258=4, t259=32773, t262=3, t278=3), colours(16)),
        "alpha-multiplied-mm": (
            "wb",
            rows(multiplied()),
            fields(t258=8, t262=2, t277=4, t278=3, t338=extra(ASSOCIATED)),
            None,
        ),
        "alpha": ("wl", rows(noise((H, W, 4))), fields(t258=8, t262=2, t277=4, t278=H, t338=extra(UNASSOCIATED)), None),
    }


def main(folder, names):
    def keep(name, write, read):
        if names and name not in names:
            return
        path = folder / f"{name}.tif"
        write(path)
        for page, content in enumerate(read(path)):
            (folder / f"{name}.{page}.picture").write_bytes(content)

    for name, (pages, options) in by_tifffile().items():
        keep(f"tifffile-{name}", lambda path: write_tifffile(path, *pages, **options), read_tifffile)
    for name, (pages, options) in by_pillow().items():
        keep(f"pillow-{name}", lambda path: write_pillow(path, *pages, **options), read_pillow)
    libtiff = Libtiff()
    with tempfile.TemporaryDirectory() as inputs:
        for name, words in by_tools(Path(inputs)).items():
            keep(f"libtiff-{name}", lambda path: tool(*words, path), libtiff.read)
    for name, (mode, rows, fields, colours) in by_library().items():
        keep(f"libtiff-{name}", lambda path: libtiff.write(path, mode, rows, fields, colours), libtiff.read)


if __name__ == "__main__":
    main(Path(sys.argv[1]), sys.argv[2:])
