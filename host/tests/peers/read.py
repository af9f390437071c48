#!/usr/bin/python3
"""Reads TIFF files with tifffile, Pillow and libtiff, and holds what each makes of them against the pictures beside them.

    read.py FOLDER

reads each FOLDER/NAME.tif, of one page, and FOLDER/NAME.0.picture, which has what make.py says; has libtiff's tools look
at the file and copy it, packed if it is packed; prints how many files each peer read, and ends with a message at the first that differs.
"""

import subprocess
import sys
import tempfile
from pathlib import Path

from make import Libtiff, read_pillow, read_tifffile

# kinds, as the names of files begin, that Pillow does not read as they are meant, and what it does with them
PILLOW_LACKS = {
    "grey16-white": "it takes 0 as black",
    "colour16": "it has 8 bits of each colour alone",
    "grey-alpha-apart": "it knows no such mode",
    "grey-alpha-white": "it knows no such mode",
}

# libtiff knows this tag with a compression that it predicts for alone
UNKNOWN = "TIFFReadDirectory: Warning, Unknown field with tag 317 (0x13d) encountered."


def said(*words):
    """What one of libtiff's tools prints, but for the tag that it does not know."""
    done = subprocess.run([str(word) for word in words], capture_output=True, text=True)
    lines = [line for line in done.stderr.splitlines() if line != UNKNOWN]
    assert done.returncode == 0 and not lines, (words, done.returncode, lines)
    return done.stdout


def check_tools(path):
    """tiffinfo reads all of the file; a copy by tiffcp, which adds a tag, is the same to tiffcmp."""
    said("tiffinfo", "-D", path)
    with tempfile.TemporaryDirectory() as folder:
        copy = Path(folder) / "copy.tif"
        said("tiffcp", path, copy)
        differences = said("tiffcmp", path, copy).splitlines()
    assert differences == [f"Orientation tag appears only in {copy}"], (path, differences)


def lacks(name):
    return any(name.startswith(kind) for kind in PILLOW_LACKS)


def main(folder):
    peers = {"tifffile": read_tifffile, "pillow": read_pillow, "libtiff": Libtiff().read}
    counts = dict.fromkeys(peers, 0)
    for path in sorted(folder.glob("*.tif")):
        expected = path.with_suffix(".0.picture").read_bytes()
        for peer, read in peers.items():
            if peer == "pillow" and lacks(path.stem):
                continue
            assert read(path) == [expected], (peer, path.name)
            counts[peer] += 1
        check_tools(path)
    print(*(f"{peer} {count}" for peer, count in counts.items()))


if __name__ == "__main__":
    main(Path(sys.argv[1]))
