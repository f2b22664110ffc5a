"""worn.py URI STATE SEED: a client that writes and trims at random until it is refused, and notes in STATE what each page has. If STATE is there it compares
the disk with it. A request that was refused may have been done."""

import json
import pathlib
import random
import sys

import nbd

PAGE = 4096


def wear_out(disk, pages, draw):
    """What each page has, and the request that was refused."""
    has, steps = [0] * pages, 0
    while True:
        page, is_trim = draw.randrange(pages), draw.random() < 0.3
        steps += 1
        try:
            if is_trim:
                disk.trim(PAGE, page * PAGE)
            else:
                disk.pwrite(steps.to_bytes(8, "little") * (PAGE // 8), page * PAGE)
        except nbd.Error:
            return {"has": has, "refused": [page, 0 if is_trim else steps]}
        has[page] = 0 if is_trim else steps


def main(uri, state, seed):
    disk, path = nbd.NBD(), pathlib.Path(state)
    disk.connect_uri(uri)
    pages = disk.get_size() // PAGE
    if not path.exists():
        path.write_text(json.dumps(wear_out(disk, pages, random.Random(seed))))
    noted, data = json.loads(path.read_text()), disk.pread(pages * PAGE, 0)
    found = [int.from_bytes(data[page * PAGE:page * PAGE + 8], "little") for page in range(pages)]
    wrong = [(page, found[page], noted["has"][page]) for page in range(pages)
             if found[page] != noted["has"][page] and [page, found[page]] != noted["refused"]]
    if wrong:
        sys.exit(f"{len(wrong)} pages have what they had before: {wrong[:5]}")


if __name__ == "__main__":
    main(*sys.argv[1:])
