"""What the benches look at in a store's file. Its bytes are those of docs/store.md."""
import os


def end_of_entries(path):
    """The place behind the closed gate that ends the entries of the half that is current."""
    with open(path, "rb") as it:
        length = int.from_bytes(it.read(24)[16:24], "big")
        it.seek(0)
        held = it.read(4096 + 2 * length)
    ends = {}
    for at in (4096, 4096 + length):
        if at < len(held) and held[at] == 1:
            place = at + 10 + int.from_bytes(held[at + 2:at + 10], "big")
            while held[place] == 1:
                place += 5 + int.from_bytes(held[place + 1:place + 5], "big")
            ends[held[at + 1]] = place + 1
    later = [it for it in ends if (it - 1) % 3 in ends]
    return ends[later[0] if later else min(ends)]


def used(path):
    """The bytes of the half that is current which an opening reads."""
    with open(path, "rb") as it:
        length = int.from_bytes(it.read(24)[16:24], "big")
    return (end_of_entries(path) - 4096) % length


def first_block(path):
    """The place of the first block."""
    with open(path, "rb") as it:
        return 4096 + 2 * int.from_bytes(it.read(24)[16:24], "big")


def taken(path):
    """The bytes that the file takes of the disk."""
    return os.stat(path).st_blocks * 512
