"""Data pages as replay is compared: docs/FORMATS.md, "Kinds and masks"."""
import struct

UNUSED, NORMAL = 0, 1
HEAP, BTREE, SEQUENCE, OTHER = "heap", "btree", "sequence", "other"


def lines(page):
    """The line pointers of a page: where the item is, its kind and its length."""
    count = (struct.unpack_from("<H", page, 12)[0] - 24) // 4
    return [(line & 0x7FFF, line >> 15 & 3, line >> 17) for line in struct.unpack_from("<%dI" % count, page, 24)]


def is_well_formed(page):
    lower, upper, special, layout = struct.unpack_from("<HHHH", page, 12)
    if not 24 <= lower <= upper <= special <= 8192 or lower % 4 or upper % 8 or special % 8 or layout != 0x2004:
        return False
    return all(not length or (at % 8 == 0 and upper <= at and at + length <= special) for at, _, length in lines(page))


def kind(page):
    special = struct.unpack_from("<H", page, 16)[0]
    if not is_well_formed(page):
        return OTHER
    if special == 8192:
        return HEAP
    if special == 8184 and page[8184:8188] == b"\x17\x17\0\0":
        return SEQUENCE
    return BTREE if special == 8176 and struct.unpack_from("<H", page, 8190)[0] <= 0xFF7F else OTHER


def hide_tuple(shown, at, block, place):
    """Hint bits, the command, and an address that stands for a row that was put speculatively."""
    infomask = struct.unpack_from("<H", shown, at + 20)[0]
    infomask &= ~0x0C00 if infomask & 0x0300 == 0x0300 else 0x000F
    struct.pack_into("<H", shown, at + 20, infomask)
    shown[at + 8:at + 12] = bytes(4)
    if struct.unpack_from("<H", shown, at + 16)[0] == 0xFFFE:
        struct.pack_into("<HHH", shown, at + 12, block >> 16, block & 0xFFFF, place)


def hide_heap(shown, block):
    """Returns where the lines end that are shown."""
    items = lines(shown)
    while items and items[-1][1:] == (UNUSED, 0):
        items.pop()
    struct.pack_into("<H", shown, 12, 24 + 4 * len(items))
    for place, (at, state, length) in enumerate(items, 1):
        shown[at + length:at + (length + 7) // 8 * 8] = bytes(-length % 8)
        if state == NORMAL and length >= 23:
            hide_tuple(shown, at, block, place)
    return 24 + 4 * len(items)


def hide_btree(shown, lower):
    if shown[8188] & 1:
        for at in range(24, lower, 4):
            shown[at + 1] &= 0x7F
            shown[at + 2] &= 0xFE
    shown[8188] &= ~0x60
    shown[8190:8192] = bytes(2)


def mask(page, block):
    """The page of a block without what doesn't show."""
    if not any(page):
        return page
    shown, what = bytearray(page), kind(page)
    lower, upper = struct.unpack_from("<HH", page, 12)
    shown[0:10] = bytes(10)
    if what in (HEAP, BTREE):
        shown[10] &= ~7
        shown[20:24] = bytes(4)
    if what == HEAP:
        lower = hide_heap(shown, block)
    if what == BTREE:
        hide_btree(shown, lower)
    if what != OTHER:
        shown[lower:upper] = bytes(upper - lower)
    return bytes(shown)
