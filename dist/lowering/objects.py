"""What the head and the table of symbols of an object file say: ELF of 64 bits, least octet first."""
import struct
from dataclasses import dataclass

HEAD = struct.Struct("<16sHHIQQQIHHHHHH")
SECTION = struct.Struct("<IIQQQQIIQQ")
SYMBOL = struct.Struct("<IBBHQQ")
SYMBOLS = 2


@dataclass
class Object:
    number: int
    flags: int
    gives: set[str]
    needs: set[str]


def name_at(octets, at):
    return octets[at : octets.index(0, at)].decode()


def read(path):
    """The processor, the flags, and the names that other files may use and those that it takes from them."""
    with open(path, "rb") as file:
        octets = file.read()
    mark, _, number, _, _, _, sections_at, flags, _, _, _, width, count, _ = HEAD.unpack_from(octets)
    if mark[:6] != b"\x7fELF\x02\x01":
        raise ValueError(f"{path} is no object file of 64 bits")
    sections = [SECTION.unpack_from(octets, sections_at + k * width) for k in range(count)]
    found = Object(number, flags, set(), set())
    for section in (it for it in sections if it[1] == SYMBOLS):
        names_at = sections[section[6]][4]
        for at in range(section[4], section[4] + section[5], SYMBOL.size):
            name, info, _, where, _, _ = SYMBOL.unpack_from(octets, at)
            if name and info >> 4:
                (found.gives if where else found.needs).add(name_at(octets, names_at + name))
    return found
