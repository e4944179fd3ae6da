"""What is wrong with a content of blocks, after docs/FORMAT.md: a second implementation, to compare the verifier with."""

ATOM = 16
TABLE = 128


def number(data):
    """A number in bytes, the highest first."""
    return int.from_bytes(data, "big")


def atoms_for(length):
    """How many atoms a used block of so many bytes takes."""
    return (length + 1) // ATOM + 1 if length <= 251 else (length + 3) // ATOM + 1


def class_of(atoms):
    """The list in which a free block of so many atoms stands."""
    return min(atoms.bit_length() - 1, 15)


def used_at(data, at, length, front):
    """A used or compressed block, or None where its last byte is neither 0 nor 1, or it does not fit."""
    atoms = atoms_for(length)
    end = at + ATOM * atoms
    if end > len(data) or data[end - 1] > 1:
        return None
    kind = "compressed" if data[end - 1] == 1 else "used"
    return {"kind": kind, "atoms": atoms, "content": data[at + front:at + front + length]}


def free_at(data, at):
    """A free block of two atoms or more, or None."""
    atoms = number(data[at + 1:at + 8])
    end = at + ATOM * atoms
    if atoms < 2 or end > len(data) or number(data[end - 8:end - 1]) != atoms or data[end - 1] != 255:
        return None
    return {"kind": "free", "atoms": atoms, "previous": number(data[at + 8:at + 15]), "next": number(data[at + 15:at + 22])}


def block_at(data, at):
    """The block that begins at a byte, or None."""
    first = data[at]
    if first <= 251:
        return used_at(data, at, first, 1)
    if first == 252:
        return used_at(data, at, 252 + number(data[at + 1:at + 3]), 3)
    if first == 253:
        if any(data[at + 8:at + 16]):
            return None
        return {"kind": "relocated", "atoms": 1, "target": number(data[at + 1:at + 8])}
    if first == 254:
        if data[at + 15] != 254:
            return None
        return {"kind": "free", "atoms": 1, "previous": number(data[at + 1:at + 8]), "next": number(data[at + 8:at + 15])}
    return free_at(data, at)


def blocks_of(data):
    """The blocks from atom 8 on by number, up to where none stands, and that place."""
    blocks = {}
    atom = TABLE // ATOM
    while atom * ATOM < len(data):
        block = block_at(data, atom * ATOM)
        if block is None:
            break
        blocks[atom] = block
        atom += block["atoms"]
    return blocks, atom


def of_blocks(blocks, end, atoms):
    """What is found in the blocks as they stand one after the other."""
    found = []
    before = None
    for atom, block in blocks.items():
        if block["kind"] == "compressed":
            found.append(f"compressed {atom}")
        if block["kind"] == "free" and before is not None:
            found.append(f"free neighbours {before} {atom}")
        before = atom if block["kind"] == "free" else None
    if end != atoms:
        found.append(f"bad block {end}")
    elif before is not None:
        found.append(f"free at end {before}")
    return found


def of_targets(blocks):
    """What is found in the relocated blocks."""
    found = []
    named = set()
    for atom, block in blocks.items():
        if block["kind"] != "relocated":
            continue
        target = block["target"]
        aims_at = blocks.get(target, {"kind": "none"})["kind"]
        if aims_at not in ("used", "compressed") or target in named:
            found.append(f"bad target {atom} {target}")
        named.add(target)
    return found


def of_list(data, blocks, number_of_list, met):
    """What is found along one list."""
    before = 0
    atom = number(data[8 * number_of_list:8 * number_of_list + 8])
    while atom != 0:
        block = blocks.get(atom, {"kind": "none"})
        goes_on = block["kind"] == "free" and class_of(block["atoms"]) == number_of_list
        if not goes_on or block["previous"] != before or atom in met:
            return [f"bad link {number_of_list} {atom}"]
        met.add(atom)
        before, atom = atom, block["next"]
    return []


def findings(data):
    """What is wrong with a content, in order."""
    if not data:
        return []
    if len(data) < TABLE or len(data) % ATOM:
        return [f"bad length {len(data)}"]
    blocks, end = blocks_of(data)
    found = of_blocks(blocks, end, len(data) // ATOM)
    if end * ATOM != len(data):
        return found
    met = set()
    lists = [line for k in range(16) for line in of_list(data, blocks, k, met)]
    unlisted = [f"unlisted {atom}" for atom, block in blocks.items() if block["kind"] == "free" and atom not in met]
    return found + of_targets(blocks) + lists + unlisted


def counts(data):
    """The line of counts of a content in which nothing is found."""
    blocks = blocks_of(data)[0] if data else {}
    kinds = [block["kind"] for block in blocks.values()]
    return f"atoms {len(data) // ATOM}, used {kinds.count('used')}, relocated {kinds.count('relocated')}, free {kinds.count('free')}"


def handles(data):
    """The handles of a sound content."""
    blocks = blocks_of(data)[0] if data else {}
    named = {block["target"] for block in blocks.values() if block["kind"] == "relocated"}
    return [atom for atom, block in blocks.items() if block["kind"] == "relocated" or (block["kind"] == "used" and atom not in named)]
