"""What is asked of a handheld's databases in words, as requests."""

from handheld import ERRORS, READING, WRITING, answered, request

BLOCKS = {"no-app": 0x1C, "app": 0x1C, "sort": 0x1E}


def refusal(lines):
    """Why no handheld stands over a folder, by what the program printed."""
    words = lines[0].split(" ")
    if words[:2] == ["bad", "file"]:
        return f"bad {' '.join(words[3:])}"
    if words[:3] == ["too", "many", "databases"]:
        return "too many"
    return "keeper" if words[:2] == ["handheld", "folder"] else " ".join(lines)


def asked(cases, function, data=None, argument=0x20):
    """The error and the data of a reply; `keeper` where the program ended at the request."""
    reply = cases.ask(request(function, data, argument))
    return answered(reply) if reply is not None else ("keeper", b"")


def word(error):
    """The word of what a request came to."""
    return "done" if error == 0 else ERRORS.get(error, error)


def closing(cases, handle):
    asked(cases, 0x19, handle)


def created(cases, name, attributes):
    """Makes a database, which stays open."""
    data = b"memoDATA\0\0" + attributes.to_bytes(2, "big") + b"\0\1" + name + b"\0"
    return asked(cases, 0x18, data)


def user(cases, number):
    """Makes a user of this number the handheld's."""
    data = number.to_bytes(4, "big") + bytes(4) + (1).to_bytes(4, "big") + bytes(8)
    return word(asked(cases, 0x11, data + b"\xf0\4Ada\0")[0])


def databases(cases):
    """The user, and the names of all databases in the order of the list."""
    owner = int.from_bytes(asked(cases, 0x10)[1][:4], "big")
    names = [name.hex() for _, name in cases.talk.listed()]
    return " ".join([f"databases {len(names)} user {owner}", *names])


def entries(cases, name):
    """What stands in a database."""
    error, handle = cases.talk.opened(name, READING)
    if error:
        return "none"
    said = cases.talk.shown(handle)
    closing(cases, handle)
    return said


def change(cases, handle, parts):
    """Does one change of an open database. What it says, or nothing."""
    number = int(parts[1]) if len(parts) > 1 and parts[1].isdigit() else 0
    data = bytes.fromhex(parts[2]) if len(parts) > 2 else b""
    match parts[0]:
        case "place":
            where = handle + b"\0" + number.to_bytes(4, "big") + b"\0\0\xff\xff"
            error, came = asked(cases, 0x20, where)
            return f" place {int.from_bytes(came[4:6], 'big') + 1 if error == 0 else 0}"
        case "purge":
            error, _ = asked(cases, 0x22, handle + b"\0" + number.to_bytes(4, "big"))
            return f" purged {'true' if error == 0 else 'false'}"
        case "code":
            error, _ = asked(cases, 0x25, handle + b"\0code" + number.to_bytes(2, "big"))
            return f" purged {'true' if error == 0 else 'false'}"
        case "add":
            where = handle + b"\x80" + number.to_bytes(4, "big") + b"\0\0"
            came = int.from_bytes(asked(cases, 0x21, where + data)[1], "big")
            return f" added {came}" if number else " added"
        case "put":
            head = handle + b"\0code" + number.to_bytes(2, "big")
            return f" {word(asked(cases, 0x24, head + len(data).to_bytes(2, 'big') + data)[0])}"
        case "no-app" | "app" | "sort":
            asked(cases, BLOCKS[parts[0]], handle + b"\0" + len(data).to_bytes(2, "big") + data)
        case "clean":
            asked(cases, 0x26, handle)
        case "reset":
            asked(cases, 0x27, handle)
    return ""


def lent(cases, name, mode, changes):
    """Opens a database, changes it and closes it."""
    error, handle = cases.talk.opened(name, WRITING if mode == "write" else READING)
    if error:
        return word(error)
    said = "".join(change(cases, handle, one.split(":")) for one in changes)
    closing(cases, handle)
    return "done" + said


def ids(cases, name, count):
    """Gives ids to new records, each of which is taken out again. How many came twice."""
    handle, found = cases.talk.opened(name, WRITING)[1], []
    for number in range(count):
        new = handle + b"\x80" + bytes(6) + f"memo {number}".encode()
        found.append(asked(cases, 0x21, new)[1])
        asked(cases, 0x22, handle + b"\0" + found[-1])
    return f"ids {len(found)} twice {len(found) - len(set(found))}"


def answer(cases, words):
    """What a line in words answers."""
    if cases.talk.over():
        return "not sound"
    match words:
        case ["databases"]:
            return databases(cases)
        case ["entries", name]:
            return entries(cases, bytes.fromhex(name))
        case ["user", number]:
            return user(cases, int(number))
        case ["create", name, attributes]:
            error, handle = created(cases, bytes.fromhex(name), int(attributes))
            if error == 0:
                closing(cases, handle)
            return word(error)
        case ["delete", name]:
            return word(asked(cases, 0x1A, b"\0\0" + bytes.fromhex(name) + b"\0")[0])
        case ["lend", name, mode, *changes]:
            return lent(cases, bytes.fromhex(name), mode, changes)
        case ["ids", name, count]:
            return ids(cases, bytes.fromhex(name), int(count))
    return f"what? {' '.join(words)}"
