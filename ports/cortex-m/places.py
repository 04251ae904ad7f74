"""What each byte of a module's memory is used as: a pointer or a number. Used by layout_check.py.

A place is what one pointer of the text leads to: a slot, a parameter, or what is reached through a pointer kept in memory. Its bytes are counted as
the text does, for pointers of 8 bytes. An access marks bytes as a pointer's first to eighth byte, or as a number. Marks go along copies, from
arguments to parameters and back, and through kept pointers, until nothing changes; so it is found too when one function writes a pointer and
another reads the same bytes as a number. The order of the instructions is not looked at. From a variable offset on a place holds numbers only.
A fill with zeros marks nothing: they are the same as a number and as a pointer, whatever its size."""

POINTER = 8  # bytes of a pointer in the text; on the 32-bit machine the first four of them are used
WIDTH = {"i1": 1, "i8": 1, "i16": 2, "i32": 4, "i64": 8, "ptr": POINTER}
FAR = 1 << 62


class Place:
    def __init__(self, line, function, size=None, pointer=False):
        self.line, self.function, self.size, self.pointer = line, function, size, pointer
        self.marks = {}  # offset: (what, line); what is -1 for a number, 0 to 7 for that byte of a pointer
        self.kept = {}  # offset: the place that the pointer kept there leads to
        self.extent = 0  # the bytes that are used through this place
        self.numbers_from = FAR
        self.host, self.aligned = False, 0  # the caller's memory; the first line that takes an alignment above 1 for granted
        self.links = []


class Memory:
    def __init__(self):
        self.values, self.parameters, self.places, self.errors = {}, {}, [], []
        self.waiting, self.ties, self.calls, self.told = {}, set(), [], set()

    def refuse(self, line, function, why):
        self.errors.append(f"line {line}, in {function}: {why}")

    def size(self):
        return len(self.places)

    def new(self, line, function, **more):
        place = Place(line, function, **more)
        self.places.append(place)
        return place

    # ---- what the text says

    def at(self, line, function, name, taken=True):
        """The place and offset of a pointer. taken: its address goes elsewhere, so that a slot of one pointer could be used as 8 bytes."""
        if (function, name) not in self.values:
            self.refuse(line, function, f"a pointer of unknown origin: {name}")
            self.values[function, name] = self.new(line, function), 0
        place, offset = self.values[function, name]
        if taken and place.pointer:
            self.refuse(line, function, f"the address of a slot that holds one pointer is used: {name}")
        return place, offset

    def parameter(self, function, order, name, host):
        place = self.parameters.setdefault((function, order), self.new(0, function))
        place.function, place.host = function, host
        self.values[function, name] = place, 0

    def argument(self, line, function, value, callee, order):
        place, offset = self.at(line, function, value)
        self.calls.append((line, function, place, offset, callee, order))

    def slot(self, line, function, found):
        size = WIDTH[found["type"]] if found["type"] else int(found["bytes"])
        self.values[function, found["result"]] = self.new(line, function, size=size, pointer=found["type"] == "ptr"), 0

    def access(self, line, function, found):
        place, offset = self.at(line, function, found["at"], taken=False)
        width = WIDTH[found["type"]]
        for k in range(width):
            self.mark(place, offset + k, (k if found["type"] == "ptr" else -1, line))
        self.grow(place, offset + width)
        if int(found["align"]) > 1:
            place.aligned = place.aligned or line
        return place, offset

    def read(self, line, function, found):
        place, offset = self.access(line, function, found)
        if found["type"] == "ptr":
            self.values[function, found["result"]] = self.through(place, offset), 0

    def written(self, line, function, found):
        place, offset = self.access(line, function, found)
        if found["type"] == "ptr":
            self.name(*self.at(line, function, found["value"]), self.through(place, offset))

    def fixed(self, line, function, found):
        place, offset = self.at(line, function, found["at"])
        self.values[function, found["result"]] = place, offset + int(found["offset"])

    def moving(self, line, function, found):
        place, offset = self.at(line, function, found["at"])
        element = self.new(line, function)
        element.numbers_from = 0
        self.number_from(place, offset)
        self.link(("element", place, offset, element), place)
        self.values[function, found["result"]] = element, 0

    def copied(self, line, function, found):
        to, to_offset = self.at(line, function, found["to"])
        place, offset = self.at(line, function, found["at"])
        self.grow(to, to_offset + int(found["bytes"]))
        self.grow(place, offset + int(found["bytes"]))
        self.link(("copy", to, to_offset, place, offset, int(found["bytes"])), to, place)

    def filled(self, line, function, found):
        place, offset = self.at(line, function, found["to"])
        if found["value"] != "0":
            for k in range(int(found["bytes"])):
                self.mark(place, offset + k, (-1, line))
        self.grow(place, offset + int(found["bytes"]))

    # ---- what follows from it

    def link(self, link, *places):
        for place in places:
            place.links.append(link)
            self.waiting[place] = None

    def changed(self, place):
        self.waiting[place] = None

    def mark(self, place, offset, mark):
        if mark[0] < 0 and offset >= place.numbers_from:
            return
        held = place.marks.get(offset)
        if held is None:
            place.marks[offset] = mark
            self.changed(place)
        elif held[0] != mark[0] and not {(held[1], mark[1]), (mark[1], held[1])} & self.told:
            self.told.add((held[1], mark[1]))
            kinds = {min(held[0], 0), min(mark[0], 0)}
            why = "used both as a pointer and as a number" if len(kinds) == 2 else "part of two pointers"
            self.refuse(held[1], place.function, f"byte {offset} of a place is {why}; also on line {mark[1]}")

    def grow(self, place, extent):
        if place.extent < min(extent, place.numbers_from):
            place.extent = min(extent, place.numbers_from)
            self.changed(place)

    def number_from(self, place, offset):
        if offset < place.numbers_from:
            place.numbers_from, place.extent = offset, min(place.extent, offset)
            place.marks = {k: mark for k, mark in place.marks.items() if mark[0] >= 0 or k < offset}
            self.changed(place)

    def through(self, place, offset):
        if offset not in place.kept:
            place.kept[offset] = self.new(place.line, place.function)
            self.changed(place)
        return place.kept[offset]

    def name(self, place, offset, other):
        """other is one more name of what is at place and offset."""
        if (id(place), offset, id(other)) not in self.ties and (place is not other or offset):
            self.ties.add((id(place), offset, id(other)))
            self.link(("name", place, offset, other), place, other)

    def same(self, place, offset, other, at):
        """The byte at an offset of one place and a byte of another are used alike."""
        for a, i, b, j in ((place, offset, other, at), (other, at, place, offset)):
            if i in a.marks:
                self.mark(b, j, a.marks[i])
            elif i >= a.numbers_from:
                self.mark(b, j, (-1, a.line))
        if offset in place.kept or at in other.kept:
            one, two = self.through(place, offset), self.through(other, at)
            self.name(one, 0, two)
            self.name(two, 0, one)

    def follow(self, kind, place, offset, other, *rest):
        if kind == "element":
            if place.host and not other.host:
                other.host = True
                self.changed(other)
        elif kind == "copy":
            for k in range(rest[1]):
                self.same(place, offset + k, other, rest[0] + k)
        else:
            self.grow(place, offset + other.extent)
            self.number_from(place, offset + other.numbers_from)
            for k in sorted({k for k in other.marks} | {k - offset for k in place.marks if 0 <= k - offset < other.extent}):
                self.same(place, offset + k, other, k)
            if place.host and not other.host:
                other.host = True
                self.changed(other)

    def conflicts(self):
        for line, function, place, offset, callee, order in self.calls:
            if (callee, order) not in self.parameters:
                self.refuse(line, function, f"a call of a function that the module has not: {callee}")
            else:
                self.name(place, offset, self.parameters[callee, order])
        while self.waiting and len(self.errors) < 100:
            place = next(iter(self.waiting))
            del self.waiting[place]
            for link in list(place.links):
                self.follow(*link)
        for place in self.places:
            late = [k for k, mark in place.marks.items() if mark[0] >= 0 and k >= place.numbers_from]
            if late:
                self.refuse(place.marks[late[0]][1], place.function, f"a pointer at a variable offset, or behind one: byte {late[0]} of a place")
            if place.size is not None and place.extent > place.size:
                self.refuse(place.line, place.function, f"a slot of {place.size} bytes of which {place.extent} are used")
            if place.host and place.aligned:
                self.refuse(place.aligned, place.function, "the caller's memory is taken to be aligned")
        return self.errors
