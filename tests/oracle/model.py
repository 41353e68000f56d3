"""model.py: what the input alone says about where the Rust and document 01 part. It never looks at an answer.

It follows 01's seven states, the TDH that entered the three-way state, the lanes of the last IHW, the last internal TDH and whether a
frame is open, and names for each word the difference that must be there, or none. Four come up in the generated sequences, where every
word has ten bytes and stands in a packet that is not full (docs/DIFFERENCES.md, 1 to 3 and 8):

    E990             an id that is unknown in the three-way state, which a TDH with no data entered. From here on the two sides are in
                     different states, until the next start.
    BC above 3563    an interval that has such a BC at one of its ends
    no such lane     a word in the data section, with running checks, whose inner lane is above 8 or whose outer lane is above 27: 1074
                     (document 02, ticket 4). The Rust tests bit lane mod 32 of the active lanes, as its release build does, and gives 1072
                     or 1071 where it is clear
    longer period    an interval by rule 2 (document 02, ticket 9), or with a set period above 65,535. The Rust has neither: it finds the
                     place in the orbit whatever the rule, and a period that its setting can't hold is none
"""
E990, HIGH_BC, NO_LANE, LONGER = 'E990', 'BC above 3563', 'no such lane', 'longer period'
CLASSES = (E990, HIGH_BC, NO_LANE, LONGER)
NUMBERS = {'1': E990, '2': HIGH_BC, '3': NO_LANE, '8': LONGER}  # by their numbers in docs/DIFFERENCES.md
LAST_BC = 3563


def outer_lane(id):
    if id <= 0x46:
        return id % 64
    if id <= 0x4E:
        return 7 + id % 72
    if id <= 0x56:
        return 14 + id % 80
    return 21 + id % 88


class Difference:
    """What each side must answer. `ours` and `rust` are whole answers; of an interval they are records that stand in one answer alone (or None)."""

    def __init__(self, kind, ours, rust):
        self.kind, self.ours, self.rust = kind, ours, rust


class Model:
    def start(self, running, frames, period, rule=1):
        self.running, self.frames, self.period, self.rule = running, frames, period, rule
        self.state = 'IHW_'
        self.by_no_data = False  # a TDH with no data entered the three-way state
        self.lanes = 0
        self.internal = None  # orbit and crossing of the last internal TDH
        self.open = False
        self.apart = False  # the two sides are in different states

    def packet(self, position, page, stop, format):
        self.place, self.stride = position + 64, 16 if format == 0 else 10
        self.page, self.stop = page, stop

    def reset(self):
        self.state = 'IHW_'

    def word(self, text):
        """Takes a word as 20 hex digits; the difference that it must make, or None."""
        place = self.place
        self.place += self.stride
        state, id = self.state, int(text[18:20], 16)
        if state == 'DATA_':  # c_DATA_ has the same rows
            if id == 0xF0:
                done = int(text[17], 16) & 1
                self.state, self.by_no_data = ('THREE', False) if done else ('c_IHW_', False)
                self.open = self.open and not done
            elif self.running and id >> 5 in (1, 2):
                return self.on_lane(place, id)
            return None
        if state == 'IHW_' or state == 'c_IHW_' or state == 'THREE' and id == 0xE0:
            self.lanes = int.from_bytes(bytes.fromhex(text[:8]), 'little') & 0xFFFFFFF
            self.state = 'c_TDH_' if state == 'c_IHW_' else 'TDH_'
            return None
        if state == 'THREE' and id != 0xE8:
            self.state = 'IHW_'
            if id == 0xE4 or not self.by_no_data:
                return None
            self.apart = True
            return self.e990(place, id, int(text[2:4], 16) >> 6 & 1)
        return self.tdh(place, state, int.from_bytes(bytes.fromhex(text[:16]), 'little'))

    def tdh(self, place, state, low):
        internal, no_data, continuation, bc, orbit = low >> 12 & 1, low >> 13 & 1, low >> 14 & 1, low >> 16 & 0xFFF, low >> 32
        earlier = self.internal
        if internal:
            self.internal = orbit, bc
        self.open = self.open or self.frames and not continuation
        if state == 'c_TDH_':
            self.state = 'DATA_'
            return None
        self.state, self.by_no_data = ('THREE', True) if no_data else ('DATA_', False)
        if not (self.running and self.period is not None and internal and earlier is not None):
            return None
        return self.interval(place, orbit - earlier[0], earlier[1], bc)

    def interval(self, place, orbits, previous, bc):
        """Of two internal TDHs, so many orbits apart."""
        def told(found):
            return None if found == self.period else '%d 45 %d %d' % (place, found, self.period)

        # the release build counts on 16 bits, and knows no longer period
        rust = told((bc - previous if bc >= previous else LAST_BC - previous + 1 + bc) % 2**16) if self.period < 2**16 else None
        orbits %= 2**32
        if previous > LAST_BC or bc > LAST_BC:
            return Difference(HIGH_BC, '%d 1045 %d %d' % (place, previous, bc), rust)
        if self.rule == 1:
            ours = told((bc - previous) % (LAST_BC + 1))
        elif orbits >= 2**31 or orbits == 0 and bc < previous:
            ours = '%d 1046 %d %d' % (place, previous, bc)
        else:
            ours = told(orbits * (LAST_BC + 1) + bc - previous)
        return None if ours == rust else Difference(LONGER, ours, rust)

    def on_lane(self, place, id):
        """A word with the id of an inner or an outer lane. Where there is no such lane, the id is no data id, and that of an outer one has input 7."""
        code, lane, last = (1072, id % 32, 8) if id >> 5 == 1 else (1071, outer_lane(id), 27)
        if lane <= last:
            return None
        before = 'DataWord 1 - ; %d 991 %d 0 ; %d 70 %d 0' % (place, id, place, id)
        after = ' ; %d 1073 7 0' % place if code == 1071 else ''
        rust = '' if self.lanes >> lane % 32 & 1 else ' ; %d %d %d %d' % (place, code, lane, self.lanes)
        return Difference(NO_LANE, before + ' ; %d 1074 %d %d' % (place, lane, self.lanes) + after, before + rust + after)

    def e990(self, place, id, continuation):
        ours = 'DDW0 1 - ; %d 992 %d 0 ; %d 60 1 0' % (place, id, place)
        if self.running and self.stop != 1:
            ours += ' ; %d 1110 %d 0' % (place, self.stop)
        if self.running and self.page == 0:
            ours += ' ; %d 1111 0 0' % place
        frame = 'O' if self.frames and not self.open and not continuation else '-'
        return Difference(E990, ours, 'TDH 1 %s ; %d 990 %d 0 ; %d 40 1 0' % (frame, place, id, place))


def as_said(difference, ours, rust):
    """Do the two answers differ in what the model says, and in nothing else?"""
    if difference.kind not in (HIGH_BC, LONGER):
        return ours == difference.ours and rust == difference.rust
    ours, rust = ours.split(' ; '), rust.split(' ; ')
    for answer, record in ((ours, difference.ours), (rust, difference.rust)):
        if record is not None:
            if answer.count(record) != 1:
                return False
            if answer[-1] != record:  # the interval is the last check of a TDH
                return False
            answer.remove(record)
    return ours == rust
