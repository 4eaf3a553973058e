#!/usr/bin/env python3
"""Makes the shipped example: crates/settle/data/week.sheet, book.sheet and journal.sheet, and the files they name.

    example/generate.py            writes the files
    example/generate.py --check    writes nothing; ends with status 1 if a file differs from what it would write

The figures are invented. They come from a generator of whole numbers that is seeded below, so the files are the same on
every machine. What is expected of the sheets is worked out by example/expect.py, which shares nothing with this script:
crates/settle/stdout by hand, and book.stdout, journal.stdout and journal.expected, which stand beside this script, by running it here.
"""

import struct
import subprocess
import sys
from pathlib import Path

HERE = Path(__file__).resolve().parent
FOLDER = HERE.parent / "crates" / "settle" / "data"

VALUES = 75  # one every four seconds of five minutes
FI_UNIT = 65_535
FI_LIMIT = 1_560
DEVIATION_LIMIT = 20_000
MARK = -32_768

RAISE, LOWER = 1, 2

REGIONS = 5
MOST_METERS = 4_096
MOST_KWH = 40_000_000


class Numbers:
    """Pseudo-random whole numbers (splitmix64)."""

    def __init__(self, seed):
        self.state = seed

    def next(self):
        mask = (1 << 64) - 1
        self.state = (self.state + 0x9E3779B97F4A7C15) & mask
        z = self.state
        z = ((z ^ (z >> 30)) * 0xBF58476D1CE4E5B9) & mask
        z = ((z ^ (z >> 27)) * 0x94D049BB133111EB) & mask
        return z ^ (z >> 31)

    def around(self, size):
        """A number within ±size, mostly near 0."""
        return sum(self.next() % (2 * size + 1) - size for _ in range(3)) // 3


def clip(number, limit):
    return max(-limit, min(limit, number))


# ---- the units

class Unit:
    """A unit's owner, and how its deviation follows the frequency indicator (FI).

    The deviation, in tenths of a MW, is a gain in thousandths of the FI, plus a drift that wanders over minutes, plus
    noise. A positive gain helps: more power where power is short, less where there is too much. `raising` and `lowering`
    are the gains while FI is above and below 0; where the unit is enabled for that service, `regulating` takes their
    place.
    """

    def __init__(self, owner, raising, lowering, drift, noise, enabled=lambda number: 0, regulating=0):
        self.owner = owner
        self.raising = raising
        self.lowering = lowering
        self.drift = drift
        self.noise = noise
        self.enabled = enabled
        self.regulating = regulating
        self.drifted = 0

    def gain(self, fi, enablement):
        service, gain = (RAISE, self.raising) if fi > 0 else (LOWER, self.lowering)
        return self.regulating if enablement & service else gain

    def deviations(self, numbers, fi_values, enablement):
        values = []
        for fi in fi_values:
            self.drifted += numbers.around(self.drift) - self.drifted // 20
            followed = self.gain(fi, enablement) * fi // 1_000
            values.append(clip(followed + self.drifted + numbers.around(self.noise), 1_900))
        return values


RESIDUAL = 64


def changing(number):
    """The enablement of the unit that goes in and out of regulation: raise, both, none, lower."""
    return (RAISE, RAISE | LOWER, 0, LOWER)[number // 2 % 4]


def always_raising(number):
    return RAISE


def lowering_later(number):
    return LOWER if number > 7_000 else 0


def example_units():
    return [
        Unit(3, -420, -380, 6, 20),                     # 0: works against the frequency ..
        Unit(3, 390, 300, 6, 20),                       # 1: .. and this unit of the same party offsets most of it
        Unit(12, 0, -150, 5, 15, always_raising, 450),  # 2: good where it is enabled, for raising, and bad at lowering
        Unit(RESIDUAL, -700, -820, 25, 60),             # 3: demand of one region
        Unit(20, 260, 240, 2, 8),                       # 4: never enabled, and helps: factored at 0
        Unit(41, -60, -210, 30, 40),                    # 5: a wind farm
        Unit(0, -35, -30, 1, 4),                        # 6: a small one
        Unit(7, -330, -280, 6, 12, changing, 350),      # 7: good where it is enabled, bad where it is not
        Unit(63, -90, 60, 12, 30, lowering_later, -170),    # 8: bad where it is enabled, for lowering
        Unit(RESIDUAL, -240, 130, 20, 50),              # 9: demand of another region
        Unit(41, -150, -20, 30, 40),                    # 10: another wind farm
    ]


class Telemetry:
    """Makes intervals one after another; the FI wanders on from one to the next."""

    def __init__(self, seed, units):
        self.numbers = Numbers(seed)
        self.units = units
        self.fi = 0

    def indicator(self):
        self.fi = clip(self.fi + self.numbers.around(70) - self.fi // 24, FI_LIMIT)
        return 0 if abs(self.fi) < 6 else self.fi

    def interval(self, number):
        fi = [self.indicator() for _ in range(VALUES)]
        records = [Record(number, FI_UNIT, 0, fi)]
        for u, unit in enumerate(self.units):
            enablement = unit.enabled(number)
            values = unit.deviations(self.numbers, fi, enablement)
            records.append(Record(number, u, enablement, values))
        return records


class Record:
    def __init__(self, interval, unit, enablement, values):
        self.interval = interval
        self.unit = unit
        self.enablement = enablement
        self.zero = 0
        self.values = values

    def bytes(self):
        return struct.pack(f">HHBB{VALUES}h", self.interval, self.unit, self.enablement, self.zero, *self.values)


# ---- what is altered in an interval: record 0 is the FI's, record u + 1 is unit u's

def value(record, k, number):
    def alter(records):
        records[record].values[k] = number
    return alter


def mark(record, k):
    return value(record, k, MARK)


def unit_number(record, number):
    def alter(records):
        records[record].unit = number
    return alter


def interval_number(record, number):
    def alter(records):
        records[record].interval = number
    return alter


def enablement_byte(record, number):
    def alter(records):
        records[record].enablement = number
    return alter


def zero_byte(record, number):
    def alter(records):
        records[record].zero = number
    return alter


def swapped(one, other):
    def alter(records):
        records[one], records[other] = records[other], records[one]
    return alter


def fi_nought(records):
    records[0].values = [0] * VALUES


def sample_file(telemetry, intervals, cut=None):
    """The bytes of the intervals, each (number, alterations ..); of the last one only the first `cut` bytes."""
    pieces = []
    for number, *alterations in intervals:
        records = telemetry.interval(number)
        for alter in alterations:
            alter(records)
        pieces.append(b"".join(record.bytes() for record in records))
    pieces[-1] = pieces[-1][:cut]
    return b"".join(pieces)


# A comment tells what is refused, and why, or what is at its limit and still used.
START = [
    (0,),
    (1,),
    (2,),
    (3, mark(6, 40)),                                   # 3, place 6: a value of unit 5 is missing
    (3,),                                               # sent again, whole: used, since the first was not
    (4,),
    (4,),                                               # 4: used already
    (7,),
    (8, value(9, 74, DEVIATION_LIMIT + 1)),             # 2, place 9: the last value of unit 8
    (9,),
    (10, value(0, 30, FI_LIMIT), value(0, 31, -FI_LIMIT)),      # FI at its limits: used
    (12, swapped(6, 7)),                                # 5, place 6: the records of units 5 and 6 are swapped
    (12,),
    (13, mark(0, 0)),                                   # 3, place 0: the FI is missing
    (14, zero_byte(3, 1)),                              # 2, place 3
    (15,),
    (11, mark(4, 20)),                                  # 4: below the last one used, which comes before the mark
    (16,),
    (17,),
    (288,),
    (289, interval_number(8, 290), unit_number(8, 9)),  # 2, place 8: the interval comes before the unit
    (290,),
    (291,),
    (292, value(0, 12, -FI_LIMIT - 1)),                 # 2, place 0
    (293,),
    (294, value(0, 74, FI_LIMIT + 1)),                  # 2, place 0
    (300,),
]

END = [
    (300,),                                             # 4: the file before ended with it
    (7_990,),
    (7_991, enablement_byte(0, RAISE)),                 # 2, place 0: the FI has no enablement
    (7_992,),
    (7_993, value(4, 60, -DEVIATION_LIMIT - 1), mark(10, 3)),   # 2, place 4: the range fault comes before the mark
    (7_994,),
    (7_995, value(0, 5, 1), value(0, 6, -1), value(5, 5, DEVIATION_LIMIT), value(5, 6, -DEVIATION_LIMIT)),  # at the limits
    (7_996, mark(2, 10), value(2, 11, 30_000), unit_number(3, 77)),     # 3, place 2: the mark comes before the others
    (7_997, enablement_byte(8, 4), mark(8, 0)),         # 2, place 8: the enablement comes before the values
    (7_998,),
    (8_000,),
    (8_002, unit_number(0, 0)),                         # 5, place 0: the first record is not the FI's
    (8_002,),
    (8_010, fi_nought, mark(11, 74)),                   # 3, place 11: missing, though the FI is 0
    (8_020, fi_nought),                                 # used, and adds nothing
    (8_040,),
    (8_041,),
    (8_060,),
    (8_064,),                                           # 2, place 0: above 8,063
    (8_061,),
    (8_062, unit_number(11, 11), enablement_byte(11, 7)),  # 5, place 11: the unit comes before the enablement
    (8_062,),
    (8_063,),
    (8_063,),                                           # 1: cut short, which comes before the interval being used already
]


def trial():
    """Three intervals of two units. Of each unit one sum is below 0: −2, which over 3 intervals averages to 0."""
    def interval(number, *samples):
        fi, first, second = [0] * VALUES, [0] * VALUES, [0] * VALUES
        for k, (x, a, b) in enumerate(samples):
            fi[k], first[k], second[k] = x, a, b
        return [Record(number, FI_UNIT, 0, fi), Record(number, 0, 0, first), Record(number, 1, RAISE, second)]

    intervals = [
        interval(5, (0, -900, 700), (200, 31, 0), (-2, 1, 0)),      # LNEF of unit 0: −2
        interval(6, (-1, 0, 2), (150, 14, 22)),                     # LNEF of unit 1: −2
        interval(8, (90, 0, 3)),
    ]
    return b"".join(record.bytes() for records in intervals for record in records)


# A later sampling of the same units, without a bad interval.
LATER = [(40,), (41,), (700,), (2_900,), (5_500,), (8_063,)]


def worked():
    """One interval of three units that brings the weights 600, 300 and 100."""
    def values(first):
        return [first] + [0] * (VALUES - 1)

    records = [Record(0, FI_UNIT, 0, values(100))]
    for unit, deviation in enumerate((-6, -3, -1)):
        records.append(Record(0, unit, 0, values(deviation)))
    return b"".join(record.bytes() for record in records)


# ---- energies

class Meter:
    """A metered record."""

    def __init__(self, party, region, kwh):
        self.party = party
        self.region = region
        self.zero = 0
        self.kwh = kwh

    def bytes(self):
        return struct.pack(">HBBI", self.party, self.region, self.zero, self.kwh)


def meter_file(meters):
    return b"".join(meter.bytes() for meter in meters)


# Who takes energy in which regions, and what one of its meters shows in five minutes, in kWh.
CUSTOMERS = [
    (41, (0, 1), 9_000),            # the factored parties of the sampling proper take energy too
    (3, (2,), 14_000),
    (12, (1, 4), 6_500),
    (63, (0,), 2_800),
    (7, (3,), 1_900),
    (0, (2, 3), 350),
    (9, (0, 1, 2, 3), 31_000),      # retailers, the large ones first
    (27, (1, 2, 4), 24_000),
    (30, (0, 1, 2), 27_000),
    (5, (0, 2), 18_000),
    (18, (1, 3), 12_500),
    (50, (4,), 9_500),
    (33, (0, 1, 2, 3, 4), 7_000),
    (22, (0,), 5_200),
    (61, (1,), 4_100),
    (14, (2, 3), 3_300),
    (1, (0,), 2_600),
    (47, (3,), 1_400),
    (36, (4,), 1_100),
    (55, (1, 2), 800),
    (8, (0,), 240),
    (59, (4,), 45),
    (28, (3,), 0),                  # takes nothing
]


def meters(numbers, count):
    """As many metered records, of each customer and region at least one, in no order."""
    pairs = [(party, region, size) for party, regions, size in CUSTOMERS for region in regions]
    drawn = pairs + [pairs[numbers.next() % len(pairs)] for _ in range(count - len(pairs))]
    made = [Meter(party, region, size + numbers.around(size // 2)) for party, region, size in drawn]
    for last in range(count - 1, 0, -1):
        other = numbers.next() % (last + 1)
        made[last], made[other] = made[other], made[last]
    return made


def full_meters(numbers):
    """As many records as there may be, of all parties and regions, with as much energy as there may be."""
    made = [Meter(numbers.next() % 64, numbers.next() % REGIONS, 9_000 + numbers.next() % 1_500) for _ in range(MOST_METERS)]
    made[-1].kwh += MOST_KWH - sum(meter.kwh for meter in made)
    return made


# ---- what is altered in metered records; `zero_byte` serves here too

def party_number(record, number):
    def alter(records):
        records[record].party = number
    return alter


def region_number(record, number):
    def alter(records):
        records[record].region = number
    return alter


def kwh_figure(record, number):
    def alter(records):
        records[record].kwh = number
    return alter


def altered_meters(*alterations):
    """The bytes of five records, altered."""
    records = [Meter(5, 0, 17_340), Meter(30, 2, 26_018), Meter(5, 0, 18_905), Meter(9, 3, 30_227), Meter(59, 4, 41)]
    for alter in alterations:
        alter(records)
    return meter_file(records)


# A comment tells why the file is refused.
BAD_METERS = {
    "meters-cut.bin": altered_meters(party_number(0, 64)) + b"\0\x3b\x04",     # 1, which comes before the party
    "meters-long.bin": meter_file([Meter(0, 0, 0)] * (MOST_METERS + 1)),        # 1
    "meters-party-first.bin": altered_meters(party_number(0, 64)),              # 2, place 0
    "meters-party-middle.bin": altered_meters(party_number(2, 65_535), region_number(4, 5)),    # 2, place 2: the first
    "meters-party-last.bin": altered_meters(party_number(4, 256)),              # 2, place 4: its low byte is a party
    "meters-region-first.bin": altered_meters(region_number(0, 5), kwh_figure(1, MOST_KWH)),    # 2, place 0: the first
    "meters-region-middle.bin": altered_meters(region_number(2, 255)),          # 2, place 2
    "meters-region-last.bin": altered_meters(region_number(4, 8)),              # 2, place 4
    "meters-zero-first.bin": altered_meters(zero_byte(0, 1)),                   # 2, place 0
    "meters-zero-middle.bin": altered_meters(zero_byte(2, 128), party_number(3, 64)),   # 2, place 2: the first
    "meters-zero-last.bin": altered_meters(zero_byte(4, 255)),                  # 2, place 4
    "meters-both.bin": altered_meters(kwh_figure(3, MOST_KWH), region_number(3, 5)),    # 2, place 3: comes before 19
    "meters-early.bin": altered_meters(kwh_figure(1, MOST_KWH), party_number(3, 64)),   # 19, place 1: the first
    "meters-wide.bin": altered_meters(kwh_figure(1, 4_294_967_295)),            # 19, place 1: in 32 bits the sum is small
    "meters-above.bin": meter_file([                                            # 19, place 4: one kWh too many
        Meter(5, 0, 15_000_000), Meter(30, 2, 4_999_999), Meter(9, 3, 0), Meter(5, 0, 20_000_000), Meter(5, 0, 2)]),
}


def energy_files():
    numbers = Numbers(20170304)
    return {
        "meters.bin": meter_file(meters(numbers, 120)),
        "meters-evening.bin": meter_file(meters(Numbers(20170305), 75)),
        "meters-none.bin": b"",
        "meters-full.bin": meter_file(full_meters(numbers)),
        "worked-meters.bin": meter_file([
            Meter(1, 0, 50), Meter(2, 2, 70), Meter(3, 0, 30), Meter(4, 2, 10), Meter(5, 1, 20)]),
        **BAD_METERS,
    }


# ---- ledgers

def journal_record(party, serial, ticks):
    return struct.pack(">HHIq", party, serial, 0, ticks)


def journal_lines():
    """The three lines that split the worked part, and a record that no ledger writes."""
    lines = [journal_record(1, 1, -316_097), journal_record(3, 1, -26_341), journal_record(5, 1, -17_562)]
    return b"".join(lines + [journal_record(2, 1, 360_000)])


SHEET = """\
# A run over invented figures. example/generate.py makes this sheet and its files; docs/FORMATS.md says what the steps mean.
totals                                 # a run begins with no energy
dispatch 0                             # no figure: no factors are published yet, which comes before the bad set
# ---- A trial with two units, both of party 20. They help, or do so little harm that it averages to 0.
units-file trial.units
samples trial.bin
publish                                # refused (7): all weights are 0; the sampling stays open
publish anyway                         # says so again, and publishes factors of 0
profile 300 205 100 0 7 1              # energies, all of party 0; see below
# ---- The sampling proper, over some intervals of 28 days. It is new: no unit is registered, and no interval was used.
samples start.bin                      # refused (6): no unit yet, so the length of an interval is not known
units                                  # refused (1): no unit is listed
units 3 3 12 64 20 41 0 7 63 65 41     # refused (2): there is no owner 65
units 3 3 12 64 20 41 0 7 63 64 41     # parties 0, 3, 7, 12, 20, 41 and 63, and 64 for the residual
units 99                               # refused (4): units are registered once, whatever the list says
publish                                # refused (6): no interval was used
samples start.bin                      # the first days, with bad intervals among the good
samples end.bin                        # the last days; the file breaks off within an interval
publish

# ---- The next sampling is empty again, and its intervals begin anew. It is not published: the table is the one above.
units 20 20
samples trial.bin
publish                                # refused (7)

# ---- Energies, in kWh. The dispatch figure takes RMPF from the table, which was published last.
totals                                 # those of line 9: a publication leaves them as they are
dispatch 5                             # regions 0 and 2
metered meters-none.bin                # an empty file is no energy
totals
dispatch 3                             # 0
dispatch 32                            # refused (2): a set is 1 to 31, also where there is no energy
metered meters.bin                     # in no order; records of the same party and region add up
totals
dispatch 1                             # region 0
dispatch 2                             # region 1
dispatch 3                             # both: rounded down once, so it is one more than the two together
dispatch 4
dispatch 8
dispatch 16
dispatch 31                            # all regions: RMPF itself
dispatch 0                             # refused (2)
dispatch 33                            # refused (2): bit 0 is a region, but bit 5 is none

# ---- Metered files that are refused, and leave the energies as they are.
metered meters-cut.bin                 # refused (1): three bytes too many, which comes before the bad party of its first record
metered meters-long.bin                # refused (1): 4,097 records
metered meters-party-first.bin         # refused (2): party 64
metered meters-party-middle.bin        # refused (2): party 65535; the bad region of a later record is not told
metered meters-party-last.bin          # refused (2): party 256
metered meters-region-first.bin        # refused (2): region 5; too much energy comes only after it
metered meters-region-middle.bin       # refused (2): region 255
metered meters-region-last.bin         # refused (2): region 8
metered meters-zero-first.bin          # refused (2): the zero byte is 1
metered meters-zero-middle.bin         # refused (2): it is 128; the bad party of a later record is not told
metered meters-zero-last.bin           # refused (2): it is 255
metered meters-both.bin                # refused (2): a bad region, which comes before too much energy in the same record
metered meters-early.bin               # refused (19): too much energy; the bad party comes only after it
metered meters-wide.bin                # refused (19): the largest figure that a record can hold
metered meters-above.bin               # refused (19): the last record makes it 40,000,001 kWh
totals                                 # as they were

# ---- As much as there may be.
metered meters-full.bin                # 4,096 records that add up to 40,000,000 kWh
totals
dispatch 12                            # regions 2 and 3

# ---- Profiles: the totals of regions 0 to 4, then the weights of parties 0, 1, and so on.
profile 1210 905 747 0 83 5 0 3 9      # parties 0, 2 and 3; all others have weight 0
totals
dispatch 6
profile 9999999 30000001 0 0 1 7 7     # refused (19): 40,000,001 kWh
profile 0 0 0 0 40000001               # refused (19), though no party has a weight
profile 4294967295 1 0 0 0 1           # refused (19): in 32 bits the sum would be 0
totals                                 # as they were
profile 1210 905 747 0 83 0 0 0        # all weights are 0: so are all energies, and the totals
totals
dispatch 1                             # 0
profile 1210 905 747 0 83              # the same with no weight named
totals
# The most energy, and all 64 weights.
profile 13000000 11000000 9000000 4000001 2999999 350 26 0 14 0 18 0 19 2 31 0 0 65 0 33 0 0 0 125 0 0 0 52 0 0 0 0 65535 1 0 27 0 0 70 0 0 11 0 0 0 0 90 0 0 0 0 0 14 0 0 95 0 0 0 0 8 0 0 0 45 0 41 0 28
totals
dispatch 24
island 9                               # of the profile: regions 0 and 3
totals
dispatch 1

# ---- Islands and handovers put over one another: first an island ..
metered meters.bin                     # whole again: neither the island nor the profile is left
island 11                              # regions 0, 1 and 3
totals
dispatch 3
dispatch 20                            # 0: regions 2 and 4 are not seen
handover 9 27                          # moves energy within each region: no total changes, and the island stays one
totals
dispatch 3                             # as it was
handover 9 27                          # party 9 has no energy left
handover 27 30
handover 30 30                         # nothing is moved: one and the same
handover 30 64                         # nothing is moved: there is no party 64
handover 65535 30                      # nothing is moved
totals
dispatch 3                             # as it was
island 6                               # of regions 1 and 2 only region 1 was left
totals
dispatch 2                             # RMPF itself
dispatch 1                             # 0

# ---- .. then the handovers first.
metered meters.bin
handover 9 27
handover 27 30
totals
dispatch 3                             # the same as before any handover
island 255                             # bits above region 4 are ignored: all regions are seen
totals
dispatch 3
handover 30 9                          # back to party 9, with the energy of the others
island 43                              # regions 0, 1 and 3, and a bit to ignore
totals
dispatch 3                             # the same as for the island above
dispatch 31
handover 41 41                         # nothing is moved
island 8
totals
dispatch 9                             # RMPF itself: region 0 is not seen
island 224                             # no region
totals
dispatch 31                            # 0
dispatch 255                           # refused (2)
metered meters.bin
island 0                               # no region
totals
dispatch 3                             # 0
"""


def going_on(sheet):
    """The sheet, with two comments that hold where more is published after it."""
    return sheet.replace(
        "It is not published: the table is the one above.",
        "It stays open: the last factors are those of line 19.",
    ).replace(
        "from the table, which was published last.",
        "from the factors published last, those of line 19.",
    )


# The same, and then what is posted to a ledger. example/book.stdout is what it prints.
BOOK_SHEET = going_on(SHEET) + """
# ---- The ledger. A sheet has one, for the whole run, wherever it is chosen. Nothing is posted yet: only recoveries post.
table
amounts
records lines.journal                  # a journal with the shares of line 188 as its lines, and a record that no ledger writes
records meters-none.bin                # an empty file has no record
records trial.units                    # nor has one of two bytes

# ---- Who pays which share of a part, in ticks, over the regions of a set: causers by their factor (f), others by energy (e).
split 360000 8                         # refused (17): nobody has energy
metered meters.bin
split 360000 8                         # region 3
split 1 8                              # one party pays the one tick
split 7 8                              # a causer's share is less than one tick off, a residual customer's less than two
split 360000 31                        # all regions: CRMPF is RMPF
split 200000000000 18                  # the largest part
split 200000000001 18                  # refused (2)
split 18446744073709551615 31          # refused (2)
split 0 8                              # refused (2)
split 360000 0                         # refused (2)
split 360000 32                        # refused (2)
split 360000 255                       # refused (2)
handover 7 47                          # a causer's energy to a customer: CMPF loses its factor, and ATCE gains its energy
handover 18 0                          # a customer's energy to a causer: CMPF stays, and ATCE falls
split 360000 8
island 24                              # what all regions have is now what regions 3 and 4 have
split 360000 8                         # so CRMPF is higher
split 360000 9                         # the same: region 0 is not seen
split 360000 7                         # refused (17): none of the regions is seen

# Parties 3 and 7 are factored, 20 is factored at 0; 1 and 2 are not.
profile 500 0 0 203 0 0 0 0 7 0 0 0 3  # parties 3 and 7
split 360000 9                         # causers alone: CRMPF is 0
profile 500 0 0 203 0 0 7 3            # parties 1 and 2
split 360000 9                         # residual customers alone: CMPF is 0
profile 9 0 500 0 0 0 1 0 7 0 0 0 0 0 0 0 0 0 0 0 0 0 0 0 0 1      # parties 1, 3 and 20
split 360000 1                         # party 20 pays nothing
profile 0 0 500 0 0 0 0 0 0 0 0 0 0 0 0 0 0 0 0 0 0 0 0 0 0 1      # party 20 alone
split 360000 4                         # refused (17): the one factor is 0, and there is no residual customer
profile 1 1000000 0 0 0 0 1            # party 1 alone
split 360000 1                         # refused (17): CRMPF is rounded down to 0
split 360000 2                         # one less than RMPF
metered meters.bin
publish anyway                         # the sampling of line 22: all its factors are 0
split 360000 31                        # refused (17)

# ---- Few enough figures to follow by hand: weights 600, 300 and 100, so factors of 60, 30 and, for the residual, 10 percent.
units 1 2 64
samples worked.bin
publish
metered worked-meters.bin
totals
split 360000 3                         # of $30; parties 2 and 4 have no energy in regions 0 and 1
split 360000 31
amounts                                # a split posts nothing

# ---- The book. A number is declared with a kind and a region set, and gets the next serial. What it recovers is posted under the serial.
recover 3                              # nothing is claimed yet
declare 3 1 1                          # regulation, region 0: serial 1
claim 3 6 5 500 0 1 100                # interval 6, 5 cents per MWh, 500 ticks; the one term: region 0, regulation, 10.0 MW
recover 3                              # party 1 pays by its factor, party 3 by its energy
amounts
withdraw 3                             # the number is free again ..
declare 3 1 2                          # .. and is given out with region 1: serial 2
amounts                                # serial 1 keeps what was posted, serial 2 starts at 0
claim 3 7 20 2400 1 1 120
recover 3                              # from party 5 alone
claim 3 7 20 2400 1 1 120              # refused (4): interval 7 is recovered
claim 3 8 20 2400 1 1 120
return 3                               # handed back, so the interval may be claimed again
claim 3 8 25 3000 1 1 120
withdraw 3                             # refused (11): the claim is open
recover 3
recover 3                              # the claim is no longer held
return 3                               # the same
amounts

# The payment is the marginal value times the amounts, in ticks. The regulation part of kind 1 is all of it.
declare 5 1 3
claim 5 0 300 360000 0 1 600 0 1 240 1 1 360     # 120.0 MW at $3
recover 5                              # posts the shares of line 188
declare 6 1 31
claim 6 0 200 383999 2 1 1920          # refused (13)
claim 6 0 200 384001 2 1 1920          # refused (13)
claim 6 0 200 384000 2 1 1920          # 192.0 MW at $2
recover 6
declare 16 1 31
claim 16 0 2000000 200000000000 0 1 20000 1 1 20000 2 1 20000 3 1 20000 4 1 20000            # the largest payment
recover 16
claim 16 1 2000000 200002000000 0 1 20000 1 1 20000 2 1 20000 3 1 20000 4 1 20000 0 1 1      # refused (15): a tenth of a MW more
# As many terms as there may be, and the largest payment again; this claim stays open.
claim 16 1 1000000 200000000000 0 1 20000 1 1 20000 2 1 20000 3 1 20000 4 1 20000 0 1 20000 1 1 20000 2 1 20000 3 1 20000 4 1 20000

# ---- A week. Its factors come from a later sampling of the units of line 14; what was declared and posted stays.
units 3 3 12 64 20 41 0 7 63 64 41
samples later.bin
publish
declare 1 1 31                         # regulation, all regions
declare 2 1 15                         # regulation, regions 0 to 3
declare 4 1 16                         # regulation, local: region 4
declare 7 2 31                         # delayed, all regions; of its payment a part is for regulation
declare 8 2 8                          # delayed, local: region 3

# Its first interval, by meters.
metered meters.bin
claim 1 0 1850 4070000 0 1 700 1 1 900 2 1 600
claim 2 0 1420 1562000 0 1 400 2 1 550 3 1 150
claim 4 0 30000 15000000 4 1 500
claim 7 0 640 1200000 1 2 1500 2 1 800 4 2 200   # of a payment of 1,600,000
claim 8 0 2500 90000 3 1 60 3 2 40               # of 250,000
recover 8                              # in any order
recover 1
recover 4
recover 2
recover 7

# The next evening. Number 2 is withdrawn and given out without region 3; with its new serial the intervals begin anew.
metered meters-evening.bin
claim 1 301 9600 21120000 0 1 700 1 1 900 2 1 600
recover 1
withdraw 2
declare 2 1 7
claim 2 0 1420 1349000 0 1 400 2 1 550
recover 2
claim 7 301 700 1750000 1 2 1500 2 1 800 4 2 200 # the part is all of the payment
recover 7

# Region 4 is cut off from the others: each side pays for its own.
island 15
claim 1 862 1900 3800000 0 1 700 1 1 900 2 1 400
claim 4 862 120000 48000000 4 1 400
recover 1
recover 4                              # refused (17): nobody in region 4 is seen; the claim stays open
metered meters-evening.bin
island 16
recover 4

# Meters fail, and a profile stands in for them.
profile 290000 310000 390000 140000 120000 2 11 0 85 0 133 0 7 1 277 0 0 63 0 6 0 0 0 77 0 0 0 21 0 0 0 0 143 0 0 212 0 0 98
claim 2 1150 1500 1425000 0 1 400 2 1 550
claim 8 1150 2500 175000 3 1 60 3 2 40
recover 2
recover 8

# A retailer leaves, and another takes its customers.
handover 9 27
claim 1 1440 1700 3740000 0 1 700 1 1 900 2 1 600
claim 7 1440 640 1000000 1 2 1500 2 1 800 4 2 200
return 7                               # the part was wrong ..
claim 7 1440 640 1100000 1 2 1500 2 1 800 4 2 200          # .. and is claimed again for the same interval
recover 1
recover 7
metered meters.bin
handover 9 27
handover 41 30                         # a causer's energy goes to a customer
claim 4 1440 28000 14000000 4 1 500
claim 8 1440 2500 1 3 1 60 3 2 40      # a part of one tick: one line
recover 4
recover 8

# Its last interval. Two of its claims stay open.
claim 1 2015 1850 4070000 0 1 700 1 1 900 2 1 600
claim 2 2015 1420 1349000 0 1 400 2 1 550
claim 7 2015 640 1200000 1 2 1500 2 1 800 4 2 200
recover 2
claim 2 2015 1420 1349000 0 1 400 2 1 550        # refused (4): no interval of the week is left
withdraw 2
amounts

# ---- What is refused. Numbers 1, 7 and 16 are claimed, number 2 and those from 9 to 15 are free, all others declared.
declare 0 1 1                          # refused (2): a number is 1 to 16
declare 17 1 1                         # refused (2)
declare 9 0 1                          # refused (2): a kind is 1 or 2
declare 9 3 1                          # refused (2)
declare 9 1 0                          # refused (2): a set is 1 to 31
declare 9 1 32                         # refused (2)
declare 8 2 255                        # refused (2), which comes before 8
declare 8 2 8                          # refused (8)
declare 7 2 31                         # refused (8): claimed is declared too
withdraw 0                             # refused (2)
withdraw 17                            # refused (2)
withdraw 9                             # refused (9)
withdraw 7                             # refused (11)
recover 0                              # no claim is held
recover 9                              # nor here
return 255                             # nor here
# A claim: number, interval, marginal value, part, then terms of region, service and amount.
claim 0 2016 1 11 0 1 1 0 1 1 0 1 1 0 1 1 0 1 1 0 1 1 0 1 1 0 1 1 0 1 1 0 1 1 9 9 1       # refused (1): eleven terms, before all else
claim 0 100 1 1 0 1 1                  # refused (2)
claim 17 100 1 1 0 1 1                 # refused (2)
claim 3 2016 20 2400 1 1 120           # refused (2): an interval is 0 to 2,015
claim 3 65535 20 2400 1 1 120          # refused (2)
claim 3 100 2000001 240000120 1 1 120  # refused (2): a marginal value is at most 2,000,000
claim 3 100 4294967295 18446744073709551615      # refused (2)
claim 3 100 20 2400 5 1 120            # refused (2): no region 5
claim 3 100 20 2400 1 1 100 1 0 20     # refused (2), place 1: a service is 1 or 2
claim 3 100 20 2400 1 1 100 1 1 10 1 3 10        # refused (2), place 2
claim 3 100 20 400400 1 1 20 1 1 20001 # refused (2), place 1: an amount is at most 20,000
claim 3 100 20 2400 1 1 40 1 1 40 255 1 40 1 1 65535       # refused (2), place 2: the first of two bad terms
claim 9 100 20 2400 1 1 120 5 1 0      # refused (2), place 1, which comes before 9
claim 9 100 20 2400 1 1 120            # refused (9)
claim 7 0 640 1600000 1 2 2500         # refused (11): it has a claim open, which comes before 4
claim 3 8 20 2400 2 1 120              # refused (4), which comes before 12
claim 3 0 20 2400 1 1 120              # refused (4): far below
claim 3 100 20 2400 1 1 40 0 1 40 2 1 40         # refused (12), place 1: the first of two terms elsewhere
claim 3 100 20 2400 1 2 60 1 1 30 4 1 30         # refused (12), place 2, which comes before 13
claim 3 100 20 2400 1 1 60 1 2 60      # refused (13): a delayed term
claim 3 100 20 2399 1 1 120            # refused (13): part of the payment
claim 3 100 20 0 1 1 120               # refused (13): not the payment, though it is 0
claim 3 100 20 2400                    # refused (13): without terms the payment is 0
claim 8 1441 2500 250001 3 1 60 3 2 40 # refused (13): above the payment
claim 8 1441 2000000 18446744073709551615 3 2 20000 3 2 20000 3 2 20000 3 2 20000 3 2 20000 3 2 1 # refused (13), which comes before 15
claim 8 1441 2000000 1 3 2 20000 3 2 20000 3 2 20000 3 2 20000 3 2 20000 3 2 1   # refused (15): the payment, not the part
claim 8 1441 2000000 0 3 2 20000 3 2 20000 3 2 20000 3 2 20000 3 2 20000 3 2 1   # refused (15), which comes before 14
claim 8 1441 2500 0 3 1 60 3 2 40      # refused (14)
claim 3 100 0 0 1 1 120                # refused (14): a marginal value of 0
claim 3 100 20 0                       # refused (14): no term

# ---- All numbers, and all 32 serials.
declare 2 2 3                          # serial 12
declare 9 1 1
declare 10 1 2
declare 11 1 4
declare 12 1 8
declare 13 1 16
declare 14 2 30
declare 15 2 29                        # serial 19; no number is free
withdraw 9
withdraw 10
withdraw 11
withdraw 12
withdraw 13
withdraw 14
withdraw 15
declare 9 2 3
declare 10 2 6
declare 11 2 12
declare 12 2 24
declare 13 2 17
declare 14 1 27
declare 15 1 23                        # serial 26
withdraw 9
withdraw 10
withdraw 11
withdraw 12
withdraw 13
withdraw 14
withdraw 15
declare 9 1 5
declare 10 1 9
declare 11 1 10
declare 12 1 18
declare 13 1 20
declare 14 2 24                        # serial 32
declare 15 1 1                         # refused (10): withdrawn ones count
declare 14 2 24                        # refused (8), which comes before 10
withdraw 9
declare 9 1 32                         # refused (2), which comes before 10
declare 9 1 5                          # refused (10)
claim 14 0 1000 70000 3 1 70 4 2 30
recover 14                             # under serial 32, after the handovers of the week
claim 14 1 1000 60000 3 1 70 4 2 30
claim 12 5 800 80000 1 1 40 4 1 60
claim 13 5 800 80000 2 1 40 4 1 60
recover 12
return 13
"""


JOURNAL_SHEET = """\
# A small run into a journal with room for six lines. example/journal.stdout is what it prints, example/journal.expected what the journal
# must hold. The figures are those that can be followed by hand, from line 182 of book.sheet on.
declare 1 1 3
claim 1 0 300 360000 0 1 600 0 1 240 1 1 360
recover 1                              # no factors are published; the claim stays open
recover 2                              # there is no claim, which comes first
journal 6 settled.journal
units 1 2 64
samples worked.bin
publish
recover 1                              # refused (17): there is no energy; the claim stays open
metered worked-meters.bin
recover 1                              # three lines
declare 2 2 4
claim 2 0 200 300000 2 2 1200 2 1 720  # a part of 384,000
recover 2                              # two lines, so one is left
amounts
claim 1 1 300 360000 0 1 600 0 1 240 1 1 360
recover 1                              # refused (18): three lines are needed; nothing is posted, and the claim stays open
amounts                                # as they were
handover 3 1
handover 5 1                           # now all energy of regions 0 and 1 is party 1's
recover 1                              # one line, the last
claim 2 1 200 150000 2 2 1200
recover 2                              # refused (18): no line is left
return 2
claim 2 1 200 150007 2 2 1200          # stays open
declare 16 1 16
claim 16 2015 1 1 4 1 1                # stays open too
recover 16                             # refused (17), which comes before 18: nobody has energy in region 4
amounts
"""


def files():
    telemetry = Telemetry(20170303, example_units())
    return {
        "week.sheet": SHEET.encode(),
        "book.sheet": BOOK_SHEET.encode(),
        "journal.sheet": JOURNAL_SHEET.encode(),
        "trial.units": bytes([20, 20]),
        "trial.bin": trial(),
        "start.bin": sample_file(telemetry, START),
        "end.bin": sample_file(telemetry, END, cut=1_000),
        "later.bin": sample_file(Telemetry(20170306, example_units()), LATER),
        "worked.bin": worked(),
        **energy_files(),
        "lines.journal": journal_lines(),
    }


def expected(*words):
    """What expect.py prints."""
    return subprocess.run([sys.executable, HERE / "expect.py", *words], check=True, stdout=subprocess.PIPE).stdout


def expected_files():
    """What the sheets with a book must print, and what the journal of the second must hold."""
    sheet = FOLDER / "journal.sheet"
    return {
        HERE / "book.stdout": expected(FOLDER / "book.sheet"),
        HERE / "journal.stdout": expected(sheet),
        HERE / "journal.expected": expected("--journal", sheet),
    }


def wrong_in(made):
    """The files that are not as made."""
    wrong = []
    for path, data in made.items():
        if not path.is_file():
            wrong.append(f"{path} is missing")
        elif path.read_bytes() != data:
            wrong.append(f"{path} differs from what generate.py makes")
    return wrong


def write(made):
    for path, data in made.items():
        path.parent.mkdir(parents=True, exist_ok=True)
        path.write_bytes(data)


def main(words):
    if words not in ([], ["--check"]):
        print("usage: generate.py [--check]", file=sys.stderr)
        return 2
    made = {FOLDER / name: data for name, data in files().items()}
    if not words:
        write(made)
        write(expected_files())
        return 0
    wrong = wrong_in(made) or wrong_in(expected_files())
    for line in wrong:
        print(line, file=sys.stderr)
    return 1 if wrong else 0


if __name__ == "__main__":
    sys.exit(main(sys.argv[1:]))
