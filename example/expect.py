#!/usr/bin/env python3
"""Prints what `settle SHEET` must print, worked out from docs/RULES.md, docs/REFUSALS.md and docs/FORMATS.md.

    example/expect.py crates/settle/data/week.sheet > crates/settle/stdout
    example/expect.py --journal SHEET     prints nothing but the bytes that the sheet's journal must hold

This is a second program for the same rules, written apart from the first. All numbers are whole or fractions, and exact.
It writes no file: that of a journal is left as it is.
"""

import os
import sys
from fractions import Fraction

WORDS = {
    1: "wrong length",
    2: "out of range",
    3: "missing sample",
    4: "not above the last, or registered twice",
    5: "not the expected unit",
    6: "no unit registered, or no interval used",
    7: "all weights are 0",
    8: "number declared already",
    9: "number not declared",
    10: "32 declarations made",
    11: "number has an open claim",
    12: "region not declared",
    13: "wrong regulation part",
    14: "regulation part is 0",
    15: "payment too large",
    17: "CMPF and CRMPF are 0",
    18: "too few lines left",
    19: "too much energy",
}

RECORD = 156
RESIDUAL = 64
CATEGORIES = ("RNEF", "REF", "LNEF", "LEF")

PARTIES = 64
REGIONS = 5
METER = 8
MOST_METERS = 4_096
MOST_ENERGY = 40_000_000

SERIALS = 32
LINE = 16
MOST_LINES = 1_000_000
MOST_JOURNAL_LINES = 4_096
MOST_TICKS = 200_000_000_000
TICKS_OF_A_CENT = 120

NUMBERS = 16
REGULATION, DELAYED = 1, 2
LAST_INTERVAL = 2_015
MOST_VALUE = 2_000_000
MOST_TERMS = 10
MOST_AMOUNT = 20_000


# ---- the rules

class Refused(Exception):
    """A refusal of samples."""

    layer = "1 (samples)"

    def __init__(self, number, place=0):
        self.number = number
        self.place = place

    def __str__(self):
        return f"refused {self.number} ({WORDS[self.number]}) in layer {self.layer}, place {self.place}"


class RefusedEnergy(Refused):
    layer = "2 (energies)"


class RefusedBook(Refused):
    layer = "3 (book)"


class RefusedLedger(Refused):
    layer = "4 (ledger)"


def divide(amount, weights):
    """The shares of the amount over the weights."""
    whole = sum(weights)
    if whole == 0:
        return [0 for _ in weights]
    shares = []
    before = 0
    for weight in weights:
        after = before + weight
        shares.append(amount * after // whole - amount * before // whole)
        before = after
    return shares


def average(total, count):
    """total / count, rounded toward zero; 0 where nothing was counted."""
    if count == 0:
        return 0
    if total < 0:
        return -(-total // count)
    return total // count


def category(fi, enablement):
    if fi > 0:
        return "REF" if enablement & 1 else "RNEF"
    if fi < 0:
        return "LEF" if enablement & 2 else "LNEF"
    return None


def no_sums():
    return {name: 0 for name in CATEGORIES}


def add_values(sums, fi_values, deviations, enablement):
    for fi, deviation in zip(fi_values, deviations):
        name = category(fi, enablement)
        if name is not None:
            sums[name] += deviation * fi


def f(number):
    return number if number < 0 else 0


def weight_of(subtotals):
    return -sum(f(subtotals[name]) for name in CATEGORIES)


def unsigned(data, at):
    return data[at] * 256 + data[at + 1]


def signed(data, at):
    number = unsigned(data, at)
    return number - 65_536 if number >= 32_768 else number


def values_of(data, start):
    return [signed(data, start + 6 + 2 * k) for k in range(75)]


class Factors:
    """What a publication gives: the factor of each party, RMPF, the count of each owner's units."""

    def __init__(self, shares, counts, intervals):
        self.shares = shares
        self.counts = counts
        self.intervals = intervals


class Sampling:
    def __init__(self):
        self.owners = []
        self.sums = []
        self.used = 0
        self.last = None

    def register(self, owners):
        if self.owners:
            raise Refused(4)
        if not 1 <= len(owners) <= 256:
            raise Refused(1)
        for unit, owner in enumerate(owners):
            if owner > RESIDUAL:
                raise Refused(2, unit)
        self.owners = list(owners)
        self.sums = [no_sums() for _ in owners]

    def check(self, data):
        if not self.owners:
            raise Refused(6)
        if len(data) != RECORD * (len(self.owners) + 1):
            raise Refused(1)
        first = unsigned(data, 0)
        for place in range(len(self.owners) + 1):
            start = RECORD * place
            interval = unsigned(data, start)
            if place == 0:
                if interval > 8_063:
                    raise Refused(2, place)
                if self.last is not None and interval <= self.last:
                    raise Refused(4, place)
            elif interval != first:
                raise Refused(2, place)
            if unsigned(data, start + 2) != (65_535 if place == 0 else place - 1):
                raise Refused(5, place)
            if data[start + 4] > (0 if place == 0 else 3):
                raise Refused(2, place)
            if data[start + 5] != 0:
                raise Refused(2, place)
            limit = 1_560 if place == 0 else 20_000
            for number in values_of(data, start):
                if number == -32_768:
                    raise Refused(3, place)
                if not -limit <= number <= limit:
                    raise Refused(2, place)

    def add(self, data):
        self.check(data)
        fi_values = values_of(data, 0)
        for unit, sums in enumerate(self.sums):
            start = RECORD * (unit + 1)
            add_values(sums, fi_values, values_of(data, start), data[start + 4])
        self.last = unsigned(data, 0)
        self.used += 1

    def weights(self):
        """The weights of parties 0 to 63 and of the residual."""
        subtotals = [no_sums() for _ in range(RESIDUAL + 1)]
        for owner, sums in zip(self.owners, self.sums):
            for name in CATEGORIES:
                subtotals[owner][name] += average(sums[name], self.used)
        return [weight_of(of_owner) for of_owner in subtotals]

    def ready(self):
        if not self.owners or self.used == 0:
            raise Refused(6)
        if sum(self.weights()) == 0:
            raise Refused(7)

    def publish(self):
        shares = divide(1_000_000, self.weights())
        counts = [self.owners.count(owner) for owner in range(RESIDUAL + 1)]
        return Factors(shares, counts, self.used)


class Energies:
    """One figure of kWh for each party and region. Those that are not kept are 0."""

    def __init__(self, figures):
        self.figures = {pair: kwh for pair, kwh in figures.items() if kwh != 0}

    def total(self, region):
        return sum(kwh for (_, at), kwh in self.figures.items() if at == region)

    def totals(self):
        return [self.total(region) for region in range(REGIONS)]

    def of_parties(self, regions):
        """What each party takes in the regions."""
        return [sum(self.figures.get((party, region), 0) for region in regions) for party in range(PARTIES)]

    def island(self, regions):
        return Energies({(party, at): kwh for (party, at), kwh in self.figures.items() if at in regions})

    def handover(self, leaver, successor):
        if leaver == successor or leaver >= PARTIES or successor >= PARTIES:
            return self
        figures = {}
        for (party, region), kwh in self.figures.items():
            pair = (successor if party == leaver else party, region)
            figures[pair] = figures.get(pair, 0) + kwh
        return Energies(figures)


def metered(data):
    """The energies of metered records."""
    if len(data) % METER != 0 or len(data) > METER * MOST_METERS:
        raise RefusedEnergy(1)
    figures = {}
    energy = 0
    for place in range(len(data) // METER):
        at = METER * place
        party, region, kwh = unsigned(data, at), data[at + 2], 65_536 * unsigned(data, at + 4) + unsigned(data, at + 6)
        if party >= PARTIES or region >= REGIONS or data[at + 3] != 0:
            raise RefusedEnergy(2, place)
        energy += kwh
        if energy > MOST_ENERGY:
            raise RefusedEnergy(19, place)
        figures[party, region] = figures.get((party, region), 0) + kwh
    return Energies(figures)


def profile(totals, weights):
    """The energies of regional totals, each divided over the weights of the parties."""
    if sum(totals) > MOST_ENERGY:
        raise RefusedEnergy(19)
    of_all = weights + [0] * (PARTIES - len(weights))
    figures = {}
    for region, total in enumerate(totals):
        for party, share in enumerate(divide(total, of_all)):
            figures[party, region] = share
    return Energies(figures)


def regions_of(region_set):
    """The regions of a set; bits that stand for none are ignored."""
    return [region for region in range(REGIONS) if region_set >> region & 1]


def dispatch_figure(residual, energies, region_set):
    if not 1 <= region_set <= 31:
        raise RefusedEnergy(2)
    totals = energies.totals()
    if sum(totals) == 0:
        return 0
    return residual * sum(totals[region] for region in regions_of(region_set)) // sum(totals)


class Ledger:
    """The lines posted, each (party, serial, ticks). Those of a party and serial add up to its amount."""

    def __init__(self, most):
        self.most = most
        self.lines = []

    def left(self):
        return self.most - len(self.lines)

    def post(self, party, serial, ticks):
        if not is_line(party, serial, ticks):
            raise RefusedLedger(2)
        if self.left() == 0:
            raise RefusedLedger(18)
        self.lines.append((party, serial, ticks))

    def amount(self, party, serial):
        return sum(ticks for at, under, ticks in self.lines if (at, under) == (party, serial))

    def amounts(self):
        """The amounts that are not 0, by serial and then by party: (serial, party, ticks)."""
        amounts = {}
        for party, serial, ticks in self.lines:
            amounts[serial, party] = amounts.get((serial, party), 0) + ticks
        return [(serial, party, ticks) for (serial, party), ticks in sorted(amounts.items()) if ticks != 0]


class Table(Ledger):
    def __init__(self):
        super().__init__(MOST_LINES)


class Journal(Ledger):
    def __init__(self, records):
        super().__init__(min(records, MOST_JOURNAL_LINES))

    def records(self):
        """The bytes of the records written."""
        return b"".join(
            party.to_bytes(2, "big") + serial.to_bytes(2, "big") + bytes(4) + ticks.to_bytes(8, "big", signed=True)
            for party, serial, ticks in self.lines)


def is_line(party, serial, ticks):
    """Whether a ledger takes such a line."""
    return 0 <= party < PARTIES and 1 <= serial <= SERIALS and -MOST_TICKS <= ticks <= 0


class Split:
    """Who pays which share of a part, in ticks, over the regions of a set."""

    def __init__(self, part, region_set, factors, energies):
        if not 1 <= part <= MOST_TICKS:
            raise RefusedBook(2)
        if not 1 <= region_set <= 31:
            raise RefusedBook(2)
        self.part = part
        self.factored = [count > 0 for count in factors.counts[:PARTIES]]
        self.energy = energies.of_parties(regions_of(region_set))
        # What weighs: the factors of the causers, and the energies of the residual customers.
        self.causers = [
            factor if factored and energy > 0 else 0
            for factor, factored, energy in zip(factors.shares, self.factored, self.energy)]
        self.customers = self.of_customers(self.energy)
        self.cmpf = sum(self.causers)
        everywhere = sum(self.of_customers(energies.of_parties(range(REGIONS))))
        self.crmpf = 0 if everywhere == 0 else factors.shares[RESIDUAL] * sum(self.customers) // everywhere
        if self.cmpf + self.crmpf == 0:
            raise RefusedBook(17)
        *of_causers, self.residual = divide(part, self.causers + [self.crmpf])
        of_customers = divide(self.residual, self.customers)
        self.shares = [of_causers[party] if self.factored[party] else of_customers[party] for party in range(PARTIES)]

    def of_customers(self, energy):
        """The energies of the residual customers; 0 for factored parties."""
        return [0 if self.factored[party] else energy[party] for party in range(PARTIES)]

    def lines(self):
        return sum(share != 0 for share in self.shares)

    def exact_of_weight(self, weight):
        return Fraction(self.part * weight, self.cmpf + self.crmpf)

    def exact(self, party):
        """The exact share of a party with energy in the regions."""
        if self.factored[party]:
            return self.exact_of_weight(self.causers[party])
        return self.exact_of_weight(self.crmpf) * Fraction(self.energy[party], sum(self.customers))


class Declaration:
    """A number given out under a serial, and what became of its claims, in ticks."""

    def __init__(self, serial, number, kind, region_set):
        self.serial = serial
        self.number = number
        self.kind = kind
        self.region_set = region_set
        self.last = None        # the last interval recovered
        self.claimed = 0
        self.recovered = 0
        self.handed_back = 0


class Claim:
    def __init__(self, declaration, interval, part):
        self.declaration = declaration
        self.interval = interval
        self.part = part


class Book:
    """What was declared and claimed. Recoveries post to the ledger."""

    def __init__(self, ledger):
        self.ledger = ledger
        self.declarations = []  # all that were made, by serial
        self.declared = {}      # those that stand, by number; all other numbers are free
        self.claims = {}        # the open ones, by number

    def declare(self, number, kind, region_set):
        if not (is_number(number) and kind in (REGULATION, DELAYED) and 1 <= region_set <= 31):
            raise RefusedBook(2)
        if number in self.declared:
            raise RefusedBook(8)
        if len(self.declarations) == SERIALS:
            raise RefusedBook(10)
        declaration = Declaration(len(self.declarations) + 1, number, kind, region_set)
        self.declarations.append(declaration)
        self.declared[number] = declaration
        return declaration

    def declared_without_claim(self, number):
        """The number's declaration."""
        if number not in self.declared:
            raise RefusedBook(9)
        if number in self.claims:
            raise RefusedBook(11)
        return self.declared[number]

    def withdraw(self, number):
        if not is_number(number):
            raise RefusedBook(2)
        self.declared_without_claim(number)
        del self.declared[number]

    def claim(self, number, interval, value, part, terms):
        """Terms are (region, service, amount)."""
        if len(terms) > MOST_TERMS:
            raise RefusedBook(1)
        if not (is_number(number) and interval <= LAST_INTERVAL and value <= MOST_VALUE):
            raise RefusedBook(2)
        for place, (region, service, amount) in enumerate(terms):
            if not (region < REGIONS and service in (REGULATION, DELAYED) and amount <= MOST_AMOUNT):
                raise RefusedBook(2, place)
        declaration = self.declared_without_claim(number)
        if declaration.last is not None and interval <= declaration.last:
            raise RefusedBook(4)
        regions = regions_of(declaration.region_set)
        for place, (region, _, _) in enumerate(terms):
            if region not in regions:
                raise RefusedBook(12, place)
        payment = value * sum(amount for _, _, amount in terms)
        if declaration.kind == REGULATION:
            if part != payment or any(service == DELAYED for _, service, _ in terms):
                raise RefusedBook(13)
        elif part > payment:
            raise RefusedBook(13)
        if payment > MOST_TICKS:
            raise RefusedBook(15)
        if part == 0:
            raise RefusedBook(14)
        declaration.claimed += part
        self.claims[number] = Claim(declaration, interval, part)
        return self.claims[number]

    def recover(self, number, factors, energies):
        """The number's open claim, which ends, and how it was split."""
        claim = self.claims[number]
        declaration = claim.declaration
        split = Split(claim.part, declaration.region_set, factors, energies)
        if self.ledger.left() < split.lines():
            raise RefusedLedger(18)
        for party, share in enumerate(split.shares):
            if share != 0:
                self.ledger.post(party, declaration.serial, -share)
        declaration.last = claim.interval
        declaration.recovered += claim.part
        del self.claims[number]
        return claim, split

    def hand_back(self, number):
        """The number's open claim, which ends."""
        claim = self.claims.pop(number)
        claim.declaration.handed_back += claim.part
        return claim

    def open_under(self, serial):
        """The ticks of the open claims under a serial."""
        return sum(claim.part for claim in self.claims.values() if claim.declaration.serial == serial)


def is_number(number):
    """Whether a requirement can have such a number."""
    return 1 <= number <= NUMBERS


# ---- figures as they are printed

def dollars(ticks):
    """Rounded toward zero to cents."""
    cents = abs(ticks) // TICKS_OF_A_CENT
    return f"{'-' if ticks < 0 and cents != 0 else ''}{cents // 100}.{cents % 100:02}"


def decimals(number):
    """With three decimals, rounded toward zero; a number below 0 has its sign unless that makes it 0."""
    thousandths = int(abs(number) * 1_000)
    return f"{'-' if number < 0 and thousandths != 0 else ''}{thousandths // 1_000}.{thousandths % 1_000:03}"


def with_sign(number):
    """The same with a sign, unless it is 0."""
    text = decimals(number)
    return f"+{text}" if number > 0 and text != "0.000" else text


def counted(count, what):
    return f"1 {what}" if count == 1 else f"{count} {what}s"


def counted_or_none(count, what):
    return f"no {what}s" if count == 0 else counted(count, what)


def told(claim):
    return f"serial {claim.declaration.serial}, interval {claim.interval}"


def verdict(agree):
    return "both sides agree" if agree else "the two sides differ"


# ---- the run sheet

class BadSheet(Exception):
    pass


def numbers(line_number, words, most):
    for word in words:
        if not (word.isascii() and word.isdigit() and int(word) <= most):
            raise BadSheet(f"line {line_number}: {word} is not a number from 0 to {most}")
    return [int(word) for word in words]


def numbers_asked(line_number, step, words, count, most):
    """Exactly so many numbers."""
    if len(words) != count:
        raise BadSheet(f"line {line_number}: the count of numbers after {step} is not {count}")
    return numbers(line_number, words, most)


def number_and_other(line_number, step, words, most):
    """A number and one other word."""
    if len(words) != 2:
        raise BadSheet(f"line {line_number}: {step} takes two words")
    return numbers(line_number, words[:1], most)[0], words[1]


def claim_asked(line_number, words):
    """A number, an interval, a marginal value and a part, then terms of three numbers each."""
    if len(words) < 4 or len(words) % 3 != 1:
        raise BadSheet(f"line {line_number}: claim takes four numbers, and three for each term")
    mosts = [255, 65_535, 4_294_967_295, 18_446_744_073_709_551_615] + [255, 255, 65_535] * (len(words) // 3 - 1)
    asked = [numbers(line_number, [word], most)[0] for word, most in zip(words, mosts)]
    return (*asked[:4], [tuple(asked[at:at + 3]) for at in range(4, len(asked), 3)])


def steps_of(text):
    """The steps of a sheet: (line number, word, what follows)."""
    steps = []
    for line_number, line in enumerate(text.split("\n"), 1):
        words = line.split("#")[0].replace("\t", " ").replace("\r", " ").split(" ")
        words = [word for word in words if word]
        if not words:
            continue
        step, rest = words[0], words[1:]
        if step == "units":
            steps.append((line_number, step, bytes(numbers(line_number, rest, 255))))
        elif step in ("units-file", "samples", "metered", "records"):
            if len(rest) != 1:
                raise BadSheet(f"line {line_number}: {step} takes one file name")
            steps.append((line_number, step, rest[0]))
        elif step == "publish":
            if rest not in ([], ["anyway"]):
                raise BadSheet(f"line {line_number}: publish takes no word but anyway")
            steps.append((line_number, step, rest == ["anyway"]))
        elif step == "profile":
            totals, weights = rest[:REGIONS], rest[REGIONS:]
            if len(weights) > PARTIES:
                raise BadSheet(f"line {line_number}: profile takes at most {PARTIES} weights")
            totals = numbers_asked(line_number, step, totals, REGIONS, 4_294_967_295)
            steps.append((line_number, step, (totals, numbers(line_number, weights, 65_535))))
        elif step in ("island", "dispatch"):
            steps.append((line_number, step, numbers_asked(line_number, step, rest, 1, 255)[0]))
        elif step == "handover":
            steps.append((line_number, step, numbers_asked(line_number, step, rest, 2, 65_535)))
        elif step in ("totals", "table", "amounts"):
            steps.append((line_number, step, numbers_asked(line_number, step, rest, 0, 0)))
        elif step == "journal":
            steps.append((line_number, step, number_and_other(line_number, step, rest, 65_535)))
        elif step == "split":
            part, region_set = number_and_other(line_number, step, rest, 18_446_744_073_709_551_615)
            steps.append((line_number, step, (part, numbers(line_number, [region_set], 255)[0])))
        elif step == "declare":
            steps.append((line_number, step, numbers_asked(line_number, step, rest, 3, 255)))
        elif step in ("withdraw", "recover", "return"):
            steps.append((line_number, step, numbers_asked(line_number, step, rest, 1, 255)[0]))
        elif step == "claim":
            steps.append((line_number, step, claim_asked(line_number, rest)))
        else:
            raise BadSheet(f"line {line_number}: {step} is not a step")
    return steps


def ledger_of(steps):
    """The sheet's one ledger, wherever it is chosen; a table where it is not."""
    chosen = [(line_number, step, what) for line_number, step, what in steps if step in ("table", "journal")]
    if len(chosen) > 1:
        raise BadSheet(f"line {chosen[1][0]}: the ledger is chosen twice")
    for _, step, what in chosen:
        if step == "journal":
            return Journal(what[0])
    return Table()


class Run:
    def __init__(self, folder, ledger, say):
        self.folder = folder
        self.ledger = ledger
        self.book = Book(ledger)
        self.say = say
        self.sampling = Sampling()
        self.published = None
        self.energies = Energies({})
        self.used = 0
        self.refusals = []

    def read(self, line_number, name):
        try:
            with open(os.path.join(self.folder, name), "rb") as file:
                return file.read()
        except OSError as error:
            raise BadSheet(f"line {line_number}: cannot read {name}: {error.strerror}")

    def units(self, line_number, owners):
        try:
            self.sampling.register(owners)
        except Refused as refusal:
            self.say(f"line {line_number}: {refusal}")
        else:
            self.say(f"line {line_number}: {len(owners)} units registered")

    def samples(self, line_number, name):
        data = self.read(line_number, name)
        length = RECORD * (len(self.sampling.owners) + 1)
        if not self.sampling.owners:
            data = data[:length]
        used = refused = 0
        while data:
            piece, data = data[:length], data[length:]
            try:
                self.sampling.add(piece)
                used += 1
            except Refused as refusal:
                self.say(f"line {line_number}: {refusal}, interval {used + refused} of {name}")
                self.refusals.append(refusal.number)
                refused += 1
        self.say(f"line {line_number}: {name}: {used + refused} intervals offered, {used} used, {refused} refused")
        self.used += used

    def publish(self, line_number, anyway):
        try:
            self.sampling.ready()
        except Refused as refusal:
            self.say(f"line {line_number}: {refusal}")
            if not anyway:
                return
        self.published = self.sampling.publish()
        self.sampling = Sampling()
        self.say(f"line {line_number}: factors published from {self.published.intervals} intervals")

    def metered(self, line_number, name):
        data = self.read(line_number, name)
        try:
            self.energies = metered(data)
        except RefusedEnergy as refusal:
            self.say(f"line {line_number}: {refusal}")
        else:
            self.say(f"line {line_number}: {name}: {len(data) // METER} metered records")

    def profile(self, line_number, totals, weights):
        try:
            self.energies = profile(totals, weights)
        except RefusedEnergy as refusal:
            self.say(f"line {line_number}: {refusal}")
        else:
            self.say(f"line {line_number}: profile set")

    def island(self, line_number, region_set):
        self.energies = self.energies.island(regions_of(region_set))
        self.say(f"line {line_number}: island of set {region_set}")

    def handover(self, line_number, leaver, successor):
        self.energies = self.energies.handover(leaver, successor)
        self.say(f"line {line_number}: handover from party {leaver} to party {successor}")

    def totals(self, line_number):
        totals = self.energies.totals()
        self.say(f"line {line_number}: totals {' '.join(map(str, totals))}, sum {sum(totals)}")

    def dispatch(self, line_number, region_set):
        if self.published is None:
            self.say(f"line {line_number}: no factors are published, so there is no dispatch figure")
            return
        try:
            figure = dispatch_figure(self.published.shares[RESIDUAL], self.energies, region_set)
        except RefusedEnergy as refusal:
            self.say(f"line {line_number}: {refusal}")
        else:
            self.say(f"line {line_number}: dispatch figure of set {region_set}: {figure}")

    def table(self, line_number):
        self.say(f"line {line_number}: ledger: table, {self.ledger.left()} lines left")

    def journal(self, line_number, records, name):
        self.say(f"line {line_number}: ledger: journal of {records} records to {name}, {self.ledger.left()} lines left")

    def amounts(self, line_number):
        amounts = self.ledger.amounts()
        self.say(f"line {line_number}: {counted_or_none(len(amounts), 'amount')}, {self.ledger.left()} lines left")
        for serial, party, ticks in amounts:
            self.say(f"  serial {serial:>2}  party {party:>2}  {ticks:>18} ticks{dollars(ticks):>16} dollars")

    def records(self, line_number, name):
        data = self.read(line_number, name)
        count = min(len(data) // LINE, MOST_JOURNAL_LINES)
        more = ", then more bytes" if len(data) > LINE * count else ""
        self.say(f"line {line_number}: {name}: {counted_or_none(count, 'record')}{more}")
        for record in range(count):
            at = LINE * record
            party, serial = unsigned(data, at), unsigned(data, at + 2)
            zero, ticks = data[at + 4:at + 8], int.from_bytes(data[at + 8:at + LINE], "big", signed=True)
            other = "" if zero == bytes(4) and is_line(party, serial, ticks) else " (not a ledger's)"
            self.say(f"  record {record:>4}: party {party:>2} serial {serial:>2} "
                     f"amount {ticks} ticks, {dollars(ticks)} dollars{other}")

    def split(self, line_number, part, region_set):
        if self.published is None:
            self.say(f"line {line_number}: no factors are published, so there is no split")
            return
        try:
            split = Split(part, region_set, self.published, self.energies)
        except RefusedBook as refusal:
            self.say(f"line {line_number}: {refusal}")
            return
        self.say(f"line {line_number}: split of {part} ticks over set {region_set}: "
                 f"CMPF {split.cmpf}, CRMPF {split.crmpf}, {counted(split.lines(), 'line')}")
        self.columns("party", "energy", "weight", "share", "dollars", "exact share", "off by")
        for party in range(PARTIES):
            energy = split.energy[party]
            if energy > 0:
                weight = f"{split.causers[party]} f" if split.factored[party] else f"{energy} e"
                self.share(party, energy, weight, split.shares[party], split.exact(party))
        customers, exact = sum(split.customers), split.exact_of_weight(split.crmpf)
        self.share("residual", customers, f"{split.crmpf} f", split.residual, exact)
        whole = sum(split.shares)
        self.columns("sum", sum(split.energy), "", whole, dollars(whole))

    def share(self, name, energy, weight, ticks, exact):
        self.columns(name, energy, weight, ticks, dollars(ticks), decimals(exact), with_sign(ticks - exact))

    def columns(self, name, *others):
        """A row of a split: the first column is aligned left, the others right."""
        widths = (12, 12, 16, 16, 20, 12)
        self.say(f"  {name:<10}" + "".join(f"{other:>{width}}" for other, width in zip(others, widths)))

    def declare(self, line_number, number, kind, region_set):
        try:
            declaration = self.book.declare(number, kind, region_set)
        except RefusedBook as refusal:
            self.say(f"line {line_number}: {refusal}")
        else:
            self.say(f"line {line_number}: number {number} declared: serial {declaration.serial}")

    def withdraw(self, line_number, number):
        try:
            self.book.withdraw(number)
        except RefusedBook as refusal:
            self.say(f"line {line_number}: {refusal}")
        else:
            self.say(f"line {line_number}: number {number} withdrawn")

    def claim(self, line_number, number, interval, value, part, terms):
        try:
            claim = self.book.claim(number, interval, value, part, terms)
        except RefusedBook as refusal:
            self.say(f"line {line_number}: {refusal}")
        else:
            self.say(f"line {line_number}: number {number} claimed: {told(claim)}, {claim.part} ticks")

    def recover(self, line_number, number):
        if number not in self.book.claims:
            self.say(f"line {line_number}: no claim of number {number} is held")
            return
        if self.published is None:
            self.say(f"line {line_number}: no factors are published, so nothing can be recovered")
            return
        try:
            claim, split = self.book.recover(number, self.published, self.energies)
        except (RefusedBook, RefusedLedger) as refusal:
            self.say(f"line {line_number}: {refusal}")
        else:
            self.say(f"line {line_number}: number {number} recovered: {told(claim)}, {claim.part} ticks, "
                     f"CMPF {split.cmpf}, CRMPF {split.crmpf}, {counted(split.lines(), 'line')}")

    def hand_back(self, line_number, number):
        if number not in self.book.claims:
            self.say(f"line {line_number}: no claim of number {number} is held")
            return
        claim = self.book.hand_back(number)
        self.say(f"line {line_number}: number {number} handed back: {told(claim)}, {claim.part} ticks")

    def steps(self, steps):
        for line_number, step, what in steps:
            if step == "units":
                self.units(line_number, what)
            elif step == "units-file":
                self.units(line_number, self.read(line_number, what))
            elif step == "samples":
                self.samples(line_number, what)
            elif step == "publish":
                self.publish(line_number, what)
            elif step == "metered":
                self.metered(line_number, what)
            elif step == "profile":
                self.profile(line_number, *what)
            elif step == "island":
                self.island(line_number, what)
            elif step == "handover":
                self.handover(line_number, *what)
            elif step == "totals":
                self.totals(line_number)
            elif step == "dispatch":
                self.dispatch(line_number, what)
            elif step == "table":
                self.table(line_number)
            elif step == "journal":
                self.journal(line_number, *what)
            elif step == "amounts":
                self.amounts(line_number)
            elif step == "records":
                self.records(line_number, what)
            elif step == "split":
                self.split(line_number, *what)
            elif step == "declare":
                self.declare(line_number, *what)
            elif step == "withdraw":
                self.withdraw(line_number, what)
            elif step == "claim":
                self.claim(line_number, *what)
            elif step == "recover":
                self.recover(line_number, what)
            else:
                self.hand_back(line_number, what)

    def summary(self):
        self.say("")
        self.factors()
        self.say("")
        self.say(f"Intervals used: {self.used}")
        self.say(f"Intervals refused: {len(self.refusals)}")
        for number in sorted(set(self.refusals)):
            self.say(f"  {number} ({WORDS[number]}): {self.refusals.count(number)}")
        if self.book.declarations:
            self.say("")
            for declaration in self.book.declarations:
                self.declaration(declaration)
            self.say("")
            self.open_claims()

    def declaration(self, of):
        """What was claimed under the declaration, and what its parties paid."""
        kind = "regulation" if of.kind == REGULATION else "delayed"
        self.say(f"Serial {of.serial}: number {of.number}, {kind}, regions {' '.join(map(str, regions_of(of.region_set)))}")
        still_open = self.book.open_under(of.serial)
        agree = of.claimed == of.recovered + of.handed_back + still_open
        self.say(f"  claimed {of.claimed} ticks, recovered {of.recovered}, handed back {of.handed_back}, "
                 f"open {still_open}: {verdict(agree)}")
        amounts = [self.ledger.amount(party, of.serial) for party in range(PARTIES)]
        for party, ticks in enumerate(amounts):
            if ticks != 0:
                self.say(f"  party {party:>2}{ticks:>20} ticks{dollars(ticks):>16} dollars")
        whole = sum(amounts)
        self.say(f"  sum     {whole:>20} ticks{dollars(whole):>16} dollars: {verdict(whole == -of.recovered)}")

    def open_claims(self):
        claims = self.book.claims
        self.say(f"Claims still open: {len(claims) if claims else 'none'}")
        for number in sorted(claims):
            self.say(f"  number {number}, {told(claims[number])}: {claims[number].part} ticks")

    def factors(self):
        if self.published is None:
            self.say("No factors were published.")
            return
        self.say("Contribution factors (millionths)")
        self.say(f"{'party':<16}{'units':>6}{'factor':>10}{'percent':>10}")
        counts, shares = self.published.counts, self.published.shares
        for party in range(RESIDUAL):
            if counts[party] > 0:
                self.row(str(party), counts[party], shares[party])
        self.row("residual (RMPF)", counts[RESIDUAL], shares[RESIDUAL])
        self.row("sum", sum(counts), sum(shares))

    def row(self, name, units, factor):
        percent = f"{factor // 10_000}.{factor % 10_000:04}"
        self.say(f"{name:<16}{units:>6}{factor:>10}{percent:>10}")


def say(line):
    sys.stdout.buffer.write((line + "\n").encode())


def say_nothing(line):
    pass


def carry_out(sheet, text, say):
    """Carries out the sheet, and gives its ledger as it is at the end."""
    steps = steps_of(text)
    run = Run(os.path.dirname(sheet), ledger_of(steps), say)
    run.steps(steps)
    run.summary()
    return run.ledger


def main(words):
    journal = words[:1] == ["--journal"]
    if len(words) != 1 + journal:
        print("usage: expect.py [--journal] SHEET", file=sys.stderr)
        return 2
    sheet = words[-1]
    try:
        with open(sheet, "rb") as file:
            text = file.read().decode()
    except (OSError, UnicodeDecodeError) as error:
        print(f"Error: cannot read {sheet}: {error}", file=sys.stderr)
        return 1
    try:
        ledger = carry_out(sheet, text, say_nothing if journal else say)
    except BadSheet as error:
        sys.stdout.flush()
        print(f"Error: {error}", file=sys.stderr)
        return 1
    if journal:
        if not isinstance(ledger, Journal):
            print(f"Error: {sheet} has no journal", file=sys.stderr)
            return 1
        sys.stdout.buffer.write(ledger.records())
    return 0


if __name__ == "__main__":
    sys.exit(main(sys.argv[1:]))
