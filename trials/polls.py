"""Polls for the scripts of this folder, written only from docs/FORMATS.md: small ones computed by hand, and days whose every state is
known to the byte."""

import hashlib

OPENED, CLOSED = "20261004080000", "20261004170000"
HEADER = "processo = 7\ndata = 20261004\nturno = 1\n"

# The small polls. The ballots of three voters are given by the fields that they confirm.
MAYOR = '{codigo = 11, regra = "absoluta", cadeiras = 1}'
COUNCIL = '{codigo = 13, regra = "proporcional", cadeiras = 5}'
PARTIES = 'partido = [{numero = 13, nome = "PA"}, {numero = 45, nome = "PB"}]\n'
COUNCILLORS = """  {cargo = 13, numero = 13001, nascimento = 19700101, nome = "ANA"},
  {cargo = 13, numero = 45001, nascimento = 19650520, nome = "BRUNO"},
"""
MAYORS = """  {cargo = 11, numero = 13, nascimento = 19600303, nome = "CARLA"},
  {cargo = 11, numero = 45, nascimento = 19751212, nome = "DAVI"},
"""
THREE_BALLOTS = [["45", "13"], ["B", "45"], ["13001", "99"]]

# What their result files have.
HEAD = "ORIG:VOTA PROC:7 DTPL:20261004 TURN:1 ZONA:1 SECA:42 APTO:{0} COMP:{0} FALT:0"
HOURS = "DTAB:20261004 HRAB:080000 DTFC:20261004 HRFC:170000"
ONE_VOTE_FIELDS = f"{HEAD.format(1)} {HOURS} CARG:11 TIPO:0 13:1 APTA:1 NOMI:1 BRAN:0 NULO:0 TOTC:1"
THREE_BALLOTS_FIELDS = (
    f"{HEAD.format(3)} {HOURS} CARG:13 TIPO:1 PART:13 13001:1 LEGP:0 TOTP:1 PART:45 LEGP:1 TOTP:1 APTA:3 NOMI:1 LEGC:1 BRAN:1 NULO:0 TOTC:3"
    " CARG:11 TIPO:0 13:1 45:1 APTA:3 NOMI:2 BRAN:0 NULO:1 TOTC:3"
)
RECORD = "RDV U1\nPROC 7 DTPL 20261004 TURN 1 ZONA 1 SECA 42\n"
ONE_VOTE_RECORD = f"{RECORD}CARG 11 1\nN 13\nFIM\n"
THREE_BALLOTS_RECORD = f"{RECORD}CARG 13 3\nN 13001\nL 45\nB\nCARG 11 3\nN 13\nN 45\nX\nFIM\n"


def documents_of(tables, roll, keys):
    """The files of these texts."""
    return {"tables": tables.encode(), "roll": roll.encode(), "keys": keys.encode()}


def small_poll(offices, candidates, voters, ballots):
    """The documents of a poll, with the ballots in the order in which they are cast, each a voter and the fields."""
    sections = f"secao = [{{zona = 1, secao = 42, eleitores = {voters}}}]\n"
    tables = f"{HEADER}cargo = [{', '.join(offices)}]\n{PARTIES}candidato = [\n{candidates}]\n{sections}"
    roll = "".join(f"{10_000_000_000 + voter:012}\n" for voter in range(1, voters + 1))
    keys = f"M ABRE {OPENED}\n"
    for voter, fields in ballots:
        keys += f"M TITULO {10_000_000_000 + voter:012}\nM LIBERA\n" + "".join(f"E {field}C\n" for field in fields)
    return documents_of(tables, roll, keys + f"M ENCERRA {CLOSED}\n")


def one_vote():
    """The poll of one voter and one office."""
    return small_poll([MAYOR], MAYORS, 1, [(1, ["13"])])


def three_ballots(voters):
    """The poll of two offices in which these voters, in this order, cast the three ballots."""
    return small_poll([COUNCIL, MAYOR], COUNCILLORS + MAYORS, 3, zip(voters, THREE_BALLOTS))


# The flashes.
FLASHES = ("internal.flash", "external.flash")
BODY = 65536
SLOT = 512 + BODY
GATES = (512, 512 + SLOT)
LENGTH = 512 + 2 * SLOT

# What the voters of a day confirm, one after the other.
BALLOTS = [("13001", "45"), ("45", "99"), ("B", "B"), ("99999", "4R45")]

# What each ballot has in each panel, and the choices of each panel in order: a kind (1 nominal, 2 party, 3 blank, 4 null) and a number.
SAID = [((1, 13001), (1, 45)), ((2, 45), (4, 0)), ((3, 0), (3, 0)), ((4, 0), (1, 45))]
CHOICES = [[(1, 13001), (2, 13), (2, 45), (3, 0), (4, 0)], [(1, 45), (3, 0), (4, 0)]]

# The lines that each stand for one commit.
COMMIT_LINES = ("ABERTA ", "FIM", "ENCERRADA ")


MAGIC = b"URNAU1\0\0"


def open_bodies(flash):
    """The bodies of the open slots."""
    return [flash[gate + 512 : gate + 512 + BODY] for gate in GATES if flash[gate] == 0xA5]


def is_in_use(flash):
    """Whether it has the poll of some load that was opened or sealed."""
    return flash.startswith(MAGIC) and any(body[1] in (1, 2) for body in open_bodies(flash))


def title(voter):
    return f"{voter + 1:012}"


class Day:
    """A poll of two panels in a section with this many voters, who all come, in the order of the roll.

        A state is identified by its number: 0 before the poll is opened, then one for each number of voters who came, and the last one sealed.

    """

    def __init__(self, voters):
        self.voters = voters
        self.states = ["PRONTA 0", *(f"ABERTA {n}" for n in range(voters + 1)), f"LACRADA {voters}"]
        self.last = len(self.states) - 1
        self.loaded = f"CARGA 1 42 {voters}\n"
        self.roll = "".join(title(voter) + "\n" for voter in range(voters))
        self.tables = (
            f"{HEADER}cargo = [{COUNCIL}, {MAYOR}]\n{PARTIES}candidato = [\n"
            '  {cargo = 13, numero = 13001, nascimento = 19700101, nome = "ANA"},\n'
            '  {cargo = 11, numero = 45, nascimento = 19751212, nome = "DAVI"},\n]\n'
            f"secao = [{{zona = 1, secao = 42, eleitores = {voters}}}]\n"
        )

    def keys(self, state=0, last=None):
        """The keys that lead from a state to another one, or to the last."""
        steps = [f"M ABRE {OPENED}\n"]
        for voter in range(self.voters):
            first, second = BALLOTS[voter % len(BALLOTS)]
            steps.append(f"M TITULO {title(voter)}\nM LIBERA\nE {first}C\nE {second}C\n")
        steps.append(f"M ENCERRA {CLOSED}\n")
        return "".join(steps[state:last])

    def documents(self, keys):
        """The documents with these keys."""
        return documents_of(self.tables, self.roll, keys)

    def frame(self, device):
        """A flash that is loaded for this day, 0 the internal one, with no slot open."""
        numbers = b"".join(number.to_bytes(4, "big") for number in (1, 42, self.voters))
        hashes = b"".join(hashlib.sha256(text.encode()).digest() for text in (self.tables, self.roll))
        return (MAGIC + bytes([device + 1]) + numbers + hashes).ljust(LENGTH, b"\0")

    def is_loaded(self, flash, device):
        """Whether it has the frame of this day's load."""
        return flash[:512] == self.frame(device)[:512] and not any(any(flash[gate + 1 : gate + 512]) for gate in GATES)

    def stands(self, flash):
        """Whether a slot of it is open with a state of this day, in either version."""
        bodies = {self.body(version, state) for version in (1, 2) for state in range(self.last + 1)}
        return not bodies.isdisjoint(open_bodies(flash))

    def came(self, state):
        """How many voters came."""
        return min(max(state - 1, 0), self.voters)

    def body(self, version, state):
        """The body of a slot in a state of the poll ("The body")."""
        came = self.came(state)
        phase = 0 if state == 0 else 1 if state < self.last else 2
        marks = bytearray(75)
        for place in range(came):
            marks[place // 8] |= 128 >> place % 8
        moments = int(OPENED) * (phase > 0), int(CLOSED) * (phase > 1)
        written = bytes([version, phase]) + b"".join(moment.to_bytes(8, "big") for moment in moments)
        written += came.to_bytes(4, "big") + marks + bytes([len(CHOICES)])
        if version == 2:
            written = written.ljust(512, b"\0")
        for panel, choices in enumerate(CHOICES):
            bag = sorted(SAID[voter % len(SAID)][panel] for voter in range(came))
            if version == 1:
                votes = b"".join(bytes([kind]) + number.to_bytes(4, "big") for kind, number in bag)
                written += len(bag).to_bytes(4, "big") + votes
            else:
                written += b"".join(bag.count(choice).to_bytes(4, "big") for choice in choices)
        return written.ljust(BODY, b"\0")

    def flash(self, device, version, state):
        """A flash at rest with a state: both slots are open with its body."""
        flash = bytearray(self.frame(device))
        for gate in GATES:
            flash[gate] = 0xA5
            flash[gate + 512 : gate + 512 + BODY] = self.body(version, state)
        return bytes(flash)

    def flashes(self, version, state):
        """Both flashes at rest with a state."""
        return [self.flash(device, version, state) for device in (0, 1)]
