"""The power pulled at each operation of one commit, by requests. A voter who saw FIM begin is counted, once; for any other voter the
program asks again."""

import glob
import os

from client import Client, fields
from commands import want

OPEN, SEAL = "M ABRE 20261004080000", "M ENCERRA 20261004170000"


def title(voter):
    return f"M TITULO {10_000_000_000 + voter:012}"


def ballot(voter):
    """The presses of a voter of the example day, up to the last one, which is a CONFIRMA."""
    return [title(voter), "M LIBERA", *(f"E {it}" for it in "13001C45")]


def begun(port):
    """A poll in which the first voter has voted."""
    client = Client(port)
    client.ask("comeca", exemplo="dia")
    client.press(OPEN, *ballot(1))
    want(client.press("E C")["linhas"] == ["FIM"], "the first voter sees no FIM")
    return client


def want_cut(told, number, what):
    cut = told["corte"]
    want(not told["ligada"] and cut["parou"] == number, f"{what}: the power was not pulled there: {cut}")
    want(all(it["numero"] == 0 for it in told["memorias"]), f"{what}: a flash alone holds no poll: {told['memorias']}")
    return cut


def voter_at(client, number):
    """The second voter's last press, with the power pulled at an operation of its commit. Returns how many of these there are."""
    what = f"the power pulled at operation {number}"
    client.press(*ballot(2))
    client.ask("arma", operacao=number)
    cut = want_cut(client.press("E C"), number, what)
    # The last operation is the line itself, of which a part was shown.
    saw = any("FIM".startswith(it) for it in cut["linhas"] if it)
    want(saw == (number == len(cut["operacoes"])), f"{what}: the screen showed {cut['linhas']}")
    told = client.ask("liga")
    came, again = told["inicio"]["linhas"], told["corte"]["volta"]
    want((came, again) in ((["URNA ABERTA 1"], f"ELEITOR {title(2)[-12:]}"), (["URNA ABERTA 2"], "RECUSA 5")), f"{what}: {came}, {again}")
    want(again == "RECUSA 5" or not saw, f"{what}: a voter who saw FIM begin is not counted")
    if again != "RECUSA 5":
        client.press(*ballot(2))
        want(client.press("E C")["linhas"] == ["FIM"], f"{what}: the voter could not come again")
    return len(cut["operacoes"])


def sealed(client, what):
    client.press(SEAL)
    first, council, mayor = fields(client.file("urna.bu"))
    counts = first["COMP"], council["13001"], mayor["45"]
    want(counts == ("2", "2", "2"), f"{what}: the report has {counts}")


def voters(port):
    """The power pulled at each operation of a voter's commit, the poll sealed after each"""
    number, count = 1, 1
    while number <= count:
        client = begun(port)
        count = voter_at(client, number)
        sealed(client, f"the power pulled at operation {number}")
        number += 1
    return count


def moments(port):
    """The power pulled in the opening and in the seal"""
    client = Client(port)
    for number in (1, 9, 20):
        client.ask("comeca", exemplo="dia")
        for press, before, behind in ((OPEN, "URNA PRONTA 0", "URNA ABERTA 0"), (SEAL, "URNA ABERTA 0", "URNA LACRADA 0")):
            client.ask("arma", operacao=number)
            want_cut(client.press(press), number, f"{press} at {number}")
            found = client.ask("liga")["inicio"]["linhas"]
            want(found in ([before], [behind]), f"{press} at {number}: {found}")
            if found == [before]:
                client.press(press)
    return 6


def drawn(port):
    """The power pulled at drawn operations"""
    for _ in range(5):
        client = begun(port)
        client.press(*ballot(2))
        client.ask("arma", operacao=None)
        told = client.press("E C")
        want_cut(told, told["corte"]["parou"], "a drawn operation")
        client.ask("liga")
        client.press(*ballot(3))
        want(client.press("E C")["linhas"] == ["FIM"], "after a drawn operation the poll does not continue")
    return 5


def exchanged(port):
    """Each flash lost and replaced, the other one lost after it"""
    client = begun(port)
    for word in ("interna", "externa"):
        client.ask("desliga")
        client.ask("troca", memoria=word)
        want(client.ask("liga")["resposta"]["linhas"] == [f"ERRO OUTRA CARGA {word.upper()}"], f"a blank {word} is not reported")
        found = client.ask("repoe", memoria=word)["resposta"]["linhas"]
        want(found == [f"REPOSTA {word.upper()} 1 42 1"], f"repoe {word}: {found}")
        want(client.ask("liga")["ligada"], "it does not start")
    client.press(*ballot(2))
    want(client.press("E C")["linhas"] == ["FIM"], "the poll does not continue")
    sealed(client, "two flashes were replaced")
    return 2


def shortened(port, folder):
    """A flash cut short under a voter: the clerk is told that a key failed, and neither which one nor a line of the voter's"""
    client = begun(port)
    client.press(*ballot(2))
    for path in glob.glob(os.path.join(folder, "*", "urna", "internal.flash")):
        os.truncate(path, 100)
    told = client.press("E C")
    clerk = told["mesario"]
    want((clerk["tecla"], clerk["linhas"]) == (None, []) and clerk["numero"] != 0, f"a failed key of a voter: {clerk}")
    want([it["byte"] for it in told["memorias"][0]["portas"]] == ["", ""], f"the gates of a short flash: {told['memorias'][0]}")
    client.ask("desliga")
    told = client.ask("liga")
    want(not told["ligada"] and told["recusada"]["numero"] == clerk["numero"], f"a machine with a short flash: {told['recusada']}")
    return 1


def tried(port, folder):
    for part in (voters, moments, drawn, exchanged):
        yield f"{part.__doc__}: {part(port)}"
    yield f"{shortened.__doc__}: {shortened(port, folder)}"
