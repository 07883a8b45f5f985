"""The built-in elections of the page, and the names in the tables of an election."""

import tomllib

from programs import EXAMPLES, Refused, content

# The limits of the page's inputs: those of the program (docs/FORMATS.md, "Limits"), and for a total those of one request.
MOST_TABLES, MOST_ROLL, MOST_REPORT, MOST_REPORTS, MOST_CERTIFICATE = 4_194_304, 16_384, 1_048_576, 4_096, 1_048_576
MOST_TITLES = 600
REHEARSED = "400"
# The documents of an example in `examples`, and its section.
EXAMPLE_POLLS = {"dia": ("tabelas.toml", "rol.txt", "1", "42"), "senado": ("senado.toml", "senado-rol.txt", "1", "42")}
# The tables of an example, and the reports beside them.
EXAMPLE_TOTALS = {"federacao": ("federacao.toml", ["federacao-42.bu", "federacao-43.bu"]), "dia": ("tabelas.toml", ["secao43.bu"])}


def rehearsal(program, folder):
    """The six files of a rehearsed election, in a folder."""
    ended = program.run(folder, ["ensaio", REHEARSED])
    if ended.status != 0:
        raise Refused(500, f"o ensaio terminou com {ended.status}")
    return ended


def poll(program, folder, name):
    """The tables, the roll, the zone and the section of a built-in election."""
    if name == "ensaio":
        rehearsal(program, folder)
        return content(folder, "ensaio.toml"), content(folder, "ensaio.rol"), "1", "1"
    if name not in EXAMPLE_POLLS:
        raise Refused(400, "não há esta eleição")
    tables, roll, zone, section = EXAMPLE_POLLS[name]
    return content(EXAMPLES, tables), content(EXAMPLES, roll), zone, section


def reports(program, folder, name):
    """The tables of a built-in election, and its reports, each with its name, to be totalled."""
    if name == "ensaio":
        rehearsal(program, folder)
        return content(folder, "ensaio.toml"), [("ensaio.bu", content(folder, "ensaio.bu"))]
    if name not in EXAMPLE_TOTALS:
        raise Refused(400, "não há esta eleição")
    tables, names = EXAMPLE_TOTALS[name]
    return content(EXAMPLES, tables), [(it, content(EXAMPLES, it)) for it in names]


def names_in(tables):
    """What tables call their parties, candidates and federations, and how many seats an office has, each as text. They are only
    displayed; no output of the program depends on them."""
    try:
        read = tomllib.loads(tables.decode())
        return {
            "data": str(read["data"]),
            "cadeiras": {str(it["codigo"]): str(it["cadeiras"]) for it in read["cargo"]},
            "partidos": {str(it["numero"]): str(it["nome"]) for it in read["partido"]},
            "candidatos": {f"{it['cargo']} {it['numero']}": str(it["nome"]) for it in read["candidato"]},
            "federacoes": {str(min(it["partidos"])): str(it["nome"]) for it in read.get("federacao", [])},
        }
    except (ValueError, KeyError, TypeError, AttributeError, RecursionError):
        return {}


def titles_in(roll):
    """The titles of a roll, to choose from."""
    return [it.decode() for it in roll.split(b"\n") if it.isdigit()][:MOST_TITLES]
