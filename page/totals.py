"""The totals of reports that were dropped on the page: `totaliza` over files in a folder of the session, under names of the server; for
each proportional office the certificate, which `certifica` makes; and the check of it, or of a file given as one, by `verifica`.

To add another command over these files, add it to `tell`, and a part to static/totais.js.
"""

import os

import elections
from programs import Refused, anew, content, put

TABLES, LIST, GIVEN = "tabelas.toml", "lista.txt", "dado.cer"
MOST_TOLD = 255


def proportional(lines):
    """The codes of the proportional offices: the totals have a quotient for them, or the line that there is none."""
    code, found = None, []
    for line in lines:
        if line.startswith("CARGO "):
            code = line.split(" ")[1]
        elif line.startswith(("QUOCIENTE ", "SEM QUOCIENTE ")):
            found.append(code)
    return found


class Totals:
    """The totals that a session saw last. Earlier ones are gone, and no name of a certificate is used twice."""

    def __init__(self, program, folder):
        self.program, self.folder = program, folder
        self.number, self.certificates = 0, {}

    def run(self, *words):
        return self.program.run(self.folder, list(words))

    def begin(self):
        """An empty folder."""
        self.number, self.certificates = self.number + 1, {}
        anew(self.folder)

    def tell(self, tables, reports):
        """The reports, each with the name under which it is shown, totalled in order."""
        if len(tables) > elections.MOST_TABLES or any(len(data) > elections.MOST_REPORT for _, data in reports):
            raise Refused(413, "o arquivo é grande demais")
        if len(reports) > elections.MOST_REPORTS:
            raise Refused(413, "são boletins demais")
        self.begin()
        put(tables, self.folder, TABLES)
        files = [f"boletim-{number}.bu" for number in range(1, len(reports) + 1)]
        for file, (_, data) in zip(files, reports):
            put(data, self.folder, file)
        put("".join(f"{it}\n" for it in files).encode(), self.folder, LIST)
        totalled = self.run("totaliza", TABLES, LIST)
        return {
            "totaliza": totalled.told(),
            "certificados": [self.certify(code) for code in proportional(totalled.lines)],
            "nomes": elections.names_in(tables),
            "arquivos": [name[:MOST_TOLD] for name, _ in reports],
        }

    def certify(self, code):
        """The certificate of an office's seats: its name, the output of the command, and its text, if it made one."""
        name = f"cargo-{code}-{self.number}"
        ended = self.run("certifica", TABLES, LIST, code, name)
        text = content(self.folder, f"{name}.cer").decode(errors="replace") if ended.status == 0 else None
        self.certificates[f"{name}.cer"] = code
        return {"cargo": code, "arquivo": f"{name}.cer", "certifica": ended.told(), "texto": text}

    def office_of(self, name):
        """The office of a certificate of these totals."""
        if name not in self.certificates:
            raise Refused(409, "estes totais não estão mais no servidor: totalizar outra vez")
        return self.certificates[name]

    def check(self, name):
        """The program's answer about the certificate of this name."""
        return self.run("verifica", TABLES, LIST, self.office_of(name), name)

    def check_given(self, name, data):
        """The program's answer about a file that is given instead of the certificate of this name."""
        code = self.office_of(name)
        put(data, self.folder, GIVEN)
        try:
            return self.run("verifica", TABLES, LIST, code, GIVEN)
        finally:
            os.remove(os.path.join(self.folder, GIVEN))

    def certificate(self, name):
        """The bytes of a certificate."""
        if name not in self.certificates or not os.path.exists(os.path.join(self.folder, name)):
            raise Refused(404, "não há este certificado")
        return content(self.folder, name)
