// The certificate of an office's seats as tables, its check, and the substitutes: from the file and the output of `certifica`, and of `verifica`.

import { MOST, ask, blocName, candidateName, dropZone, encoded, make, number, table, textBlock } from "./parts.js";
import { told } from "./urna.js";

// The part of a file that is shown. A certificate of an election is shorter.
const MOST_SHOWN = 262144;

const average = (word) => {
  const [bloc, votes, divisor] = word.split(/[:/]/);
  return { bloc, votes, divisor };
};

// The text of a certificate (docs/FORMATS.md, "Certificate"), its numbers as written.
function read(text) {
  const certificate = { quotient: "", first: [], rounds: [], vacant: "" };
  for (const line of text.split("\n")) {
    const [word, ...rest] = line.split(" ");
    if (word === "QUOCIENTE") {
      certificate.quotient = rest[0];
    } else if (word === "PARTIDO") {
      const [bloc, , quotient, , able, , seats] = rest;
      certificate.first.push({ bloc, quotient, able, seats });
    } else if (word === "RODADA") {
      const [round, , phase, , winner, ...averages] = rest;
      certificate.rounds.push({ round, phase, winner, averages: averages.map(average) });
    } else if (word === "VAZIAS") {
      certificate.vacant = rest[0];
    }
  }
  return certificate;
}

const hint = (text) => make("p", { class: "hint" }, text);

// The bloc of a number, from the totals.
const blocOf = (contest, bloc) => contest.blocs.find((it) => it.number === bloc) || { kind: "PARTIDO", number: bloc, votes: 0 };

// The rules in words, each next to what it explains (docs/RULES.md, "The seats").
const RULES = {
  quotient: "O quociente são os votos divididos pelas vagas, sem a fração que não passa da metade; uma maior conta como um (Código Eleitoral, art. 106).",
  first:
    "QP, o quociente partidário: os votos válidos divididos pelo quociente eleitoral, sem a fração (art. 107). " +
    "Aptos: os candidatos com 10% do quociente eleitoral. As vagas são tantas quantas o QP, e não mais do que os aptos (art. 108).",
  rounds:
    "De cada um que concorre: os seus votos válidos, divididos pelas vagas que já tem, mais uma. " +
    "A vaga é da maior média; de médias iguais, da do partido com mais votos, e depois da do número menor (escolha deste programa).",
  2: "Fase 2 (art. 109, I, II e § 2º): concorrem os partidos com 80% do quociente e um candidato ainda sem vaga com 20%.",
  3: "Fase 3 (art. 109, III): concorrem todos os partidos com votos e um candidato ainda sem vaga, sem nenhum mínimo (escolha deste programa).",
  substitutes:
    "De cada partido ou federação com vaga, os candidatos que não foram eleitos, na ordem em que as vagas são preenchidas (art. 112); " +
    "de uma federação, em uma só ordem (escolha deste programa). Não estão no certificado.",
};

function firstPhase(certificate, contest, names) {
  const rows = certificate.first.map((it) => {
    const bloc = blocOf(contest, it.bloc);
    return [blocName(names, bloc), number(bloc.votes), number(it.quotient), number(it.able), number(it.seats)];
  });
  const seats = (names.cadeiras || {})[contest.code];
  const divided = `Votos válidos: ${number(contest.sums.VALIDOS)}${seats ? `; vagas: ${number(seats)}` : ""}.`;
  return [
    make("p", { class: "quotient" }, "Quociente eleitoral: ", make("strong", {}, number(certificate.quotient)), "."),
    hint(`${divided} ${RULES.quotient}`),
    table(["partido ou federação", "votos válidos", "QP", "aptos", "vagas"], rows, "A primeira fase", "first"),
    hint(RULES.first),
  ];
}

function competing(round) {
  const items = round.averages.map((it) => {
    const said = `${it.bloc}: ${number(it.votes)}/${number(it.divisor)}`;
    return make("li", {}, it.bloc === round.winner ? make("strong", {}, said) : said);
  });
  return make("ul", { class: "averages" }, ...items);
}

// The remaining seats, one after the other, with the averages of those that compete, if a certificate has them.
function rounds(all, contest, names) {
  if (!all.length) {
    return [make("p", {}, contest.vacant ? "Nenhuma sobra foi dada: ninguém concorre." : "Nenhuma vaga sobrou da primeira fase.")];
  }
  const rows = all.map((it) => [it.round, it.phase, competing(it), blocName(names, blocOf(contest, it.winner))]);
  const phases = ["2", "3"].filter((phase) => all.some((it) => it.phase === phase));
  return [
    table(["sobra", "fase", "concorrem", "a vaga vai para"], rows, "As sobras, vaga por vaga", "rounds"),
    ...[RULES.rounds, ...phases.map((it) => RULES[it])].map(hint),
  ];
}

function vacant(count) {
  const some = count === "1" ? "1 vaga fica vazia." : `${number(count)} vagas ficam vazias.`;
  return make("p", { class: "vacancies" }, count === "0" ? "Nenhuma vaga fica vazia." : some);
}

// The reports of a certificate. It may also be made from only some sections.
function scope(sections) {
  const [counted, all] = sections.map(number);
  const which = counted === all ? "os de todas as seções" : `de ${counted} de ${all} seções, e ainda não é o da eleição`;
  return hint(`É sobre os boletins aceitos acima, ${which}. Cada linha se confere à mão, com as que estão antes dela e com as somas; não é uma assinatura.`);
}

// The number of the line that an answer of `verifica` names, from 0; -1 if it names none.
function lineOf(answer, lines) {
  const [, what, which] = /^(?:RECUSADO|ERRO CERTIFICADO) (QUOCIENTE|PRIMEIRA|RODADA|FIM|LINHA)(?: (\d+))?$/.exec(answer) || [];
  const begins = { QUOCIENTE: "QUOCIENTE ", PRIMEIRA: "PARTIDO ", RODADA: "RODADA ", FIM: "VAZIAS ", LINHA: "" }[what];
  const places = [...lines.keys()].filter((at) => what && lines[at].startsWith(begins));
  return places[(which || 1) - 1] ?? -1;
}

// A text with the line marked that the answer names.
function marked(text, answer) {
  const lines = text.split("\n");
  const at = lineOf(answer, lines);
  const before = lines.slice(0, at).map((it) => `${it}\n`);
  const behind = lines.slice(at + 1).map((it) => `\n${it}`);
  return at < 0 ? [text] : [before.join(""), make("mark", {}, lines[at]), behind.join("")];
}

const answered = (answer) => [`${answer.comando}: `, ...told(answer.linhas[0] || "", answer.numero)];

// The certificate that the program made: to check, download and read.
function own(it) {
  const said = make("p", { class: "said", role: "status", "data-resposta": "" });
  const button = make("button", { type: "button", "data-verifica": it.cargo }, "verifica");
  button.addEventListener("click", async () => {
    const found = await ask("verifica", { certificado: it.arquivo }).catch(() => null);
    said.replaceChildren(...(found ? answered(found.resposta) : []));
  });
  const save = make("a", { class: "button", href: `/arquivo/${it.arquivo}`, download: it.arquivo }, `Baixar ${it.arquivo}`);
  const text = make("details", {}, make("summary", {}, "O texto do certificado"), textBlock("O texto do certificado", { "data-texto": it.cargo }, it.texto));
  return [make("div", { class: "row" }, button, save), said, text];
}

// The beginning of a file as text, whatever is in it.
async function textOf(file) {
  const bytes = await file.slice(0, MOST_SHOWN).arrayBuffer().catch(() => new ArrayBuffer(0));
  return `${new TextDecoder().decode(bytes)}${file.size > MOST_SHOWN ? "\n…" : ""}`;
}

// The program's answer about a file, and the file with the line that it names.
async function check(it, file, said, shown) {
  said.replaceChildren(`${file.name}: o programa confere…`);
  const base64 = await encoded(file, MOST.certificate).catch(() => null);
  const found = base64 === null ? null : await ask("verifica", { certificado: it.arquivo, base64 }).catch(() => null);
  const text = await textOf(file);
  const none = file.size > MOST.certificate ? "não é dado ao programa, porque é grande demais para um certificado" : "não foi conferido";
  said.replaceChildren(`${file.name}, ${number(file.size)} bytes: `, ...(found ? answered(found.resposta) : [none]));
  shown.replaceChildren(...marked(text, found?.resposta.linhas[0] || ""));
  shown.hidden = false;
}

// A file that somebody else made, instead of the certificate.
function other(it) {
  const said = make("p", { class: "said", role: "status", "data-resposta": "outro" });
  const shown = textBlock("O texto deste arquivo", { "data-outro": it.cargo, hidden: "" });
  const field = make("input", { type: "file", accept: ".cer", "data-arquivo": it.cargo });
  const take = (files) => (files.length ? check(it, files[0], said, shown) : null);
  field.addEventListener("change", () => take([...field.files]));
  // So that a file that was changed can be chosen once more.
  field.addEventListener("click", () => { field.value = ""; });
  const label = make("label", {}, make("span", {}, "Conferir outro certificado deste cargo, sobre os mesmos boletins"), field);
  const zone = make("div", { class: "drop", "data-solta": it.cargo }, label, make("p", {}, "ou soltar o arquivo aqui"), said, shown);
  dropZone(zone, take);
  return zone;
}

function made(it, contest, names, sections) {
  const certificate = read(it.texto);
  return [scope(sections), ...firstPhase(certificate, contest, names), ...rounds(certificate.rounds, contest, names), vacant(certificate.vacant), ...own(it)];
}

function notMade(it, contest, names) {
  return [make("p", {}, ...answered(it.certifica)), ...(contest.rounds.length ? rounds(contest.rounds, contest, names) : [])];
}

// The substitutes of each bloc, as `certifica` prints them.
function substitutes(it, contest, names) {
  const lists = new Map();
  for (const line of it.certifica.linhas.filter((other) => other.startsWith("SUPLENTE "))) {
    const [, bloc, rank, candidate] = line.split(" ");
    const entry = make("li", { value: rank }, `${candidate} ${candidateName(names, contest.code, candidate)}`.trim());
    lists.set(bloc, [...(lists.get(bloc) || []), entry]);
  }
  const shown = [...lists].map(([bloc, entries]) => {
    const count = entries.length === 1 ? "1 suplente" : `${number(entries.length)} suplentes`;
    return make("details", { "data-bloc": bloc }, make("summary", {}, `${blocName(names, blocOf(contest, bloc))}: ${count}`), make("ol", { class: "substitutes" }, ...entries));
  });
  return [
    make("h4", {}, "Os suplentes"),
    ...(shown.length ? shown : [make("p", {}, "Nenhum: de cada partido com vaga todos os candidatos foram eleitos.")]),
    hint(RULES.substitutes),
  ];
}

// Everything about a proportional office.
export function certified(it, contest, names, sections) {
  const seats = it.texto === null ? notMade(it, contest, names) : made(it, contest, names, sections);
  return [make("h4", {}, "O certificado das vagas"), ...seats, other(it), ...(it.texto === null ? [] : substitutes(it, contest, names))];
}
