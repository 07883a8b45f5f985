// The totals of reports: the verdicts, the votes and the seats, all from the lines of `totaliza`.

import { certified } from "./certificado.js";
import { bars, halfCircle } from "./drawing.js";
import { MOST, ask, blocName, candidateName, dropZone, encoded, find, make, number, office, table, textBlock } from "./parts.js";
import { inWords, ofNumber } from "./words.js";

const pairs = (words) => Object.fromEntries(words.flatMap((it, at) => (at % 2 ? [] : [[it, words[at + 1]]])));

// The lines parsed into the verdicts, the number of sections, and one contest for each office.
export function read(lines) {
  const totals = { verdicts: [], sections: null, contests: [], faults: [] };
  let contest = null;
  for (const line of lines) {
    const [word, ...rest] = line.split(" ");
    if (/^\d+$/.test(word)) {
      totals.verdicts.push(rest.join(" "));
    } else if (word === "SECOES") {
      totals.sections = [rest[0], rest[2]];
    } else if (word === "CARGO") {
      contest = { code: rest[0], sums: pairs(rest.slice(1)), candidates: [], blocs: [], rounds: [], elected: [], told: [], quotient: null, vacant: 0 };
      totals.contests.push(contest);
    } else if (word === "ERRO" || !contest) {
      totals.faults.push(line);
    } else {
      take(contest, word, rest, line);
    }
  }
  return totals;
}

function take(contest, word, rest, line) {
  if (word === "CANDIDATO") {
    contest.candidates.push({ number: rest[0], votes: Number(rest[2]) });
  } else if (word === "PARTIDO" || word === "FEDERACAO") {
    const [bloc, , votes, , quotient, , seats] = rest;
    contest.blocs.push({ kind: word, number: bloc, votes: Number(votes), quotient, seats: Number(seats) });
  } else if (word === "SOBRA") {
    contest.rounds.push({ round: rest[0], phase: rest[2], winner: rest[4], averages: [] });
  } else if (word === "ELEITO") {
    contest.elected.push({ number: rest[0], votes: rest[2] });
  } else if (word === "QUOCIENTE" && rest.length === 1) {
    contest.quotient = rest[0];
  } else if (word === "VAGAS") {
    contest.vacant = Number(rest[1]);
  } else {
    contest.told.push(line);
  }
}

function verdicts(totals, files) {
  const rows = totals.verdicts.map((it, at) => [String(at + 1), files[at] || "", make("code", {}, it), inWords(it)]);
  return rows.length ? table(["linha", "arquivo", "veredito", "em palavras"], rows, "Os boletins") : make("p", {}, "Nenhum boletim foi lido.");
}

function votes(contest, names) {
  const rows = contest.candidates.filter((it) => it.votes > 0).map((it) => ({
    label: `${it.number} ${candidateName(names, contest.code, it.number)}`,
    value: it.votes,
    marked: contest.elected.some((other) => other.number === it.number),
  }));
  const none = contest.candidates.length - rows.length;
  const foot = none ? make("p", { class: "hint" }, none === 1 ? "1 candidato sem voto nominal." : `${number(none)} candidatos sem voto nominal.`) : null;
  return [make("h4", {}, "Votos por candidato"), bars(rows, "Votos por candidato; os eleitos estão marcados"), foot];
}

function seats(contest, names) {
  if (!contest.blocs.length) {
    return [];
  }
  const shown = contest.blocs.filter((it) => it.votes > 0 || it.seats > 0);
  const rows = shown.map((it) => [blocName(names, it), number(it.votes), it.quotient, number(it.seats)]);
  const groups = shown.map((it) => ({ label: blocName(names, it), number: it.number, seats: it.seats }));
  return [
    make("h4", {}, "Votos por partido"),
    bars(shown.map((it) => ({ label: blocName(names, it), value: it.votes, marked: it.seats > 0 })), "Votos por partido; os que têm vagas estão marcados"),
    make("h4", {}, "As vagas"),
    halfCircle(groups, contest.vacant),
    table(["partido ou federação", "votos", "quociente partidário", "vagas"], rows, `Quociente eleitoral: ${contest.quotient}`),
  ];
}

const TOLD = [
  [/^SEGUNDO TURNO (\d+) (\d+)$/, (name, a, b) => `segundo turno, entre ${name(a)} e ${name(b)}`],
  [/^NINGUEM$/, () => "ninguém tem votos"],
  [/^SEM QUOCIENTE (\d+) (\d+)$/, (name, v, s) => `com ${v} votos válidos para ${s} vagas não há quociente, e nenhuma vaga é dada`],
  [/^QUOCIENTE EXCEDIDO (\d+) (\d+)$/, (name, f, s) => `a primeira fase daria ${f} vagas, e só há ${s}: nenhuma é dada`],
];

function outcome(contest, names) {
  const name = (it) => `${it} ${candidateName(names, contest.code, it)}`.trim();
  const elected = contest.elected.map((it) => make("li", {}, `${name(it.number)}${it.votes ? `, ${number(it.votes)} votos` : ""}`));
  const told = contest.told.map((line) => {
    const found = TOLD.map(([form, say]) => [form.exec(line), say]).find(([match]) => match);
    return make("p", {}, make("code", {}, line), found ? ` ${found[1](name, ...found[0].slice(1))}` : "");
  });
  return [...(elected.length ? [make("h4", {}, "Eleitos"), make("ul", {}, ...elected)] : []), ...told];
}

function sums(contest) {
  const said = { VALIDOS: "válidos", NOMINAIS: "nominais", LEGENDA: "de legenda", BRANCOS: "brancos", NULOS: "nulos", TOTAL: "ao todo" };
  const cells = Object.entries(said).map(([word, label]) => make("div", {}, make("dt", {}, label), make("dd", {}, number(contest.sums[word]))));
  return make("dl", { class: "sums" }, ...cells);
}

function contestOf(contest, told, sections) {
  const names = told.nomes;
  const certificate = told.certificados.find((it) => it.cargo === contest.code);
  const certificates = certificate ? certified(certificate, contest, names, sections) : [];
  const parts = [sums(contest), ...outcome(contest, names), ...seats(contest, names), ...certificates, ...votes(contest, names)];
  return make("section", { class: "contest", "data-cargo": contest.code }, make("h3", {}, office(contest.code)), ...parts);
}

// The lines of a command as it showed them.
function linesOf(answer) {
  const summary = make("summary", {}, `As linhas de ${answer.comando}, que terminou com ${answer.numero}`);
  return make("details", {}, summary, textBlock(`As linhas de ${answer.comando}`, {}, answer.linhas.join("\n")));
}

function show(told) {
  const totals = read(told.totaliza.linhas);
  const faults = totals.faults.map((it) => make("p", { class: "bad" }, make("code", {}, it), ` ${inWords(it)}`));
  const counted = totals.sections ? `Estão na soma ${number(totals.sections[0])} de ${number(totals.sections[1])} seções.` : "";
  const silent = told.totaliza.linhas.length ? [] : [make("p", { class: "bad" }, ofNumber(told.totaliza.numero))];
  const contests = totals.contests.map((it) => contestOf(it, told, totals.sections));
  const lines = [told.totaliza, ...told.certificados.map((it) => it.certifica)].map(linesOf);
  find("totalizado").replaceChildren(verdicts(totals, told.arquivos), ...faults, ...silent, make("p", {}, counted), ...contests, ...lines);
  find("somado").textContent = "O programa terminou: os totais estão abaixo.";
}

async function asked(words) {
  find("somado").textContent = "O programa soma os boletins…";
  const told = await ask("totais", words).catch(() => null);
  if (told) {
    show(told);
  } else {
    find("somado").textContent = "Nada foi somado.";
  }
}

const chosen = [];

function choose(files) {
  chosen.splice(0, chosen.length, ...files);
  find("escolhidos").replaceChildren(...chosen.map((it) => make("li", {}, `${it.name}, ${number(it.size)} bytes`)));
}

async function given(page) {
  const files = [...chosen];
  if (find("soma").elements.desta.checked && page.state.lacrada) {
    files.push(new File([await (await fetch("/arquivo/urna.bu")).blob()], "urna.bu"));
  }
  const tables = files.find((it) => it.name.endsWith(".toml"));
  const reports = files.filter((it) => it !== tables);
  const boletins = await Promise.all(reports.map(async (it) => ({ nome: it.name, base64: await encoded(it, MOST.report) })));
  return { tabelas: tables ? await encoded(tables, MOST.tables) : null, boletins };
}

async function total(page) {
  const words = await given(page).catch(() => null);
  return words ? asked(words) : null;
}

// In this view, files dropped beside a place for them are reports; they are never opened instead of the page.
function dropBeside() {
  const hasFiles = (event) => !event.defaultPrevented && event.dataTransfer?.types.includes("Files");
  document.addEventListener("dragover", (event) => hasFiles(event) && event.preventDefault());
  document.addEventListener("drop", (event) => {
    if (hasFiles(event)) {
      event.preventDefault();
      if (document.body.dataset.view === "totais") {
        choose(event.dataTransfer.files);
      }
    }
  });
}

export function start(page) {
  find("exemplos").addEventListener("click", (event) => event.target.value && asked({ exemplo: event.target.value }));
  find("soma").elements.arquivos.addEventListener("change", (event) => choose(event.target.files));
  find("soma").addEventListener("submit", (event) => {
    event.preventDefault();
    return total(page);
  });
  dropZone(find("solta"), choose);
  dropBeside();
}
