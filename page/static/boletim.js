// The zero report and the report as they are printed, the two files, and the program's answers about them. After the seal the report is the
// paper that the server makes from its file, with the codes; if it can't, the counts as the program showed them.

import { ask, find, make, moment, number, office, renew } from "./parts.js";
import { told } from "./urna.js";

const TITLES = { ZERESIMA: "ZERÉSIMA", BOLETIM: "BOLETIM DE URNA" };

const NOT_YET = "A urna ainda não foi aberta, nem lacrada: não há o que imprimir.";
const LOST = "A urna está aberta; a zerésima se perdeu na queda de energia, e não aparece outra vez.";

const isOpen = (state) => Boolean(state.carregada) && (state.inicio.linhas[0] || "").startsWith("URNA ABERTA");

// A count line, with the name from the tables for its number.
function counted(line, code, names) {
  const [what, count] = line.split(" ");
  const name = (names.candidatos || {})[`${code} ${what}`] || (what.length === 2 ? (names.partidos || {})[what] : "") || "";
  const left = name ? `${what} ${name}` : what;
  return make("p", { class: what === "TOTAL" ? "count total" : "count" }, make("span", {}, left), make("span", {}, number(count)));
}

function printed(line, code, names) {
  if (TITLES[line]) {
    return make("h3", {}, TITLES[line]);
  }
  const [word, value, more] = line.split(" ");
  if (word === "CARGO") {
    return make("h4", {}, office(value));
  }
  if (word === "ABERTA") {
    return make("p", {}, `Aberta em ${moment(value)}`);
  }
  return word === "ENCERRADA" ? make("p", {}, `Encerrada em ${moment(value)}. Compareceram ${number(more)}`) : counted(line, code, names);
}

// The section of the paper: that of the load.
function section(state) {
  const [, zone, place, voters] = state.carga.linhas[0].split(" ");
  return make("p", {}, `Zona ${zone}, seção ${place}, ${number(voters)} eleitores`);
}

// One column of paper, and a button that prints only this column.
function paper(kind, lines, page) {
  const names = page.names;
  let code = "";
  const inside = lines.map((line) => {
    code = line.startsWith("CARGO ") ? line.split(" ")[1] : code;
    return printed(line, code, names);
  });
  const print = make("button", { type: "button" }, "Imprimir");
  print.addEventListener("click", () => {
    document.body.dataset.print = kind;
    window.print();
  });
  inside.splice(1, 0, section(page.state));
  return make("div", { class: "sheet" }, print, make("article", { class: "paper", "data-paper": kind, tabindex: "0", "aria-label": kind === "zeresima" ? "Zerésima" : "Boletim de urna" }, ...inside));
}

const frame = () => find("papel").querySelector("iframe");

// The paper of the sealed poll, requested once.
async function showPaper(page) {
  const answer = await fetch("/papel").catch(() => null);
  find("sem-papel").textContent = answer?.ok ? "" : `Sem o papel com os códigos: ${(await answer?.json().catch(() => null))?.erro || "o servidor não responde"}`;
  page.paper = answer?.ok ? "made" : "none";
  if (answer?.ok) {
    frame().src = "/papel";
  }
  show(page);
}

export function show(page) {
  const state = page.state;
  const [zero, count] = [state.zeresima || [], state.contagem || []];
  const papers = [];
  if (zero.length) {
    papers.push(paper("zeresima", zero, page));
  }
  if (count.length && page.paper !== "made") {
    papers.push(paper("boletim", [...count.slice(1, 2), count[0], ...count.slice(2)], page));
  }
  renew(find("papeis"), ...papers);
  find("papel").hidden = !state.lacrada || page.paper !== "made";
  find("sem-boletim").textContent = isOpen(state) ? LOST : NOT_YET;
  find("sem-boletim").hidden = papers.length > 0 || Boolean(state.lacrada);
  find("resultados").hidden = !state.lacrada;
  find("texto-boletim").hidden = !state.lacrada;
  if (!state.lacrada) {
    find("conferido").replaceChildren();
    find("sem-papel").textContent = "";
    find("texto-boletim").open = false;
    frame().removeAttribute("src");
    page.paper = "";
  } else if (!page.paper) {
    page.paper = "asked";
    showPaper(page);
  }
}

export function start() {
  for (const command of ["confere", "reconta"]) {
    find(command).addEventListener("click", async () => {
      const { resposta } = await ask(command);
      const answers = resposta.linhas.length ? resposta.linhas : [""];
      find("conferido").replaceChildren(`${resposta.comando}: `, ...answers.flatMap((it) => told(it, resposta.numero)));
    });
  }
  find("imprime").addEventListener("click", () => frame().contentWindow.print());
  find("texto-boletim").addEventListener("toggle", async () => {
    if (find("texto-boletim").open) {
      find("texto").textContent = await (await fetch("/arquivo/urna.bu")).text();
    }
  });
  addEventListener("afterprint", () => delete document.body.dataset.print);
}
