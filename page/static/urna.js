// The two terminals, and the two flashes.

import { OFFICES, find, make, moment, number, office, renew } from "./parts.js";
import { inWords, ofNumber } from "./words.js";

const KEYS = ["1", "2", "3", "4", "5", "6", "7", "8", "9", "0"];
const COLOURED = [["B", "BRANCO", "branco"], ["R", "CORRIGE", "corrige"], ["C", "CONFIRMA", "confirma"]];
const CLERK = ["LIBERA", "CANCELA", "SUSPENDE"];
const KEYBOARD = { b: "B", B: "B", Backspace: "R", Enter: "C" };

// A line of the program, and its meaning in words.
export function told(line, status) {
  const words = line ? inWords(line) : ofNumber(status);
  return [line ? make("code", {}, line) : "", words ? ` ${words}` : ""];
}

// What both terminals show after the lines of a visit.
export function visitOf(lines) {
  let visit = { at: "nobody" };
  for (const line of lines) {
    const [word, ...rest] = line.split(" ");
    if (word === "ELEITOR") {
      visit = { at: "identified", title: rest[0] };
    } else if (word === "LIBERADO") {
      visit = { ...visit, at: "voting" };
    } else if (word === "VOTO") {
      visit = { ...visit, at: "voting", vote: rest[0], code: rest[2], field: "VAZIA", kind: "", name: "" };
    } else if (word === "TELA") {
      visit = { ...visit, field: rest[0], kind: rest[1] || "", name: rest.slice(2).join(" ") };
    } else if (word === "FIM") {
      visit = { at: "end" };
    } else if (["SUSPENSO", "CANCELADO", "ABERTA", "ENCERRADA"].includes(word)) {
      visit = { at: "nobody" };
    }
  }
  return visit;
}

const KINDS = { CANDIDATO: "", LEGENDA: "VOTO DE LEGENDA", NULO: "VOTO NULO" };

function boxes(digits, length) {
  const found = [];
  for (let at = 0; at < Math.max(length, digits.length); at += 1) {
    found.push(make("span", { class: at === digits.length ? "digit next" : "digit" }, digits[at] || " "));
  }
  const spoken = digits ? `número ${digits.split("").join(" ")}` : "nenhum número";
  return make("p", { class: "digits" }, make("span", { class: "spoken" }, spoken), make("span", { "aria-hidden": "true" }, ...found));
}

function labelled(label, value) {
  return value ? make("p", { class: "labelled" }, make("span", {}, `${label}: `), make("strong", {}, value)) : null;
}

// What a vote will count as, if CONFIRMA would accept it.
function countsAs(visit) {
  return visit.field === "BRANCO" ? "VOTO EM BRANCO" : KINDS[visit.kind] || "";
}

// Whether the voter's last key failed.
const hasFailed = ({ mesario }) => Boolean(mesario && mesario.tecla === null);

function voting(visit, names, failed) {
  const typed = /^\d+$/.test(visit.field) ? visit.field : "";
  const parties = names.partidos || {};
  const isNamed = ["CANDIDATO", "LEGENDA"].includes(visit.kind);
  const confirmable = visit.field === "BRANCO" || visit.kind;
  return [
    make("p", { class: "small" }, "SEU VOTO PARA"),
    make("p", { class: "office" }, `${office(visit.code)}${visit.code === "5" ? ` · ${visit.vote}º voto da cédula` : ""}`),
    visit.field === "BRANCO" ? null : boxes(typed, (OFFICES[visit.code] || ["", 2])[1]),
    labelled("Nome", visit.kind === "CANDIDATO" ? visit.name : ""),
    labelled("Partido", isNamed ? parties[typed.slice(0, 2)] || (visit.kind === "LEGENDA" ? visit.name : "") : ""),
    countsAs(visit) ? make("p", { class: "counts" }, countsAs(visit)) : null,
    failed ? make("p", { class: "counts" }, "Chame o mesário") : null,
    confirmable && !failed ? make("p", { class: "foot" }, "Aperte CONFIRMA para confirmar este voto, ou CORRIGE para reiniciá-lo") : null,
  ];
}

function screen(page) {
  const visit = visitOf(page.state.visita || []);
  const says = (...lines) => lines.map((it) => make("p", { class: "wait" }, it));
  if (!page.state.carregada) {
    return ["none", says("A urna não foi carregada")];
  }
  if (!page.state.ligada) {
    return ["off", [make("p", { class: "spoken" }, "sem energia")]];
  }
  if (visit.at === "end") {
    return ["end", [make("p", { class: "fim" }, "FIM"), make("p", { class: "small" }, "VOTOU")]];
  }
  if (visit.at === "voting" && visit.code) {
    return ["voting", voting(visit, page.names, hasFailed(page.state))];
  }
  if (hasFailed(page.state)) {
    return ["wait", says("Chame o mesário")];
  }
  const line = page.state.inicio.linhas[0] || "";
  return ["wait", says(visit.at === "identified" ? "Eleitor identificado" : "Aguarde o mesário", inWords(line))];
}

const STEPS = {
  nobody: "Um título da lista de eleitores, e TITULO.",
  identified: "LIBERA chama o primeiro voto; CANCELA desfaz a identificação.",
  voting: "O eleitor vota. SUSPENDE, se ele vai embora antes de acabar.",
  end: "O voto está guardado. O próximo: um título da lista de eleitores, e TITULO; ou ENCERRA.",
};

function step(state) {
  if (!state.carregada) {
    return "Falta carregar a urna.";
  }
  if (!state.ligada) {
    const { linhas, numero } = state.recusada || {};
    return state.recusada ? `A urna não ligou: ${linhas[0] || ofNumber(numero)}. Parar, e chamar quem cuida do computador.` : "A urna está desligada: 2. Tirar da tomada, Ligar.";
  }
  const line = state.inicio.linhas[0] || "";
  if (line.startsWith("URNA PRONTA")) {
    return "Primeiro ABRE, com o momento da abertura.";
  }
  return line.startsWith("URNA LACRADA") ? "Lacrada: o boletim está em 3. Boletim." : STEPS[visitOf(state.visita).at];
}

// Count lines are long, and have a view of their own.
function reply(clerk) {
  if (!clerk) {
    return [];
  }
  const lines = clerk.linhas.filter((it) => !/^(ZERESIMA|BOLETIM|CARGO|VOTO|BRANCO|NULO|TOTAL|\d+) ?/.test(it));
  // A number that no line tells is told after the lines.
  const shown = lines.length && (clerk.numero === 0 || lines.some((it) => it.startsWith("ERRO "))) ? lines : [...lines, ""];
  const pressed = clerk.tecla ? clerk.tecla.slice(2) : "uma tecla do eleitor falhou";
  return [make("p", { class: "pressed" }, pressed), ...shown.map((it) => make("p", {}, ...told(it, clerk.numero)))];
}

function gate(it) {
  const where = `porta no byte ${number(it.lugar)}: `;
  return it.byte ? make("li", {}, where, make("code", {}, it.byte), it.byte === "A5" ? " aberta" : " fechada") : make("li", {}, `${where}o arquivo é curto, e não a tem`);
}

export function memory(it) {
  return make(
    "div",
    { class: it.numero === 0 ? "flash" : "flash bad", "data-memoria": it.nome },
    make("h3", {}, it.nome === "interna" ? "Interna" : "Externa"),
    make("p", {}, "sozinha guarda: ", ...told(it.linha, it.numero)),
    make("ul", {}, ...it.portas.map(gate)),
  );
}

export function show(page) {
  const [kind, inside] = screen(page);
  find("tela").className = `screen ${kind}`;
  renew(find("tela"), ...inside);
  renew(find("passo"), step(page.state));
  renew(find("resposta"), ...(page.waiting === "tecla" ? [make("p", {}, "aguarde...")] : reply(page.state.mesario)));
  renew(find("memorias"), ...(page.state.memorias || []).map(memory));
  renew(find("linhas"), (page.state.visita || []).join("\n"));
  const isOff = !page.state.carregada || !page.state.ligada;
  for (const it of document.querySelectorAll(".machine button")) {
    it.disabled = isOff;
  }
}

// The names of another election.
export function name(page) {
  const day = String(page.names.data || "20261004");
  const [opening, closing] = find("momentos").querySelectorAll("input");
  opening.value = `${day}080000`;
  closing.value = `${day}170000`;
  find("titulo").elements.titulo.value = "";
  find("titulos").replaceChildren(...page.titles.map((it) => make("option", { value: it })));
}

function key(label, press, kind) {
  return make("button", { type: "button", "data-press": press, class: `key ${kind}` }, label);
}

// The question before a key that nothing undoes.
const asked = (word, digits) => (word === "ABRE" ? `Abrir em ${moment(digits)}? Este momento não se corrige mais.` : `Encerrar em ${moment(digits)}? Ninguém mais vota.`);

// A title that is written replaces the one before it.
function selectsAll(field) {
  let isEntered = false;
  field.addEventListener("focus", () => {
    isEntered = true;
    field.select();
  });
  // The click that enters the field would set the caret.
  field.addEventListener("click", () => {
    if (isEntered) {
      field.select();
    }
    isEntered = false;
  });
}

export function start(page, change, once) {
  const field = find("titulo").elements.titulo;
  // After FIM the field is empty, so that the next voter isn't called by this title.
  const leave = (answer) => {
    if (answer && answer.linhas.includes("FIM")) {
      field.value = "";
    }
  };
  // The voter's keys wait for each other, and none is lost; a second key of the clerk isn't taken while one is under way.
  const vote = async (it) => leave(await change("tecla", { tecla: `E ${it}` }));
  const press = async (line) => leave(await once("tecla", { tecla: line }));
  find("teclado").append(...KEYS.map((it) => key(it, it, it === "0" ? "digitkey zero" : "digitkey")));
  find("teclado").append(...COLOURED.map(([it, label, kind]) => key(label, it, kind)));
  find("teclado").addEventListener("click", (event) => {
    const pressed = event.target.closest("[data-press]");
    if (pressed) {
      vote(pressed.dataset.press);
      // After a click of the mouse the whole terminal keeps the keyboard focus.
      if (event.detail > 0) {
        find("terminal").focus({ preventScroll: true });
      }
    }
  });
  document.addEventListener("keydown", (event) => {
    const isShown = ["urna", "tomada"].includes(document.body.dataset.view);
    const own = event.target === document.body || find("terminal").contains(event.target);
    const onButton = event.target.tagName === "BUTTON" && event.key === "Enter";
    const meant = /^\d$/.test(event.key) ? event.key : KEYBOARD[event.key];
    const isPress = isShown && own && meant && !event.ctrlKey && !event.altKey && !event.metaKey;
    if (isPress && event.repeat) {
      // A key that is held down is one press.
      event.preventDefault();
    } else if (isPress && !onButton) {
      event.preventDefault();
      vote(meant);
    }
  });
  find("mesario").append(...CLERK.map((it) => make("button", { type: "button", value: it }, it)));
  find("mesario").addEventListener("click", (event) => event.target.value && press(`M ${event.target.value}`));
  selectsAll(field);
  find("titulo").addEventListener("submit", (event) => {
    event.preventDefault();
    press(`M TITULO ${field.value.replace(/\D/g, "")}`);
  });
  find("momentos").addEventListener("submit", (event) => {
    event.preventDefault();
    const [word, digits] = [event.target.dataset.palavra, event.target.elements.momento.value];
    if (window.confirm(asked(word, digits))) {
      press(`M ${word} ${digits}`);
    }
  });
}
