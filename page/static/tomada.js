// The power pulled inside a commit, and a lost flash.

import { find, make, number, renew } from "./parts.js";
import { told } from "./urna.js";

const DONE = { grava: "gravação", sincroniza: "sincronização", mostra: "linha mostrada" };

function inside(it) {
  if (it.faz === "mostra") {
    return `a tela mostra ${it.texto}`;
  }
  const bytes = it.bytes === 1 ? "1 byte" : `${number(it.bytes)} bytes`;
  return it.faz === "sincroniza" ? `sincroniza a ${it.onde}` : `grava ${bytes} na ${it.onde}, a partir do byte ${number(it.lugar)}`;
}

function whereStopped(cut) {
  const it = cut.operacoes[cut.parou - 1];
  const how = { grava: "só a primeira metade entrou", sincroniza: "a energia caiu logo depois", mostra: "só a primeira metade apareceu" }[it.faz];
  return `Parou na operação ${cut.parou} de ${cut.operacoes.length}: ${inside(it)}; ${it.bytes === 1 ? "o byte não entrou" : how}.`;
}

// The operations of the commit in a row, with the one at which the power went.
function strip(cut) {
  const cells = cut.operacoes.map((it, at) => {
    const when = at + 1 < cut.parou ? "done" : at + 1 === cut.parou ? "torn" : "not";
    return make("li", { class: `${when} ${it.onde} ${it.faz}`, title: `${at + 1}: ${DONE[it.faz]}: ${inside(it)}` }, String(at + 1));
  });
  return make("ol", { class: "strip", "aria-hidden": "true" }, ...cells);
}

function comesAgain(cut) {
  if (!cut.volta) {
    return null;
  }
  const counted = cut.volta === "RECUSA 5";
  const words = counted ? "o voto já está contado, uma vez: este eleitor não vota de novo" : "o voto não foi contado: este eleitor é identificado outra vez, e vota do começo";
  return make("li", { class: counted ? "counted" : "again" }, `Se o título ${cut.titulo} for identificado outra vez (falta apertar TITULO), a resposta será: `, make("code", {}, cut.volta), ` ${words}.`);
}

function started(cut) {
  return cut.inicio ? make("li", {}, "Ao ligar: ", ...told(cut.inicio.linhas[0] || "", cut.inicio.numero)) : null;
}

function report(page) {
  const cut = page.state.corte;
  if (!cut) {
    return [];
  }
  const lines = cut.linhas.map((it) => make("code", { class: "line" }, it));
  const shown = make("li", {}, "Desta tecla a tela tinha mostrado: ", ...(lines.length ? lines : ["nada"]));
  return [make("h3", {}, "A queda"), strip(cut), make("p", {}, whereStopped(cut)), make("ul", { class: "after" }, shown, ...held(cut), started(cut), comesAgain(cut))];
}

function held(cut) {
  return cut.memorias.map((it) => make("li", {}, `Na queda, a ${it.nome} sozinha: `, ...told(it.linha, it.numero)));
}

// The line with which the machine started, or with which it did not.
function supplied(state) {
  if (state.ligada) {
    return ["Ligada: ", ...told(state.inicio.linhas[0] || "", state.inicio.numero), "."];
  }
  return state.recusada ? ["A urna não ligou: ", ...told(state.recusada.linhas[0] || "", state.recusada.numero), "."] : ["Desligada."];
}

function power(state) {
  if (!state.carregada) {
    return ["A urna não foi carregada."];
  }
  if (state.armada) {
    const where = state.armada.operacao ? `na operação ${state.armada.operacao}` : "em uma operação sorteada";
    return [`A próxima gravação vai ser parada ${where}: agora apertar a tecla que grava: o último CONFIRMA de um eleitor, ABRE ou ENCERRA.`];
  }
  const lacking = state.preparada ? "" : " Sem compilador de C (cc) o programa não pode ser parado no meio de uma gravação.";
  return [...supplied(state), lacking];
}

// The operations to choose from: as many as the last commit had, or as a commit usually has.
function choices(state) {
  const count = state.corte ? state.corte.operacoes.length : 29;
  const field = find("qual");
  if (field.options.length !== count + 1) {
    const chosen = field.value;
    const options = Array.from({ length: count }, (_, at) => make("option", { value: String(at + 1) }, String(at + 1)));
    field.replaceChildren(make("option", { value: "" }, "sorteada"), ...options);
    field.value = Number(chosen) <= count ? chosen : "";
  }
}

// Whether the machine had power when it was last shown; the answer about a flash is from before a change of it.
let wasOn = false;

export function show(page) {
  const state = page.state;
  const isOn = Boolean(state.carregada && state.ligada);
  renew(find("energia"), ...(["", "tecla"].includes(page.waiting) ? power(state) : ["aguarde..."]));
  if (wasOn !== isOn) {
    wasOn = isOn;
    find("reposta").replaceChildren();
  }
  find("energia").className = !state.carregada || state.ligada ? (state.armada ? "power armed" : "power on") : "power off";
  choices(state);
  find("arma").textContent = state.armada ? "Não tirar da tomada" : "Tirar da tomada na próxima gravação";
  find("arma").disabled = !isOn || !state.preparada;
  find("desliga").disabled = !isOn;
  find("liga").disabled = !state.carregada || isOn;
  for (const it of find("trocas").querySelectorAll("button")) {
    it.disabled = !state.carregada || isOn;
  }
  renew(find("corte"), ...report(page));
}

export function start(page, change, once) {
  const tell = (answer) => answer && find("reposta").replaceChildren(...told(answer.resposta.linhas[0] || "", answer.resposta.numero));
  find("arma").addEventListener("click", () => {
    const chosen = find("qual").value;
    return page.state.armada ? once("desarma") : once("arma", { operacao: chosen ? Number(chosen) : null });
  });
  find("desliga").addEventListener("click", () => once("desliga"));
  find("liga").addEventListener("click", () => {
    find("reposta").replaceChildren();
    return once("liga");
  });
  for (const word of ["interna", "externa"]) {
    const exchange = make("button", { type: "button", "data-troca": word }, `Pôr uma em branco no lugar da ${word}`);
    exchange.addEventListener("click", async () => {
      if (window.confirm(`Pôr uma memória em branco no lugar da ${word}? O que a ${word} guarda se perde.`)) {
        const answer = await once("troca", { memoria: word });
        find("reposta").textContent = answer ? `a ${word} é agora uma memória em branco` : "";
      }
    });
    const reload = make("button", { type: "button", "data-repoe": word }, `repoe ${word}`);
    reload.addEventListener("click", async () => tell(await once("repoe", { memoria: word })));
    find("trocas").append(exchange, reload);
  }
}
