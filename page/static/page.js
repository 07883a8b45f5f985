// The page: its views, and the state of the session, which every view shows after each request.

import { MOST, ask, encoded, find, read } from "./parts.js";
import * as boletim from "./boletim.js";
import * as tomada from "./tomada.js";
import * as totais from "./totais.js";
import * as urna from "./urna.js";

const VIEWS = ["urna", "tomada", "boletim", "totais"];
const page = { state: { carregada: false }, names: {}, titles: [], waiting: "" };
// The buttons of the clerk and of the power.
const PRESSED = ".clerk button, [data-views=tomada] button";

function show(state) {
  page.state = state;
  for (const view of [urna, tomada, boletim]) {
    view.show(page);
  }
  // They keep the keyboard focus, which a disabled button loses.
  for (const it of document.querySelectorAll(PRESSED)) {
    it.setAttribute("aria-disabled", String(Boolean(page.waiting)));
  }
}

// One request after the other, in the order of the user's actions.
let last = Promise.resolve();
function change(what, words) {
  last = last.then(() => ask(what, words)).then((told) => (show(told), told)).catch(() => null);
  return last;
}

// One press of the clerk or of the power at a time: while it is under way, a second one isn't taken.
async function once(what, words) {
  if (page.waiting) {
    return null;
  }
  page.waiting = what;
  show(page.state);
  const told = await change(what, words);
  page.waiting = "";
  show(page.state);
  return told;
}

function go() {
  const asked = location.hash.slice(1);
  // Any other anchor, such as the target of the page's first link, is inside the current view.
  const view = VIEWS.includes(asked) ? asked : document.body.dataset.view;
  document.body.dataset.view = view;
  for (const it of document.querySelectorAll("[data-views]")) {
    it.hidden = !it.dataset.views.split(" ").includes(view);
  }
  for (const it of document.querySelectorAll("nav a")) {
    it.setAttribute("aria-current", it.hash === `#${view}` ? "page" : "false");
  }
}

function named(told) {
  page.names = told.nomes;
  page.titles = told.titulos;
  urna.name(page);
}

function loaded(answer) {
  find("carga").replaceChildren(...urna.told(answer.linhas[0] || "", answer.numero));
}

async function begin(words) {
  const told = await change("comeca", words);
  if (told) {
    named(told);
    show(told);
    loaded(told.carga);
  }
}

async function beginOwn(form) {
  const [tables, roll] = [form.elements.tabelas.files[0], form.elements.rol.files[0]];
  if (!tables || !roll) {
    find("carga").textContent = "faltam os arquivos das tabelas e da lista de eleitores";
    return;
  }
  const [zone, section] = [form.elements.zona.value, form.elements.secao.value].map(Number);
  const files = await Promise.all([encoded(tables, MOST.tables), encoded(roll, MOST.roll)]).catch(() => null);
  if (files) {
    await begin({ tabelas: files[0], rol: files[1], zona: zone, secao: section });
  }
}

find("comeca").addEventListener("submit", (event) => {
  event.preventDefault();
  const choice = event.target.elements.exemplo.value;
  return choice === "propria" ? beginOwn(event.target) : begin({ exemplo: choice });
});
find("comeca").elements.exemplo.addEventListener("change", (event) => {
  find("comeca").querySelector(".own").hidden = event.target.value !== "propria";
});
addEventListener("hashchange", go);
go();
for (const view of [urna, tomada, boletim, totais]) {
  view.start(page, change, once);
}

const state = await read("estado");
if (state.carregada) {
  named(await read("eleicao"));
  show(state);
  loaded(state.carga);
} else {
  await begin({ exemplo: "dia" });
}
document.body.dataset.ready = "yes";
