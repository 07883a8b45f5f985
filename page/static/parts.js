// Shared by the views: requests, elements, and the words of the field. Everything is inserted as text, never as markup.

export const OFFICES = {
  1: ["Presidente", 2], 3: ["Governador", 2], 5: ["Senador", 3], 6: ["Deputado federal", 4],
  7: ["Deputado estadual", 5], 8: ["Deputado distrital", 5], 11: ["Prefeito", 2], 13: ["Vereador", 5],
};

export const office = (code) => (OFFICES[code] ? OFFICES[code][0] : `Cargo ${code}`);

export const find = (name) => document.getElementById(name);

// The maximum bytes of the page's input files, and of a request, as in the server.
export const MOST = { tables: 4194304, roll: 16384, report: 1048576, certificate: 1048576, asked: 33554432 };

const failure = (why) => {
  find("falha").textContent = why;
  find("falha").hidden = !why;
};

function fail(why) {
  failure(why);
  throw new Error(why);
}

async function answered(path, how) {
  const answer = await fetch(path, how).catch(() => fail("o servidor da página não responde"));
  const told = await answer.json().catch(() => fail("o servidor da página não respondeu até o fim"));
  failure("");
  return answer.ok ? told : fail(told.erro);
}

export const read = (what) => answered(`/api/${what}`);

export async function ask(what, words = {}) {
  const body = JSON.stringify(words);
  if (body.length > MOST.asked) {
    fail("estes arquivos são grandes demais juntos");
  }
  return answered(`/api/${what}`, { method: "POST", headers: { "Content-Type": "application/json" }, body });
}

export function make(kind, attributes = {}, ...inside) {
  const made = kind.startsWith("svg:") ? document.createElementNS("http://www.w3.org/2000/svg", kind.slice(4)) : document.createElement(kind);
  for (const [name, value] of Object.entries(attributes)) {
    made.setAttribute(name, value);
  }
  made.append(...inside.filter((it) => it !== null));
  return made;
}

// Replaces the content of an element by these. Equal content stays, so that a screen reader doesn't repeat it.
export function renew(element, ...inside) {
  const made = make("div", {}, ...inside);
  if (made.innerHTML !== element.innerHTML) {
    element.replaceChildren(...made.childNodes);
  }
}

export const number = (value) => Number(value).toLocaleString("pt-BR");

export const candidateName = (names, code, it) => (names.candidatos || {})[`${code} ${it}`] || "";

// A party or a federation, from the lines of the totals.
export function blocName(names, it) {
  const federation = it.kind === "FEDERACAO";
  const name = (federation ? names.federacoes : names.partidos)?.[it.number] || "";
  return `${federation ? "federação" : "partido"} ${it.number}${name ? ` ${name}` : ""}`;
}

// A moment of 14 digits, or a day of 8, for a reader.
export function moment(digits) {
  const [, year, month, day, hour, minute] = /^(\d{4})(\d\d)(\d\d)(?:(\d\d)(\d\d)\d\d)?$/.exec(digits) || [];
  return year ? `${day}/${month}/${year}${hour ? `, ${hour}h${minute}` : ""}` : digits;
}

// The bytes of a file with at most this many, for a request.
export async function encoded(file, most) {
  if (file.size > most) {
    fail(`${file.name} é grande demais: tem ${number(file.size)} bytes, e são no máximo ${number(most)}`);
  }
  const bytes = new Uint8Array(await file.arrayBuffer().catch(() => fail(`${file.name} não pôde ser lido`)));
  let text = "";
  for (let at = 0; at < bytes.length; at += 32768) {
    text += String.fromCharCode(...bytes.subarray(at, at + 32768));
  }
  return btoa(text);
}

// A text as it is, which can have the keyboard focus so that it can be scrolled.
export const textBlock = (label, attributes, ...inside) => make("pre", { tabindex: "0", role: "group", "aria-label": label, ...attributes }, ...inside);

// A place on which files can be dropped.
export function dropZone(zone, take) {
  zone.addEventListener("dragover", (event) => {
    event.preventDefault();
    zone.classList.add("over");
  });
  zone.addEventListener("dragleave", () => zone.classList.remove("over"));
  zone.addEventListener("drop", (event) => {
    event.preventDefault();
    zone.classList.remove("over");
    take([...event.dataTransfer.files]);
  });
}

export function table(heads, rows, caption, kind = "") {
  const head = make("tr", {}, ...heads.map((it) => make("th", { scope: "col" }, it)));
  const body = rows.map((row) => make("tr", {}, ...row.map((it) => make("td", {}, it))));
  return make("div", { class: "wide" }, make("table", { class: kind }, make("caption", {}, caption), make("thead", {}, head), make("tbody", {}, ...body)));
}
