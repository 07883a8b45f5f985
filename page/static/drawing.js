// Pictures in SVG, each with its numbers as text for those who can't see it.

import { make, number } from "./parts.js";

const COLOURS = ["#1f5fa8", "#c0392b", "#2e7d32", "#8e5bb5", "#d98200", "#00838f", "#a23b72", "#5d6d1e", "#5c4033", "#37474f"];
const WIDTH = 420, ROW = 42, FOR_NUMBER = 60;

// One row for each label, its bar in proportion to the greatest value.
export function bars(rows, title) {
  const most = Math.max(1, ...rows.map((it) => it.value));
  const drawn = rows.flatMap((it, at) => {
    const length = ((WIDTH - FOR_NUMBER) * it.value) / most;
    const y = at * ROW;
    return [
      make("svg:text", { x: 0, y: y + 15, class: "label" }, cut(it.label)),
      make("svg:rect", { x: 0, y: y + 20, width: Math.max(1, length), height: 15, class: it.marked ? "bar marked" : "bar" }),
      make("svg:text", { x: length + 6, y: y + 33, class: "label" }, number(it.value)),
    ];
  });
  const said = rows.map((it) => `${it.label}: ${it.value}`).join("; ");
  return make("svg:svg", { viewBox: `0 0 ${WIDTH} ${Math.max(1, rows.length) * ROW}`, class: "bars", role: "img" }, make("svg:title", {}, title), make("svg:desc", {}, said), ...drawn);
}

const cut = (label) => (label.length > 46 ? `${label.slice(0, 45)}…` : label);

// The distance of each row of a half-circle from the middle, and the size of a seat, for this number of rows.
function rowsOf(count, rows, outer) {
  const step = rows === 1 ? outer : (outer * 0.6) / (rows - 1);
  const radii = Array.from({ length: rows }, (_, at) => outer - at * step);
  const length = Math.PI * radii.reduce((sum, it) => sum + it, 0);
  return { radii, size: 0.45 * Math.min(58, step, length / Math.max(1, count - rows)) };
}

// The places of seats in a half-circle, from left to right, in the number of rows that makes them largest.
function places(count) {
  const outer = Math.min(260, Math.max(60, count * 22));
  const tried = Array.from({ length: 10 }, (_, at) => rowsOf(count, at + 1, outer));
  const { radii, size } = tried.reduce((best, it) => (it.size > best.size ? it : best));
  const all = radii.reduce((sum, it) => sum + it, 0);
  let left = count;
  const seats = radii.flatMap((radius, at) => {
    const here = at === radii.length - 1 ? left : Math.min(left, Math.round((count * radius) / all));
    left -= here;
    return Array.from({ length: here }, (_, it) => ({ radius, turn: here === 1 ? 0.5 : it / (here - 1) }));
  });
  return { seats: seats.sort((one, other) => one.turn - other.turn || other.radius - one.radius), size, outer };
}

// The colours of the parties, and how many seats each has.
function legend(entries) {
  const items = entries.map((it) => {
    const kind = it.colour ? { class: "seat", fill: it.colour } : { class: "seat vacant" };
    const sample = make("svg:svg", { viewBox: "0 0 16 16", width: 16, height: 16, "aria-hidden": "true" }, make("svg:rect", { x: 1, y: 1, width: 14, height: 14, rx: 4, ...kind }));
    return make("li", {}, sample, ` ${it.label}: ${it.seats}`);
  });
  return make("ul", { class: "legend" }, ...items);
}

// A seat at its place, with the number of its party.
function seat(place, owner, size) {
  const angle = Math.PI * (1 - place.turn);
  const [x, y] = [place.radius * Math.cos(angle), -place.radius * Math.sin(angle)];
  if (!owner) {
    return [make("svg:circle", { cx: x, cy: y, r: size, class: "seat vacant" })];
  }
  const circle = make("svg:circle", { cx: x, cy: y, r: size, class: "seat", fill: owner.colour, "data-bloc": owner.number });
  return [circle, make("svg:text", { x, y: y + size * 0.36, "text-anchor": "middle", "font-size": Math.min(18, size), class: "on-seat" }, owner.number)];
}

// The seats by party, the vacant ones hollow.
export function halfCircle(groups, vacant) {
  const seated = groups.filter((it) => it.seats).map((it, at) => ({ ...it, colour: COLOURS[at % COLOURS.length] }));
  const owners = seated.flatMap((it) => Array.from({ length: it.seats }, () => it));
  const { seats, size, outer } = places(owners.length + vacant);
  const drawn = seats.flatMap((it, at) => seat(it, owners[at], size));
  const entries = [...seated, { label: "vazias", seats: vacant }];
  const said = entries.map((it) => `${it.label}: ${it.seats}`).join("; ");
  const box = `${-outer - 40} ${-outer - 34} ${2 * outer + 80} ${outer + 68}`;
  const picture = make("svg:svg", { viewBox: box, width: 2 * outer + 80, class: "half", role: "img" }, make("svg:title", {}, "As vagas por partido"), make("svg:desc", {}, said), ...drawn);
  return make("figure", {}, picture, make("figcaption", {}, legend(entries)));
}
