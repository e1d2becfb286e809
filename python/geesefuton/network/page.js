"use strict";
const TICKS = 54, QUIET = 5000, RETRY = 3000;  // milliseconds without news, and between two links
const $ = id => document.getElementById(id);
const number = value => (Math.round(value) + 0).toLocaleString("en-US").replace("-", "\u2212");
const money = cash => cash > 0 ? `earned ${number(cash)}` : `paid ${number(-cash)}`;
const clockText = time => {
  const left = Math.max(0, Math.ceil(time));
  return left < 100 ? `${left} s`
    : `${Math.floor(left / 60)}:${String(left % 60).padStart(2, "0")}`;
};
const darkness = matchMedia("(prefers-color-scheme: dark)");
darkness.onchange = () => {
  const asked = location.hash, isDark = asked === "#dark" || asked !== "#light" && darkness.matches;
  document.documentElement.dataset.theme = isDark ? "dark" : "light";
};
darkness.onchange();

// An element of a class, or with styles and a class by their names.
function node(kind, props = {}, ...children) {
  const { class: name, ...styles } = typeof props === "string" ? { class: props } : props;
  const made = Object.assign(document.createElement(kind), { className: name || "" });
  Object.assign(made.style, styles);
  made.append(...children);
  return made;
}
function write(place, text) {
  if (place.textContent !== text) place.textContent = text;
}

// The states that the host sends, which `take` is given. The host is heard every two seconds; a
// link that is silent, refused or broken is replaced.
let heard = performance.now(), lost = false, over = false, events = null, due = 0;
function hear() {
  heard = performance.now();
  lost = false;
}
function connect(take) {
  if (events) events.close();
  due = performance.now() + RETRY * (1 + Math.random() / 2);
  events = new EventSource("events");
  events.onmessage = event => {
    hear();
    take(JSON.parse(event.data));
  };
  events.addEventListener("here", hear);
  events.addEventListener("end", () => { over = true; events.close(); });
  events.onerror = () => events.close();
}
// After a game the host may begin another one at the same port.
function stayConnected(take) {
  const now = performance.now();
  if (!over && now - heard > QUIET) lost = true;
  if (now > due && (lost || events.readyState === EventSource.CLOSED)) connect(take);
}
const unheard = () => lost ? "No news from the host for "
  + `${Math.floor((performance.now() - heard) / 1000)} seconds; trying again` : "";
