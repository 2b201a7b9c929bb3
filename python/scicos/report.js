// The page of a report: its drawings, the block that was clicked, and tables with filters.
"use strict";

const one = (what, within = document) => within.querySelector(what);
const all = (what, within = document) => [...within.querySelectorAll(what)];
const root = document.documentElement;
const data = JSON.parse(one("#data").textContent);
root.classList.add("js");

function element(tag, fields = {}, ...inner) {
  const made = document.createElement(tag);
  for (const [key, value] of Object.entries(fields)) {
    if (key in made) made[key] = value; else made.setAttribute(key, value);
  }
  made.append(...inner);
  return made;
}

// ---- drawings ----

let scale = 0; // of the drawing; 0 fits the width

function showLevel(id, focus = false) {
  const level = document.getElementById(id);
  if (!level) return;
  for (const figure of all("figure.level")) figure.classList.toggle("now", figure === level);
  for (const button of all(".levels button")) {
    const now = button.dataset.level === id;
    button.setAttribute("aria-current", now);
    if (now && focus) button.focus({preventScroll: true});
  }
  fitPictures();
}

function fitPictures() {
  for (const svg of all("figure.now .picture svg")) {
    const [, , width, height] = svg.getAttribute("viewBox").split(" ").map(Number);
    const room = svg.parentElement.clientWidth - 26;
    const natural = 4 / 3;
    const factor = scale || Math.max(Math.min(natural, room / width), 0.75);
    svg.setAttribute("width", Math.round(width * factor));
    svg.setAttribute("height", Math.round(height * factor));
    svg.dataset.factor = factor;
  }
}

function resize(by) {
  const svg = one("figure.now .picture svg");
  scale = by && svg ? Math.min(8, Math.max(0.2, Number(svg.dataset.factor) * by)) : 0;
  fitPictures();
}

// ---- the block that was clicked ----

let chosen = 0, origin = null; // its number, and what was clicked

function showBlock(number, from = null) {
  const template = document.getElementById(`block-${number}`);
  if (!template) return;
  chosen = number;
  const body = one("#block-body");
  body.replaceChildren(template.content.cloneNode(true));
  const inside = from && one("#block").contains(from);
  if (from && !inside) origin = from;
  one("#block").hidden = false;
  document.body.classList.add("with-block");
  const go = element("button", {type: "button"}, "show in the drawing");
  go.onclick = () => {
    const node = all(`figure.level:not(#flat) [data-block="${number}"]`)[0];
    if (node) showLevel(node.closest("figure").id);
    one("#drawing").scrollIntoView();
  };
  body.append(element("p", {className: "tools"}, go));
  if (waves) waves.block(number, body);
  mark();
  one("#block").scrollTop = 0;
  if (from) one("#block").focus({preventScroll: true});
}

function mark() {
  for (const node of all(".picture [data-block]")) {
    node.classList.toggle("chosen", Number(node.dataset.block) === chosen);
  }
  for (const row of all("#rows .row")) row.classList.toggle("chosen", chosen > 0 && Number(row.dataset.of) === chosen);
}

function closeBlock() {
  one("#block").hidden = true;
  if (origin && origin.isConnected) origin.focus({preventScroll: true});
  document.body.classList.remove("with-block");
  chosen = 0;
  mark();
  if (waves) waves.changed();
}

document.addEventListener("click", event => {
  const target = event.target.closest("[data-block], [data-level]");
  if (!target) return;
  event.preventDefault();
  if (target.dataset.level) showLevel(target.dataset.level, target.closest(".levels") !== null);
  else showBlock(Number(target.dataset.block), target);
});
document.addEventListener("keydown", event => {
  if (event.key === "Escape" && !one("#block").hidden) closeBlock();
  const node = event.target.closest && event.target.closest(".picture [role=button]");
  if (node && (event.key === "Enter" || event.key === " ")) {
    event.preventDefault();
    if (node.dataset.level) showLevel(node.dataset.level, true); else showBlock(Number(node.dataset.block), node);
  }
});

// ---- tables ----

function found(text, words) {
  const low = text.toLowerCase();
  return words.toLowerCase().split(/\s+/).every(word => low.includes(word));
}

function filterBlocks() {
  let count = 0;
  for (const row of all("#block-table tbody tr")) {
    row.hidden = !found(row.textContent, one("#block-filter").value);
    count += !row.hidden;
  }
  one("#block-count").textContent = `${count} shown`;
}
