"use strict";
(() => {
  const chart = document.querySelector(".chart"), sheet = document.querySelector(".sheet"), ruler = document.querySelector(".head .lane");
  const turns = Number(sheet.style.getPropertyValue("--t")), read = document.querySelector(".read");
  let quarter = parseFloat(sheet.style.getPropertyValue("--q"));
  const names = () => chart.querySelector(".name").offsetWidth;

  // The numbers of the turns that are seen, with at least 44 pixels for each.
  function rule() {
    const wide = 4 * quarter;
    let step = 1;
    for (const factor of [2, 2.5, 2, 2, 2.5, 2, 2, 2.5, 2, 2, 2.5, 2]) {
      if (step * wide >= 44) break;
      step = Math.round(step * factor);
    }
    const first = Math.max(0, Math.floor(chart.scrollLeft / wide / step) * step);
    const last = Math.min(turns - 1, Math.ceil((chart.scrollLeft + chart.clientWidth) / wide));
    const labels = [];
    for (let turn = first; turn <= last; turn += step) {
      const label = document.createElement("b");
      label.style.setProperty("--a", 4 * turn);
      label.textContent = turn;
      labels.push(label);
    }
    ruler.replaceChildren(...labels);
    sheet.classList.toggle("far", wide < 7);
  }

  // Zooms so that the turn in the middle stays there.
  function zoom(wanted) {
    const seen = (chart.clientWidth - names()) / 2;
    const middle = (chart.scrollLeft + seen) / quarter;
    quarter = Math.min(60, Math.max(0.02, wanted));
    sheet.style.setProperty("--q", quarter + "px");
    chart.scrollLeft = middle * quarter - seen;
    rule();
  }

  const fit = () => (chart.clientWidth - names() - parseFloat(sheet.style.getPropertyValue("--rim"))) / (4 * Math.max(turns, 1));
  const acts = {"in": () => zoom(quarter * 1.5), "out": () => zoom(quarter / 1.5), "fit": () => zoom(fit())};
  for (const button of document.querySelectorAll("[data-zoom]")) button.addEventListener("click", acts[button.dataset.zoom]);
  chart.addEventListener("keydown", event => {
    const act = {"+": "in", "=": "in", "-": "out", "0": "fit"}[event.key];
    if (act && !event.ctrlKey && !event.metaKey) { acts[act](); event.preventDefault(); }
  });
  chart.addEventListener("wheel", event => {
    if (!event.ctrlKey) return;
    event.preventDefault();
    zoom(quarter * (event.deltaY < 0 ? 1.2 : 1 / 1.2));
  }, {passive: false});
  document.querySelector("form").addEventListener("submit", event => {
    event.preventDefault();
    chart.scrollLeft = 4 * quarter * Number(event.target.turn.value) - 40;
    rule();
  });

  for (const button of document.querySelectorAll(".name button[aria-controls]")) {
    button.addEventListener("click", () => button.setAttribute("aria-expanded", button.closest(".row").classList.toggle("open")));
  }
  const more = document.querySelector("[data-unfold]");
  if (more) more.addEventListener("click", () => more.setAttribute("aria-expanded", sheet.classList.toggle("all")));
  for (const event of ["pointerover", "pointerdown"]) {
    chart.addEventListener(event, found => { if (found.target.title) read.textContent = found.target.title; });
  }
  // A place that a link names comes to the middle, and is told.
  function arrive() {
    const place = document.getElementById(decodeURIComponent(location.hash.slice(1)));
    if (!place || !chart.contains(place)) return;
    if (more && place.matches(".untouched")) { sheet.classList.add("all"); more.setAttribute("aria-expanded", true); }
    place.scrollIntoView({block: "center", inline: "nearest"});
    const left = place.offsetLeft - (chart.clientWidth - names()) / 2;
    if (place.title) { chart.scrollLeft = left; read.textContent = place.title; }
    rule();
  }
  addEventListener("hashchange", arrive);
  for (const link of document.querySelectorAll("a[href^='#']")) link.addEventListener("click", () => setTimeout(arrive));
  chart.addEventListener("scroll", rule);
  addEventListener("resize", rule);
  // A run that nearly fits is shown whole.
  if (fit() < quarter && fit() * 4 >= 24) zoom(fit());
  rule();
  arrive();
})();
