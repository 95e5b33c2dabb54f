"use strict";
{
  const every = (selector) => [...document.querySelectorAll(selector)];
  const map = document.querySelector(".map");
  const cells = every(".map .held");
  const panels = every(".variable");

  // Marks, by a class, everything that is about a variable.
  const mark = (name, className) => {
    for (const one of [...cells, ...panels]) {
      one.classList.toggle(className, one.dataset.v === name);
    }
  };
  const look = (name) => {
    mark(name, "same");
    map.classList.toggle("looking", name !== undefined);
  };
  const choose = (name, mayMove) => {
    mark(name, "chosen");
    document.body.classList.toggle("open", name !== undefined && mayMove);
    document.querySelector(".panel").scrollTop = 0;
  };
  const close = () => document.body.classList.remove("open");
  const named = (hash) => panels.find((one) => `#${one.id}` === hash)?.dataset.v;

  document.documentElement.classList.add("live");
  for (const cell of cells) {
    cell.addEventListener("pointerenter", () => look(cell.dataset.v));
    cell.addEventListener("pointerleave", () => look(undefined));
    cell.addEventListener("focus", () => {
      if (cell.matches(":focus-visible")) look(cell.dataset.v);
    });
    cell.addEventListener("blur", () => look(undefined));
  }
  document.addEventListener("click", (event) => {
    const link = event.target.closest("a[href^='#v-']");
    if (link) {
      event.preventDefault();
      choose(named(link.hash), true);
      history.replaceState(null, "", link.hash);
    }
  });
  document.querySelector(".close").addEventListener("click", close);
  document.addEventListener("keydown", (event) => {
    const step = { ArrowRight: 1, ArrowDown: 1, ArrowLeft: -1, ArrowUp: -1 }[event.key];
    const at = cells.indexOf(document.activeElement);
    if (step && at >= 0) {
      event.preventDefault();
      cells[Math.min(Math.max(at + step, 0), cells.length - 1)].focus();
    }
    if (event.key === "Escape") close();
  });
  addEventListener("hashchange", () => {
    const name = named(location.hash);
    if (name) choose(name, true);
  });
  const first = document.querySelector(".story") ?? panels[0];
  const asked = named(location.hash);
  choose(asked ?? first?.dataset.v, asked !== undefined);
}
