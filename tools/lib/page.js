"use strict";
(() => {
  const byId = (name) => document.getElementById(name);
  document.documentElement.classList.add("runs");

  // What is printed is open, and afterwards as it was.
  let opened = [];
  addEventListener("beforeprint", () => {
    opened = [...document.querySelectorAll("details:not([open])")].filter((one) => !one.hidden);
    opened.forEach((one) => { one.open = true; });
  });
  addEventListener("afterprint", () => opened.forEach((one) => { one.open = false; }));

  if (byId("rows") === null) return;
  const main = byId("main"), filters = byId("filters"), rows = [...byId("rows").rows];
  const texts = rows.map((row) => `${row.cells[0].textContent} ${row.cells[1].textContent}`.toLowerCase());
  const name = byId("by-name"), mark = byId("by-mark"), lock = byId("by-lock"), fresh = byId("by-new");

  // The part of a field, where the page is read as far as that.
  const part = (row) => byId("f" + row.id.slice(1));
  const all = () => rows.map(part).filter((one) => one !== null);
  const groups = (count) => String(count).replace(/\B(?=(\d{3})+$)/g, ",");

  // Shows the rows and the parts that the filters leave, and says how many.
  const show = () => {
    const words = name.value.toLowerCase().split(/\s+/).filter((word) => word);
    const isNew = fresh !== null && fresh.checked;
    let count = 0;
    rows.forEach((row, i) => {
      const kinds = row.classList;
      const isMarked = !mark.value || kinds.contains("m-" + mark.value);
      const good = words.every((word) => texts[i].includes(word)) && isMarked &&
        (!lock.value || kinds.contains(lock.value)) && (!isNew || kinds.contains("is-new"));
      const own = part(row);
      row.hidden = !good;
      if (own !== null) own.hidden = !good;
      count += good ? 1 : 0;
    });
    main.toggleAttribute("data-new", isNew);
    main.setAttribute("data-mark", mark.value);
    byId("shown").textContent = `${groups(count)} of ${groups(rows.length)} lines`;
    byId("none").hidden = count > 0;
  };

  // Sorts the rows by a column, and by the same once more the other way round; with no column as they stood at first.
  const heads = [...document.querySelectorAll("#fields thead th")];
  const sort = (head) => {
    const column = heads.indexOf(head), turned = head !== null && head.getAttribute("aria-sort") === "ascending";
    const isNumber = head !== null && head.classList.contains("n");
    const key = (row) => row.cells[column].textContent;
    const compare = (a, b) => isNumber ? Number(key(a).replace(/,/g, "")) - Number(key(b).replace(/,/g, "")) :
      key(a).localeCompare(key(b));
    const sorted = [...rows];
    if (head !== null) sorted.sort(turned ? (a, b) => compare(b, a) : compare);
    heads.forEach((one) => one.removeAttribute("aria-sort"));
    if (head !== null) head.setAttribute("aria-sort", turned ? "descending" : "ascending");
    byId("rows").append(...sorted);
  };
  heads.forEach((head) => {
    const button = document.createElement("button");
    button.type = "button";
    button.append(...head.childNodes);
    button.addEventListener("click", () => sort(head));
    head.append(button);
  });

  // Opens the part that the address names, and shows it where a filter has left it out.
  const follow = () => {
    const one = /^#f\d+$/.test(location.hash) ? byId(location.hash.slice(1)) : null;
    if (one === null) return;
    one.hidden = false;
    one.open = true;
    one.scrollIntoView();
  };

  // Opens and closes the parts that are shown.
  const fold = (isOpen) => all().forEach((one) => { if (!one.hidden) one.open = isOpen; });

  filters.hidden = false;
  filters.addEventListener("input", show);
  filters.addEventListener("reset", () => setTimeout(() => { sort(null); show(); }));
  filters.addEventListener("submit", (event) => event.preventDefault());
  show();
  addEventListener("hashchange", follow);
  document.addEventListener("DOMContentLoaded", () => {
    byId("folding").hidden = false;
    byId("open-all").addEventListener("click", () => fold(true));
    byId("close-all").addEventListener("click", () => fold(false));
    show();
    follow();
  });
})();
