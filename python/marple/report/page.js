"use strict";

// The value of a cell: a whole number exactly, a fraction as it is, nothing where the cell shows none.
function valueOf(row, column) {
  const text = row.cells[column].dataset.value;
  if (text === undefined) return null;
  return /^[0-9]+$/.test(text) ? BigInt(text) : Number(text);
}

// The order of two values, by which cells without a value come last either way.
function order(left, right, sign) {
  if (left === null || right === null) return (left === null) - (right === null);
  return left < right ? -sign : left > right ? sign : 0;
}

// Sorts a table by a column: numbers from the greatest on at first, and the other way at the next click.
function sort(table, heading) {
  const column = heading.cellIndex;
  const before = heading.getAttribute("aria-sort");
  const first = heading.classList.contains("text") ? "ascending" : "descending";
  const other = first === "ascending" ? "descending" : "ascending";
  const direction = before === first ? other : first;
  const sign = direction === "ascending" ? 1 : -1;
  const rows = Array.from(table.tBodies[0].rows);
  rows.sort((one, two) => order(valueOf(one, column), valueOf(two, column), sign));
  table.tBodies[0].append(...rows);
  for (const each of table.querySelectorAll("th")) each.removeAttribute("aria-sort");
  heading.setAttribute("aria-sort", direction);
}

// Copies a query; where the browser has no clipboard for the page, the query is selected.
async function copy(button) {
  const code = button.parentElement.querySelector("pre");
  try {
    await navigator.clipboard.writeText(code.textContent);
    button.textContent = "Copied";
  } catch {
    getSelection().selectAllChildren(code);
    button.textContent = document.execCommand("copy") ? "Copied" : "Selected";
  }
  setTimeout(() => { button.textContent = "Copy"; }, 2000);
}

// Opens the query that the address names.
function openQuery() {
  const place = document.getElementById(decodeURIComponent(location.hash.slice(1)));
  if (place instanceof HTMLDetailsElement) {
    place.open = true;
    place.scrollIntoView();
  }
}

for (const table of document.querySelectorAll("table.sorts")) {
  for (const heading of table.querySelectorAll("th")) {
    heading.querySelector("button").addEventListener("click", () => sort(table, heading));
  }
}
for (const button of document.querySelectorAll("button.copy")) button.addEventListener("click", () => copy(button));
for (const link of document.querySelectorAll("a.query")) link.addEventListener("click", () => setTimeout(openQuery));
addEventListener("hashchange", openQuery);
openQuery();

// A printed page has all queries.
let closed = [];
addEventListener("beforeprint", () => {
  closed = Array.from(document.querySelectorAll("details:not([open])"));
  for (const each of closed) each.open = true;
});
addEventListener("afterprint", () => { for (const each of closed) each.open = false; });
