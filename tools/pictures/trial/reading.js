// Reads what the page shows, as a reader sees it: what the tables say of each house and directory, by their words alone.
(() => {
  const words = (cell) => {
    const own = cell.cloneNode(true);
    own.querySelectorAll(".tag, .new, del, .meaning").forEach((it) => it.remove());
    return own.textContent.trim();
  };
  const tables = [...document.querySelectorAll("table[data-dir]")].map((table) => {
    const heads = [...table.tHead.rows].map((row) => [...row.cells].map(words));
    const rows = [...table.tBodies[0].rows].map((row) => [row.dataset.kind, ...[...row.cells].map(words)]);
    return { dir: table.dataset.dir, heads, rows, gone: table.querySelectorAll("del").length };
  });
  const present = document.querySelector("#lines .present .number");
  return {
    line: present && present.textContent, head: document.getElementById("state-head").textContent, title: document.title,
    spoken: document.getElementById("spoken").textContent, tables,
    underWay: [...document.querySelectorAll("#under-way .message")].map((it) => it.textContent),
    houses: [...document.querySelectorAll("table.houses tbody tr")].map((row) => [...row.cells].map(words)),
  };
})()
