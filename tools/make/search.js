// The search of the reference. INDEX holds an entry for each item: its label, its name, its link, and the
// words of its contract and its text.
const AT_ONCE = 60;

/** Returns how well an entry fits a word, from 0, which is best, or -1 if it doesn't have it. */
function rank([label, name, , text], word) {
  const called = name.toLowerCase(), whole = label.toLowerCase();
  if (called === word) return 0;
  if (called.startsWith(word)) return 1;
  if (whole.split(/[^\p{L}\p{N}]+/u).includes(word)) return 2;
  if (whole.includes(word)) return 3;
  if (text.split(" ").includes(word)) return 4;
  return text.includes(word) ? 5 : -1;
}

/** Returns the entries that have each word of a query: names that are a word first, then those that begin with it. */
function search(index, query) {
  const words = query.toLowerCase().split(/[\s:!()]+/).filter(Boolean);
  const ranked = [];
  index.forEach((entry, at) => {
    const ranks = words.map(word => rank(entry, word));
    if (words.length && !ranks.includes(-1)) ranked.push([ranks.reduce((sum, it) => sum + it, 0), at, entry]);
  });
  // of equal ones calls before definitions, then the shorter name, and then the one that stands first
  const kind = ([, , [label]]) => label.endsWith(", a definition");
  const length = ([score, , [, name]]) => score ? name.length : 0;
  ranked.sort((a, b) => a[0] - b[0] || kind(a) - kind(b) || length(a) - length(b) || a[1] - b[1]);
  return ranked.map(it => it[2]);
}

/** Lists hits as links, and the others behind a button. */
function show(found, hits, up, count) {
  const rows = hits.slice(0, count).map(([label, , href]) => {
    const row = document.createElement("div"), link = document.createElement("a");
    link.href = up + href;
    link.textContent = label;
    row.append(link);
    return row;
  });
  found.replaceChildren(...rows);
  if (hits.length > count) {
    const more = document.createElement("button");
    more.textContent = `${hits.length - count} more`;
    more.onclick = () => show(found, hits, up, hits.length);
    found.append(more);
  }
}

/** Lets the box of a page search, from a page that lies so many folders deep. */
function listen(up) {
  const box = document.querySelector("input"), found = document.querySelector("#found");
  const hits = () => search(INDEX, box.value);
  box.oninput = () => show(found, hits(), up, AT_ONCE);
  box.onkeydown = event => {
    const [first] = event.key === "Enter" ? hits() : [];
    if (first) location.href = up + first[2];
  };
  box.oninput();
}
