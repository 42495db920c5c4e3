// Finds the sections that have all words of the search, those with the words in their titles first.
const MOST_RESULTS = 20, LETTERS_AROUND = 80;
const root = document.currentScript.dataset.root;
const field = document.getElementById("site-search"), results = document.getElementById("site-results");

function weight(title, text, words) {
  const inTitle = words.filter((word) => title.includes(word)).length;
  return words.every((word) => title.includes(word) || text.includes(word)) ? 1 + 10 * inTitle : 0;
}

function found(query) {
  const words = query.toLowerCase().split(/\s+/).filter(Boolean);
  if (words.length === 0) return [];
  return SECTIONS.map(([address, place, page, title, text]) => ({ address, place, page, title, text, words, weight: weight(title.toLowerCase(), text.toLowerCase(), words) }))
    .filter((section) => section.weight > 0)
    .sort((one, other) => other.weight - one.weight)
    .slice(0, MOST_RESULTS);
}

// The words of the search are marked as text, so nothing of the index becomes an element.
function excerpt({ text, words }) {
  const paragraph = document.createElement("p");
  const at = Math.max(0, text.toLowerCase().indexOf(words[0]));
  const start = Math.max(0, at - LETTERS_AROUND), end = at + words[0].length + LETTERS_AROUND;
  const mark = document.createElement("mark");
  mark.textContent = text.slice(at, at + words[0].length);
  paragraph.append((start > 0 ? "… " : "") + text.slice(start, at), mark, text.slice(at + words[0].length, end) + (end < text.length ? " …" : ""));
  return paragraph;
}

function show(query) {
  const sections = found(query);
  results.hidden = query.trim() === "";
  results.replaceChildren(...sections.map((section) => {
    const item = document.createElement("li"), link = document.createElement("a");
    link.href = `${root}/${section.address}#${section.place}`;
    link.textContent = section.title === section.page ? section.title : `${section.page}: ${section.title}`;
    item.append(link, excerpt(section));
    return item;
  }));
  if (sections.length === 0 && !results.hidden) results.textContent = "Nothing was found.";
}

field.addEventListener("input", () => show(field.value));
results.addEventListener("click", (event) => { if (event.target.closest("a")) { field.value = ""; show(""); } });
document.addEventListener("keydown", (event) => {
  if (event.key === "/" && document.activeElement !== field) { event.preventDefault(); field.focus(); }
  if (event.key === "Escape") { field.value = ""; show(""); }
});
const query = new URLSearchParams(location.search).get("q");
if (query) { field.value = query; show(query); }
