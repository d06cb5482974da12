"use strict";

// A search in all manifests that the reader may read (IIIF Content Search API 2.0). What it finds
// names a canvas and no manifest, so manifests are read until the one with each canvas is known.

// What is shown, and the last page of it that was fetched. A reply that comes after another search
// was begun is dropped, and so is a page that came already.
let gathered = { words: "", page: 0 };

// So many manifests are asked for at once, and so many are read for a page at most.
const AT_ONCE = 6;
const MOST_READ = 300;

// ---- where a hit lies

// The canvas with this id, in one of the manifests that were read: the IRI of that, and its number.
function canvasAt(id) {
  for (const [iri, canvases] of state.canvases) {
    const number = canvases.indexOf(id) + 1;
    if (number > 0) return { iri, number };
  }
  return null;
}

async function findCanvases(ids) {
  const unread = [...state.manifests.keys()].filter(iri => !state.canvases.has(iri));
  unread.splice(MOST_READ);
  while (unread.length > 0 && ids.some(id => canvasAt(id) === null)) {
    await Promise.all(unread.splice(0, AT_ONCE).map(readCanvases));
  }
}

// One that was deleted or hidden meanwhile has none.
async function readCanvases(iri) {
  const known = state.canvases;
  const tree = await treeAt(iri);
  known.set(iri, listOf(tree?.items).map(canvas => canvas.id));
}

// An annotation and where it leads: itself, or the one on which it comments.
async function withSources(note) {
  const sources = listOf(note.target).map(target => placeOf(target).source);
  const commented = sources.find(isNote);
  const tree = commented === undefined ? note : await treeAt(commented);
  return { note, leadsTo: commented ?? note.id,
    sources: listOf(tree?.target).map(target => placeOf(target).source) };
}

function foundLink({ note, leadsTo, sources }) {
  const place = sources.map(canvasAt).find(each => each !== null);
  if (place === undefined) return "on no canvas that was found here";
  const { iri, number } = place;
  const where = state.manifests.get(iri) ?? nameOf(iri);
  const kind = leadsTo === note.id ? "" : "a comment in ";
  return element("a", { href: link({ manifest: nameOf(iri), canvas: number, note: leadsTo }) },
    `${kind}${where}, canvas ${number}`);
}

// ---- the search

function closeGathered() {
  gathered = { words: "", page: 0 };
  for (const id of ["gather-hits", "gather-words"]) at(id).replaceChildren();
  at("gather-total").textContent = "";
  at("more-gathered").hidden = true;
}

async function gather(page) {
  if (page === 1) {
    closeGathered();
    gathered.words = at("gather").elements.q.value;
  }
  const shown = gathered;
  const query = new URLSearchParams({ q: shown.words, page });
  const found = await ask(`/gather/search?${query}`);
  const hits = await Promise.all(found.items.map(withSources));
  await findCanvases(hits.flatMap(hit => hit.sources));
  if (shown !== gathered || shown.page >= page) return;
  shown.page = page;
  const marks = marksBy(found);
  at("gather-hits").append(...hits.map(hit =>
    hitCard(hit.note, marks.get(hit.note.id) ?? [], foundLink(hit))));
  at("gather-total").textContent = fitting(found);
  at("more-gathered").hidden = !found.next;
  at("more-gathered").onclick = () => attempt(() => gather(page + 1));
}

// Completions of the last word, behind the words before it.
async function completeGathered() {
  const field = at("gather").elements.q;
  const [, before, prefix] = /^(.*?)(\S*)$/s.exec(field.value);
  if (prefix === "") return at("gather-words").replaceChildren();
  const found = await ask(`/gather/autocomplete?${new URLSearchParams({ q: prefix })}`);
  if (field.value !== before + prefix) return;
  at("gather-words").replaceChildren(...found.items.map(({ value, total }) =>
    element("option", { value: before + value }, String(total))));
}

listen("gather", "submit", () => gather(1));
at("gather").elements.q.addEventListener("input", () => attempt(completeGathered));
