"use strict";

// Comments on annotations: a comment's target names another annotation, and may quote words of its
// texts (Web Annotation Data Model, sections 4.2.4 and 4.2.5). The server finds where they stand in
// the texts as they are now.

// What is shown, and the last page of it that was fetched. A reply that comes after another was
// opened is dropped, and so is a page that came already.
let opened = { iri: null, page: 0 };  // an annotation, its texts, and comments on it
let lost = { page: 0 };               // comments of the manifest that lost what they are about

// ---- texts

// Of a comment so many places are marked at most: it may quote a word that stands everywhere.
const MOST_MARKS = 1000;

// The texts of an annotation as a search reads them, in which the places of comments lie.
const searchedTexts = note => note.bodyValue === undefined
  ? listOf(note.body).map(searchedText).filter(text => typeof text === "string")
  : [note.bodyValue];

function searchedText(body) {
  const part = body?.value === undefined ? body?.source : body;
  return part?.format === "text/html" && typeof part.value === "string"
    ? untagged(part.value) : part?.value;
}

// Each tag is one space; a `<` without a later `>` is none.
function untagged(html) {
  const end = html.lastIndexOf(">") + 1;
  return html.slice(0, end).replace(/<[^>]*>/g, " ") + html.slice(end);
}

// What stands at a place. Places count code points, so a text is a list of them here.
const wordsAt = (texts, { text, start, end }) => (texts[text] ?? []).slice(start, end).join("");

// ---- what a comment means

// The quote and the position by which a comment's target says what it means, where it does.
function meaning(comment, number) {
  const selectors = listOf(targetOf(comment, number)?.selector);
  const first = type => selectors.find(each => listOf(each?.type).includes(type));
  return { quote: first("TextQuoteSelector"), position: first("TextPositionSelector") };
}

const targetOf = (comment, number) => listOf(comment.target)[number];

// The words that a comment means; where it gives a position only, those that stand there.
function meantLine({ quote, position }, texts, [place]) {
  if (quote) return markLine(quote);
  if (place) return markLine({ exact: wordsAt(texts, place) });
  return position ? element("p", {}, `Characters ${position.start} to ${position.end}`) : "";
}

const countOf = (count, one) => count === 1 ? `1 ${one}` : `${count} ${one}s`;

const STATES = {
  whole: () => "About the whole annotation.",
  found: places => `Found: these words stand in ${countOf(places.length, "place")}.`,
  exact: () => "Exact: these words stand where the comment says.",
  moved: () => "Moved: these words stand at another place than the comment says.",
  orphan: () => "Lost: these words aren't there any more.",
};

function commentCard({ item, comment }, index, texts) {
  return element("li", { class: "card", id: `comment-${index + 1}` },
    element("p", { dir: "auto" }, textOf(comment)),
    meantLine(meaning(comment, item.target), texts, item.places),
    element("p", {}, STATES[item.state](item.places)),
    element("a", { href: noteLink(item.comment) }, "Comments on this comment"),
    element("p", { class: "faint" }, `${index + 1}. ${about(comment)}`));
}

// The items of a page of the server's list with their comments, but for those gone meanwhile.
async function withComments(items) {
  const iris = [...new Set(items.map(item => item.comment))];
  const trees = new Map(await Promise.all(iris.map(async iri => [iri, await treeAt(iri)])));
  return items.map(item => ({ item, comment: trees.get(item.comment) }))
    .filter(({ comment }) => comment !== null);
}

// What is there, or null where it was deleted or hidden meanwhile.
async function treeAt(iri) {
  try {
    return await ask(pathOf(iri));
  } catch (error) {
    if (["absent", "gone"].includes(error.body?.error)) return null;
    throw error;
  }
}

// ---- an annotation that was chosen, and the comments on it

async function openComments(iri) {
  const shown = opened = { iri, page: 0, texts: [], found: [] };
  at("comments-part").hidden = !isNote(iri);
  for (const id of ["texts", "comments"]) at(id).replaceChildren();
  at("comments-place").textContent = at("comments-total").textContent = "";
  at("more-comments").hidden = true;
  if (!isNote(iri)) return;
  try {
    const note = await ask(pathOf(iri));
    if (shown !== opened) return;
    shown.texts = searchedTexts(note).map(text => [...text]);
    at("comments-place").replaceChildren(whereLink(note));
    showTexts();
    await moreComments(1);
  } catch (error) {
    if (!(error instanceof Refusal)) throw error;
    if (shown === opened) at("comments-total").textContent = error.message;
  }
}

async function moreComments(page) {
  const shown = opened;
  const told = await ask(`${pathOf(shown.iri)}/anchors?page=${page}`);
  const found = await withComments(told.anchors);
  if (shown !== opened || shown.page >= page) return;
  if (!found.every(isThere)) throw new Refusal(0, { error: "changed" });
  const before = shown.found.length;
  shown.found.push(...found);
  shown.page = page;
  at("comments").append(...found.map((each, index) =>
    commentCard(each, before + index, shown.texts)));
  at("comments-total").textContent = `${countOf(told.total, "comment")}.`;
  at("more-comments").hidden = page >= told.pages;
  at("more-comments").onclick = () => attempt(() => moreComments(page + 1));
  showTexts();
}

// Whether what a comment quotes stands at its places in the texts as they were fetched: after that
// the annotation may have been changed.
function isThere({ item, comment }) {
  const { quote } = meaning(comment, item.target);
  return !quote || item.places.every(place => wordsAt(opened.texts, place) === quote.exact);
}

function showTexts() {
  const places = opened.texts.map(() => []);
  opened.found.forEach(({ item }, index) => {
    for (const { text, start, end } of item.places.slice(0, MOST_MARKS)) {
      places[text]?.push({ start, end, number: index + 1, state: item.state });
    }
  });
  const count = opened.texts.length;
  at("texts").replaceChildren();
  opened.texts.forEach((points, index) => {
    if (count > 1) at("texts").append(element("h4", {}, `Text ${index + 1} of ${count}`));
    at("texts").append(markedText(points, places[index]));
  });
}

// A text with places of comments marked, which may lie over each other. Each is followed by the
// number of its comment in the list, and by how it was found.
function markedText(points, places) {
  const line = element("p", { class: "text" });
  const open = new Set();
  let from = 0;
  for (const { here, begins, place } of turnsOf(places)) {
    line.append(marked(points.slice(from, here).join(""), open));
    from = here;
    if (begins) {
      open.add(place);
    } else {
      open.delete(place);
      line.append(element("sup", {}, `[${place.number}, ${place.state}]`));
    }
  }
  line.append(points.slice(from).join(""));
  return setAll(line, { dir: "auto" });  // last: a browser looks for it anew after each part
}

// Where places begin and end, in order. Where some end and others begin, those end first; an empty
// place ends only.
function turnsOf(places) {
  const turns = places.flatMap(place => [
    ...(place.start < place.end ? [{ here: place.start, begins: true, place }] : []),
    { here: place.end, begins: false, place }]);
  return turns.sort((a, b) => a.here - b.here || a.begins - b.begins);
}

function marked(text, open) {
  if (text === "" || open.size === 0) return text;
  const cards = new Set([...open].map(place => `comment-${place.number}`));
  return element("mark", { "aria-details": [...cards].join(" ") }, text);
}

// ---- the comments of the manifest that lost what they are about

function closeLost() {
  lost = { page: 0 };
  at("lost").replaceChildren();
  at("lost-total").textContent = "";
  at("more-lost").textContent = "Look for them";
  at("more-lost").hidden = false;
  at("more-lost").onclick = () => attempt(() => moreLost(1));
}

async function moreLost(page) {
  const shown = lost;
  const told = await ask(`/manifests/${manifestPart()}/orphans?page=${page}`);
  const found = await withComments(told.orphans);
  if (shown !== lost || shown.page >= page) return;
  shown.page = page;
  at("lost").append(...found.map(lostCard));
  at("lost-total").textContent = `${countOf(told.total, "comment")}.`;
  at("more-lost").textContent = "More of them";
  at("more-lost").hidden = page >= told.pages;
  at("more-lost").onclick = () => attempt(() => moreLost(page + 1));
}

function lostCard({ item, comment }) {
  const target = targetOf(comment, item.target);
  return element("li", { class: "card" }, element("p", { dir: "auto" }, textOf(comment)),
    meantLine(meaning(comment, item.target), [], []) || element("p", {}, STATES.whole()),
    target ? element("a", { href: noteLink(placeOf(target).source) }, "What it is on") : "",
    element("p", { class: "faint" }, about(comment)));
}

// Asks again for what is shown, after a change.
async function renewComments() {
  const isOpen = lost.page > 0;
  closeLost();
  if (isOpen) await moreLost(1);
  await openComments(opened.iri);
}

listen("again-comments", "click", () => openComments(opened.iri));
