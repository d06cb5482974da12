"use strict";

// ---- what is known

const at = id => document.getElementById(id);
const state = {
  server: "", token: "", reader: "",
  base: "",            // how the server's IRIs begin, which may differ from its address
  manifests: new Map(),  // IRI of a manifest that is there -> its label, or null while unknown
  canvases: new Map(),   // IRI of a manifest that was read for a search of all -> its canvases' ids
  numbers: new Map(),    // IRI of an annotation -> its number, by the changes that were seen
  stream: { page: 1, seen: 0 },  // how far the changes were read: the page, and items of it
  manifest: null, canvas: null,  // what is shown: the tree, and a canvas's number from 1
  notes: [],           // the annotations on the canvas
  edited: null,        // the annotation that is in the editor, or null for a new one
};

// ---- refusals, in words

// Those that come to what this page asks for; docs/REFERENCE.md has all. Of any other the code is
// shown.
const WORDS = {
  network: "The server can't be reached at this address.",
  form: "What answered is no annotation server: its reply is no JSON.",
  target: "The address is no path of the server.",
  route: "The server has no such path.",
  method: "The path doesn't take this method.",
  head: "The request's head can't be read.",
  transfer: "The body was sent in a coded form.",
  length: "The length of the body was told twice, or is no number.",
  large: "The text is too large: at most 1,048,576 bytes can be sent.",
  length_required: "The length of the body wasn't told.",
  body: "The body came in part alone.",
  keeper: "The server couldn't keep the change on its disk. Nothing was changed; try again later.",
  memory: "The server ran out of memory. Try again later.",
  bytes: "A name or a value in the address is no UTF-8.",
  twice: "A parameter stands there twice.",
  version: "The number is missing, or isn't from 1 to 999,999,999.",
  manifest: "The manifest isn't said.",
  group: "The groups are none: use public, private, or one to eight names with commas between.",
  page: "There is no such page.",
  xywh: "The region is no four numbers.",
  prefix: "A completion needs a sign at least.",
  not_signed: "The token is no reader's. Check it, or leave it out to read as anybody.",
  not_writer: "You may read here, but not write.",
  not_own: "This note is another reader's: only its owner may write it. Is your name right?",
  absent: "It isn't there, or isn't shown to you.",
  gone: "It was deleted, or isn't shown to you any more.",
  not_member: "You are no member of this group, or of one of these.",
  json: "The text is no JSON.",
  not_whole: "The JSON has a number that isn't whole, or is too large.",
  deep: "The JSON has too many levels.",
  changed: "The annotation was changed while it was read. Load it again.",
  note_type: "This is no annotation: its type is another.",
  note_target: "The annotation's target can't be read.",
  note_selector: "The region of the annotation can't be read.",
  note_body: "A body of the annotation can't be read.",
  note_motivation: "The annotation's motivation can't be read.",
};

class Refusal extends Error {
  constructor(status, body) {
    super(Refusal.words(status, body));
    this.body = body;
  }

  static words(status, body) {
    if (body.error === "version" && body.current !== undefined) {
      return `Another number is due: this note is at ${body.current}. Load it again, look at what`
        + ` is there, and save it as number ${body.current + 1}.`;
    }
    const pages = body.pages === undefined ? "" : ` There are ${body.pages}.`;
    const known = Object.hasOwn(WORDS, body.error);
    return (known ? WORDS[body.error] : `The server refused: ${body.error}.`) + pages
      + (status ? ` (${status} ${body.error})` : "");
  }
}

function tell(text, refused = false) {
  at("told").textContent = text;
  at("told").classList.toggle("refused", refused);
}

// Runs what an event asks for, and tells why it was refused.
async function attempt(task) {
  if (at("told").classList.contains("refused")) tell("");
  try {
    await task();
  } catch (error) {
    tell(error.message, true);
    if (!(error instanceof Refusal)) throw error;
  }
}

// ---- requests

async function ask(path, { method = "GET", tree } = {}) {
  const headers = {};
  if (state.token) headers.Authorization = `Bearer ${state.token}`;
  if (tree) headers["Content-Type"] = "application/ld+json";
  const body = tree && JSON.stringify(tree);
  const reply = await fetch(state.server + path, { method, headers, body, cache: "no-store" })
    .catch(() => { throw new Refusal(0, { error: "network" }); });
  const told = await reply.json().catch(() => { throw new Refusal(0, { error: "form" }); });
  if (!reply.ok) throw new Refusal(reply.status, told);
  return told;
}

// The path of what the server names by an IRI: asked for at the address, not at the IRI's own host.
function pathOf(iri) {
  if (!String(iri).startsWith(state.base + "/")) throw new Refusal(0, { error: "form" });
  return iri.slice(state.base.length);
}

const nameOf = iri => decodeURIComponent(iri.slice(iri.lastIndexOf("/") + 1));
const manifestPart = () => encodeURIComponent(nameOf(state.manifest.id));
const notePath = (owner, name) =>
  `/annotations/${encodeURIComponent(owner)}/${encodeURIComponent(name)}`;
const isNote = iri => iri !== null && iri.startsWith(`${state.base}/annotations/`);
const isOwn = note => state.reader !== ""
  && note.id === state.base + notePath(state.reader, nameOf(note.id));

// ---- the stream of changes, which tells what manifests there are

async function startStream() {
  const stream = await ask("/changes");
  state.base = String(stream.id).replace(/\/changes$/, "");
  state.manifests.clear();
  state.canvases = new Map();
  state.numbers.clear();
  state.stream = { page: 1, seen: 0 };
  await followStream();
}

// Reads the changes behind those that were seen, as a harvester does.
async function followStream() {
  for (;;) {
    const page = await ask(`/changes?page=${state.stream.page}`);
    page.orderedItems.slice(state.stream.seen).forEach(takeChange);
    state.stream.seen = page.orderedItems.length;
    if (!page.next) return;
    state.stream = { page: state.stream.page + 1, seen: 0 };
  }
}

function takeChange({ type, object }) {
  if (object.type === "Manifest") {
    state.canvases.delete(object.id);
    if (type === "Delete") state.manifests.delete(object.id);
    else if (!state.manifests.has(object.id)) state.manifests.set(object.id, null);
  } else {
    state.numbers.set(object.id, (state.numbers.get(object.id) ?? 0) + 1);
  }
}

// ---- elements; what a server gave becomes text nodes and checked addresses alone

function element(name, attributes = {}, ...children) {
  const made = document.createElement(name);
  setAll(made, attributes);
  made.append(...children);
  return made;
}

function drawn(name, attributes, text = "") {
  const made = document.createElementNS("http://www.w3.org/2000/svg", name);
  made.append(text);
  return setAll(made, attributes);
}

function setAll(made, attributes) {
  for (const [key, value] of Object.entries(attributes)) {
    if (key.startsWith("on")) made.addEventListener(key.slice(2), value);
    else if (value !== null) made.setAttribute(key, value);
  }
  return made;
}

const listOf = value => value === undefined || value === null ? [] : [value].flat();
const isImage = address => /^(https?:|data:image\/)/.test(String(address));

// A text of a language map, in a language of the reader where it has one.
function label(map, otherwise) {
  if (map === null || typeof map !== "object") return otherwise;
  const languages = [...navigator.languages, ...navigator.languages.map(tag => tag.split("-")[0]),
    "none", ...Object.keys(map)];
  const found = languages.find(language => Object.hasOwn(map, language));
  return found === undefined ? otherwise : listOf(map[found]).join(" ");
}

// ---- manifests and canvases

const link = parts => "#" + new URLSearchParams(parts);

function showManifests() {
  at("manifests").replaceChildren(...[...state.manifests].map(([iri, text]) => element("li", {},
    element("a", { href: link({ manifest: nameOf(iri) }),
      "aria-current": state.manifest?.id === iri ? "true" : null }, text ?? nameOf(iri)))));
}

// Manifests can be large; the collection of them has their labels only.
async function fetchLabels() {
  const { items } = await ask("/collection");
  for (const item of items.filter(({ id }) => state.manifests.has(id))) {
    state.manifests.set(item.id, label(item.label, nameOf(item.id)));
  }
  showManifests();
}

async function openManifest(name) {
  const tree = await ask(`/manifests/${encodeURIComponent(name)}`);
  state.manifest = tree;
  state.manifests.set(tree.id, label(tree.label, name));
  at("hits").replaceChildren();
  at("total").textContent = "";
  at("more-hits").hidden = true;
  closeLost();
  showManifests();
}

const canvasLabel = (canvas, number) => label(canvas.label, `Canvas ${number}`);
const thumbnailOf = canvas => listOf(canvas.thumbnail).map(each => each.id ?? each).find(isImage);

// The image that is painted on a canvas, where it has one.
function paintingOf(canvas) {
  const bodies = listOf(canvas.items).flatMap(page => listOf(page.items))
    .flatMap(painting => listOf(painting.body));
  return bodies.filter(body => body.type === "Image").map(body => body.id).find(isImage);
}

function showCanvases() {
  const name = nameOf(state.manifest.id);
  at("canvases").replaceChildren(...state.manifest.items.map((canvas, index) => {
    const number = index + 1;
    const address = thumbnailOf(canvas);
    const picture = address
      ? element("img", { class: "thumbnail", src: address, alt: "", loading: "lazy" })
      : element("span", { class: "thumbnail", "aria-hidden": "true" }, String(number));
    return element("li", {}, element("a", { href: link({ manifest: name, canvas: number }),
      "aria-current": state.canvas === number ? "true" : null }, picture,
      canvasLabel(canvas, number)));
  }));
  at("canvases").querySelector("[aria-current]")?.scrollIntoView({ block: "nearest" });
}

// ---- regions of targets

const NUMBER = "(\\d+(?:\\.\\d+)?)";
const XYWH = new RegExp(`^xywh=(pixel:|percent:)?${NUMBER},${NUMBER},${NUMBER},${NUMBER}$`);

// The region that a fragment names, in pixels of the canvas.
function regionOf(fragment, canvas) {
  const found = XYWH.exec(fragment);
  if (!found) return null;
  const [x, y, w, h] = found.slice(2).map(Number);
  if (found[1] !== "percent:") return { x, y, w, h };
  const across = canvas.width / 100;
  const down = canvas.height / 100;
  return { x: x * across, y: y * down, w: w * across, h: h * down };
}

// Where a target lies: its source, and the fragment that it names there.
function placeOf(target) {
  const iri = typeof target === "string" ? target : target.source?.id ?? target.source ?? target.id;
  const [source, fragment = ""] = String(iri).split("#");
  const selector = listOf(target.selector).find(each => each.type === "FragmentSelector");
  return { source, fragment: selector ? String(selector.value) : fragment };
}

// The first target of an annotation that lies on a canvas of the manifest.
function firstPlace(note) {
  for (const target of listOf(note.target)) {
    const { source, fragment } = placeOf(target);
    const index = state.manifest.items.findIndex(canvas => canvas.id === source);
    if (index >= 0) {
      return { number: index + 1, region: regionOf(fragment, state.manifest.items[index]) };
    }
  }
  return null;
}

const xywhOf = region => region ? [region.x, region.y, region.w, region.h].join(",") : "";

// ---- what an annotation says

// Text of HTML without its tags. A parsed document that isn't shown runs and loads nothing.
const plain = html => new DOMParser().parseFromString(html, "text/html").body.textContent;
const isText = body => body.type === "TextualBody" && typeof body.value === "string";

function textOf(note) {
  const texts = listOf(note.body).map(body => {
    if (typeof body === "string") return body;
    if (!isText(body)) return String(body.id ?? body.source ?? "");
    return body.format === "text/html" ? plain(body.value) : body.value;
  });
  return [...listOf(note.bodyValue), ...texts].filter(text => text !== "").join("\n");
}

const about = note => [note.creator?.id ?? note.creator,
  (note.modified ?? note.created)?.slice(0, 10)].filter(Boolean).join(", ");

// ---- a canvas and its annotations

async function openCanvas(number) {
  const canvas = state.manifest.items[number - 1];
  if (!canvas) throw new Refusal(404, { error: "absent" });
  state.canvas = number;
  state.notes = [];
  at("canvas-title").textContent = canvasLabel(canvas, number);
  await moreNotes(1);
}

async function moreNotes(page) {
  const shown = state.notes;
  const found = await ask(`/manifests/${manifestPart()}/canvases/${state.canvas}?page=${page}`);
  if (shown !== state.notes) return; // another canvas was opened meanwhile
  shown.push(...found.items);
  at("more-notes").hidden = !found.next;
  at("more-notes").onclick = () => attempt(() => moreNotes(page + 1));
  at("notes").replaceChildren(...state.notes.map(noteCard));
  drawCanvas();
}

function noteCard(note, index) {
  const place = firstPlace(note);
  const buttons = element("div", { class: "buttons" });
  buttons.append(element("a", { href: place ? placeLink(place, note) : noteLink(note.id) },
    place?.region ? "Its region and comments" : "Its comments"));
  if (isOwn(note)) {
    buttons.append(element("button", { class: "plain", onclick: () => edit(note) }, "Change"));
  }
  return element("li", { class: isChosen(note) ? "card chosen" : "card" },
    element("p", {}, textOf(note)),
    element("p", { class: "faint" }, `${index + 1}. ${about(note)}`), buttons);
}

const asked = () => new URLSearchParams(location.hash.slice(1));
const isChosen = note => asked().get("note") === note.id;
const linkOn = (canvas, iri) => link({ manifest: nameOf(state.manifest.id), canvas, note: iri });
const placeLink = (place, note) => linkOn(place.number, note.id);
const noteLink = iri => linkOn(state.canvas, iri);

function drawCanvas() {
  const canvas = state.manifest.items[state.canvas - 1];
  const [width, height] = [Number(canvas.width) || 1000, Number(canvas.height) || 1000];
  const drawing = at("drawing");
  drawing.setAttribute("viewBox", `0 0 ${width} ${height}`);
  drawing.replaceChildren(drawn("rect", { class: "blank", width, height }));
  const painting = paintingOf(canvas);
  if (painting) drawing.append(drawn("image", { href: painting, width, height }));
  for (const note of state.notes) drawing.append(...regionsOn(canvas, note));
  drawDraft();
}

function regionsOn(canvas, note) {
  const places = listOf(note.target).map(placeOf).filter(place => place.source === canvas.id);
  const regions = places.map(place => regionOf(place.fragment, canvas)).filter(Boolean);
  return regions.flatMap(region => {
    const box = rectangle(region, isChosen(note) ? "region chosen" : "region");
    box.append(drawn("title", {}, textOf(note)));
    return isLine(note) && !paintingOf(canvas) ? [box, lineOf(region, textOf(note))] : [box];
  });
}

// Where a canvas has no image, what was transcribed stands in its place.
const isLine = note => listOf(note.motivation).includes("supplementing");
const lineOf = ({ x, y, w, h }, text) => drawn("text", { x: x + w / 2, y: y + h * 0.74,
  "font-size": Math.min(h * 0.7, 2.2 * w / text.length), textLength: w * 0.96,
  lengthAdjust: "spacingAndGlyphs" }, text);

const rectangle = ({ x, y, w: width, h: height }, kind) =>
  drawn("rect", { class: kind, x, y, width, height });

// ---- the region that is being drawn for a note

function drawDraft() {
  at("drawing").querySelector(".draft")?.remove();
  const canvas = state.manifest.items[state.canvas - 1];
  const region = regionOf(`xywh=${at("editor").elements.region.value}`, canvas);
  if (region) at("drawing").append(rectangle(region, "draft"));
}

function pointOn(event) {
  const toCanvas = at("drawing").getScreenCTM().inverse();
  const point = new DOMPoint(event.clientX, event.clientY).matrixTransform(toCanvas);
  const { width, height } = at("drawing").viewBox.baseVal;
  return { x: Math.round(Math.min(Math.max(point.x, 0), width)),
    y: Math.round(Math.min(Math.max(point.y, 0), height)) };
}

function startRegion(event) {
  if (at("editor-part").hidden) return;
  const from = pointOn(event);
  at("drawing").setPointerCapture(event.pointerId);
  at("drawing").onpointermove = moved => {
    const to = pointOn(moved);
    const region = { x: Math.min(from.x, to.x), y: Math.min(from.y, to.y),
      w: Math.abs(to.x - from.x), h: Math.abs(to.y - from.y) };
    at("editor").elements.region.value = region.w && region.h ? xywhOf(region) : "";
    drawDraft();
  };
}

// ---- searches

async function search(page) {
  const query = new URLSearchParams({ q: at("search").elements.q.value, page });
  const found = await ask(`/search/${manifestPart()}?${query}`);
  const marks = marksBy(found);
  const cards = found.items.map(note =>
    hitCard(note, marks.get(note.id) ?? [], whereLink(note)));
  if (page === 1) at("hits").replaceChildren();
  at("hits").append(...cards);
  at("total").textContent = fitting(found);
  at("more-hits").hidden = !found.next;
  at("more-hits").onclick = () => attempt(() => search(page + 1));
}

function fitting(found) {
  const total = found.partOf?.total ?? found.items.length;
  return total === 1 ? "1 annotation fits." : `${total} annotations fit.`;
}

// The words that were found, by the annotation in which they stand.
function marksBy(found) {
  const marks = new Map();
  for (const mark of listOf(found.annotations).flatMap(page => page.items)) {
    const { source, selector } = mark.target;
    marks.set(source, [...(marks.get(source) ?? []), ...listOf(selector)]);
  }
  return marks;
}

function hitCard(note, marks, where) {
  const lines = marks.length ? marks.map(markLine) : [element("p", {}, textOf(note))];
  return element("li", { class: "card" }, ...lines, where,
    element("p", { class: "faint" }, about(note)));
}

// Where an annotation lies: on a canvas, or on another annotation, which it comments on.
function whereLink(note) {
  const place = firstPlace(note);
  if (place) {
    const where = canvasLabel(state.manifest.items[place.number - 1], place.number);
    return element("a", { href: placeLink(place, note) },
      where + (place.region ? ", its region" : ""));
  }
  const commented = listOf(note.target).map(target => placeOf(target).source).find(isNote);
  return commented ? element("a", { href: noteLink(commented) }, "a comment on an annotation")
    : "on no canvas";
}

const markLine = mark => element("p", {}, "… ", mark.prefix ?? "",
  element("mark", {}, mark.exact), mark.suffix ?? "", " …");

// ---- completion as one types, of the last word

const lastWord = () => /\S*$/.exec(at("search").elements.q.value)[0];

async function complete() {
  const prefix = lastWord();
  if (prefix === "") return closeWords();
  const query = new URLSearchParams({ q: prefix });
  const found = await ask(`/autocomplete/${manifestPart()}?${query}`);
  if (prefix !== lastWord()) return;
  showWords(found.items.map(wordOption));
}

function showWords(options) {
  at("words").replaceChildren(...options);
  at("words").hidden = options.length === 0;
  at("search").elements.q.setAttribute("aria-expanded", String(options.length > 0));
  at("search").elements.q.removeAttribute("aria-activedescendant");
}

const closeWords = () => showWords([]);

function wordOption({ value, total }, index) {
  return element("li", { role: "option", id: `word-${index}`, "data-word": value,
    "aria-selected": "false", onclick: () => takeWord(value),
    onmousedown: event => event.preventDefault() },
  element("span", {}, value), element("span", { class: "faint" }, String(total)));
}

function takeWord(word) {
  const field = at("search").elements.q;
  field.value = field.value.replace(/\S*$/, () => word);
  closeWords();
  attempt(() => search(1));
}

// The arrows go through the words, Enter takes the one that is chosen, and Escape closes the list.
function wordKey(event) {
  const options = [...at("words").children];
  const chosen = options.findIndex(option => option.ariaSelected === "true");
  if (event.key === "Escape") return closeWords();
  if (options.length === 0 || event.isComposing) return;
  if (event.key === "Enter" && chosen >= 0) {
    event.preventDefault();
    return takeWord(options[chosen].dataset.word);
  }
  if (event.key !== "ArrowDown" && event.key !== "ArrowUp") return;
  event.preventDefault();
  const next = options.at(event.key === "ArrowDown" ? (chosen + 1) % options.length
    : Math.max(chosen, 0) - 1);
  options.forEach(option => { option.ariaSelected = String(option === next); });
  next.scrollIntoView({ block: "nearest" });
  event.target.setAttribute("aria-activedescendant", next.id);
}

// ---- notes: written, changed and deleted under their numbers

const nextNumber = iri => (state.numbers.get(iri) ?? 0) + 1;

function fill(values) {
  for (const [name, value] of Object.entries(values)) at("editor").elements[name].value = value;
  if (state.canvas) drawDraft();
}

function freshNote() {
  state.edited = null;
  at("editor-title").textContent = "A new note";
  at("delete").hidden = at("again").hidden = true;
  at("editor").elements.name.readOnly = false;
  fill({ text: "", region: "", group: "private", name: `note-${Date.now().toString(36)}`,
    version: 1 });
}

// An old note's groups aren't known: they have to be said again, so no change shows it by chance.
function edit(note) {
  state.edited = note;
  at("editor-title").textContent = "A note of yours";
  at("delete").hidden = at("again").hidden = false;
  at("editor").elements.name.readOnly = true;
  fill({ text: rawText(note), region: xywhOf(firstPlace(note)?.region), group: "",
    name: nameOf(note.id), version: nextNumber(note.id) });
  at("editor").elements.text.focus();
}

const rawText = note => listOf(note.body).find(isText)?.value ?? note.bodyValue ?? "";

// The tree of the note in the editor: what else an edited annotation has stays as it is.
function editedTree() {
  const { text, region } = at("editor").elements;
  const tree = structuredClone(state.edited ?? { type: "Annotation", motivation: "commenting" });
  const bodies = listOf(tree.body);
  const first = bodies.find(isText);
  if (first) first.value = text.value;
  else bodies.unshift({ type: "TextualBody", value: text.value, format: "text/plain" });
  tree.body = bodies.length === 1 ? bodies[0] : bodies;
  delete tree.bodyValue;
  if (!state.edited || region.value !== xywhOf(firstPlace(state.edited)?.region)) {
    tree.target = editedTarget(region.value);
  }
  return tree;
}

function editedTarget(region) {
  const source = state.manifest.items[state.canvas - 1].id;
  if (region === "") return source;
  return { type: "SpecificResource", source, selector: { type: "FragmentSelector",
    conformsTo: "http://www.w3.org/TR/media-frags/", value: `xywh=${region}` } };
}

// The groups that the text says, with commas between them alone.
const groupsIn = text => text.split(",").map(group => group.trim()).join(",");

async function save() {
  const { name, version, group } = at("editor").elements;
  const query = new URLSearchParams({ version: version.value, group: groupsIn(group.value),
    manifest: nameOf(state.manifest.id) });
  const path = notePath(state.reader, name.value);
  const told = await ask(`${path}?${query}`, { method: "PUT", tree: editedTree() });
  await renew();
  edit(await ask(path));
  fill({ group: query.get("group"), version: told.version + 1 });
  tell(told.repeat ? `The note was so already, as number ${told.version}.`
    : `The note is kept as number ${told.version}.`);
}

async function remove() {
  const { name, version } = at("editor").elements;
  const path = `${notePath(state.reader, name.value)}?version=${version.value}`;
  const told = await ask(path, { method: "DELETE" });
  await renew();
  freshNote();
  tell(`The note is deleted, by number ${told.version}.`);
}

async function loadAgain() {
  await renew();
  edit(await ask(notePath(state.reader, at("editor").elements.name.value)));
  tell("This is what the server has now.");
}

// Reads the changes since, the canvas and the comments anew.
async function renew() {
  await followStream();
  state.notes = [];
  await moreNotes(1);
  await renewComments();
}

// ---- what is shown, by the part of the address behind its #

async function show() {
  const name = asked().get("manifest");
  const number = Number(asked().get("canvas") ?? 1);
  if (name === null) return;
  if (!state.manifest || nameOf(state.manifest.id) !== name) {
    await openManifest(name);
    state.canvas = null;
  }
  if (state.canvas !== number) {
    await openCanvas(number);
    freshNote();
  }
  at("notes").replaceChildren(...state.notes.map(noteCard));
  showCanvases();
  for (const part of PARTS) at(part).hidden = false;
  at("editor-part").hidden = state.token === "" || state.reader === "";
  drawCanvas();
  const isDrawn = at("drawing").querySelector(".chosen") !== null;
  if (isDrawn) at("drawing").scrollIntoView({ block: "nearest" });
  await openComments(asked().get("note"));
  if (!isDrawn) at("comments-part").scrollIntoView({ block: "nearest" });
}

const PARTS = ["room", "canvases-part", "canvas-part", "search-part", "lost-part", "editor-part"];

async function connect() {
  const { server, token, reader } = at("connect").elements;
  state.server = server.value.trim().replace(/\/+$/, "");
  state.token = token.value.trim();
  state.reader = reader.value.trim();
  state.manifest = state.canvas = null;
  for (const part of PARTS) at(part).hidden = true;
  closeGathered();
  tell("Reading the changes ...");
  await startStream();
  at("room").hidden = false;
  showManifests();
  tell(`${state.manifests.size} manifests are shown to ${state.token ? "you" : "anybody"}.`);
  await show();
  await fetchLabels();
}

function listen(id, event, task) {
  at(id).addEventListener(event, happened => {
    if (event === "submit") happened.preventDefault();
    attempt(task);
  });
}

listen("connect", "submit", connect);
listen("search", "submit", () => {
  closeWords();
  return search(1);
});
listen("editor", "submit", save);
listen("delete", "click", remove);
listen("again", "click", loadAgain);
listen("fresh", "click", async () => freshNote());
at("search").elements.q.addEventListener("input", () => attempt(complete));
at("search").elements.q.addEventListener("keydown", wordKey);
at("search").elements.q.addEventListener("blur", closeWords);
at("editor").elements.region.addEventListener("input", drawDraft);
at("drawing").addEventListener("pointerdown", startRegion);
at("drawing").addEventListener("pointerup", () => { at("drawing").onpointermove = null; });
addEventListener("hashchange", () => attempt(show));
at("connect").elements.server.value = new URLSearchParams(location.search).get("server")
  ?? "http://127.0.0.1:8080";
