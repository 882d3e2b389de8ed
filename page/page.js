"use strict";
// An editor beside what the module makes of its text: one call for each change.

/** Subcommands by their numbers (enum mtpbank_subcommand), and what is added where a fault is to be explained. */
const PLAY = 0, LADDER = 1, CAPTURE = 2, HISTORY_A = 3, HISTORY_B = 4, AUDIT = 5, DECODE = 6, DECODE_WIDE = 7,
  TERMINAL = 8, UNITS = 10, EXPLAINED = 16;

/** What can stand in the editor, by the ending of its files. */
const KINDS = {
  play: {
    title: "script of two ends",
    views: [["Chart", LADDER], ["Answers", PLAY], ["History of a", HISTORY_A], ["History of b", HISTORY_B]],
  },
  terminal: { title: "lines that drive one end", views: [["Answers", TERMINAL]] },
  history: { title: "history to audit", views: [["Verdict", AUDIT]] },
  units: { title: "octets of a line", views: [["Units", UNITS]] },
  decode: { title: "units to decode", views: [["Decoded", DECODE]] },
  decode_wide: { title: "wide units to decode", views: [["Decoded", DECODE_WIDE]] },
};

/** More rows than these are shown as one text, without their lines. */
const MANY = 5000;

const $ = (id) => document.getElementById(id);
const encoder = new TextEncoder(), decoder = new TextDecoder();
let texts, kind = "play", view = 0, line = 0, fault = null, output = "";

/** How long it took last to show all, in milliseconds, and the timer of what isn't shown yet. */
let took = 0, pending = 0;

function element(name, kind, text) {
  const made = document.createElement(name);
  if (kind) made.className = kind;
  if (text !== undefined) made.textContent = text;
  return made;
}

// The editor: the text is painted below the textarea, whose own is transparent.

const lines = () => $("script").value.split("\n");
const isRemark = (text) => text.startsWith("#");

/** The place in a line at which the octet of this number stands: a fault is told by octets. */
function placeOfOctet(text, octet) {
  let octets = 0, place = 0;
  for (const character of text) {
    if (octets >= octet) break;
    octets += encoder.encode(character).length;
    place += character.length;
  }
  return place;
}

/** As an explanation shows a line: a dot for each octet that isn't a character of ASCII. */
const shown = (text) =>
  [...encoder.encode(text)].map((octet) => (octet < 32 || octet > 126 ? "." : String.fromCharCode(octet))).join("");

/** How many octets of the line stand before the piece of it that an explanation shows, behind two spaces or two dots. */
function cutBefore(whole, piece) {
  const rest = piece.slice(2);
  if (piece.startsWith("  ")) return 0;
  return whole.endsWith(rest) ? whole.length - rest.length : Math.max(whole.indexOf(rest.replace(/\.\.$/, "")), 0);
}

/** Where a fault is: its line, and there the word above the caret. */
function faultOf(told) {
  const number = /^fault line (\d+)/.exec(told);
  if (!number) return null;
  const at = Number(number[1]), text = lines()[at - 1] ?? "", all = told.trimEnd().split("\n");
  const caret = /^ *\^$/.test(all.at(-1)) && all.length >= 3 ? all.at(-1).length - 1 : -1;
  if (caret < 2) return { line: at, from: 0, to: text.length };
  const from = placeOfOctet(text, caret - 2 + cutBefore(shown(text), all.at(-2))), space = text.indexOf(" ", from);
  return { line: at, from, to: space < 0 ? text.length : Math.max(space, from + 1) };
}

/** The parts of a line, each with its kind. */
function partsOf(text, number) {
  if (fault?.line === number) {
    const { from, to } = fault;
    return [["", text.slice(0, from)], ["fault", text.slice(from, to) || " "], ["", text.slice(to)]];
  }
  if (isRemark(text)) return [["remark", text]];
  const space = text.indexOf(" ");
  return space < 0 ? [["word", text]] : [["word", text.slice(0, space)], ["", text.slice(space)]];
}

function paint() {
  const all = lines();
  $("numbers").textContent = all.map((_, at) => at + 1).join("\n");
  $("marks").replaceChildren(...all.map((text, at) => {
    const row = element("div", at + 1 === line ? "here" : "");
    for (const [kind, part] of partsOf(text, at + 1)) row.append(kind ? element("span", kind, part) : part);
    return row;
  }));
  follow();
}

/** The numbers and the painted text scroll with the textarea. */
function follow() {
  const { scrollLeft, scrollTop } = $("script");
  $("marks").style.transform = `translate(${-scrollLeft}px, ${-scrollTop}px)`;
  $("numbers").style.transform = `translateY(${-scrollTop}px)`;
}

const beginOf = (number) => lines().slice(0, number - 1).reduce((sum, text) => sum + text.length + 1, 0);
const lineOfCaret = () => $("script").value.slice(0, $("script").selectionStart).split("\n").length;

function bringLine(number) {
  const script = $("script"), height = 20, top = (number - 1) * height;
  if (top < script.scrollTop || top + 3 * height > script.scrollTop + script.clientHeight) {
    script.scrollTop = Math.max(top - script.clientHeight / 3, 0);
  }
  follow();
}

// The rows: each knows the line that it tells of, if one is known.

/** The line of each row of a chart: its first column, or that of the row above. */
function linesOfChart(rows) {
  let last = 0;
  return rows.map((row) => (last = Number(/^ *(\d+) /.exec(row.slice(0, 7))?.[1] ?? last)));
}

/** The line of each answer: the lines that aren't remarks, behind the one that opens the set, have one each. */
function linesOfAnswers(rows) {
  const asked = lines().flatMap((text, at) => (text === "" || isRemark(text) ? [] : [at + 1])).slice(1);
  return rows.map((_, at) => asked[at] ?? 0);
}

function linesOfRows(number, rows) {
  if (number === LADDER) return linesOfChart(rows);
  return number === PLAY ? linesOfAnswers(rows) : rows.map(() => 0);
}

/** A row, in which units that go over a link have the link's colour, and lost ones another. */
function rowOf(text, at, from) {
  const row = element("div", from ? "" : "head");
  row.id = `row-${at}`;
  row.setAttribute("role", "option");
  if (from) row.dataset.line = from;
  for (const part of text.split(/(x--\d+--|--\d+--x|--\d+-->|<--\d+--)/)) {
    const unit = /^[x<]?--(\d+)--[x>]?$/.exec(part);
    row.append(unit ? element("span", part.includes("x") ? "lost" : `link-${Number(unit[1]) % 4}`, part) : part);
  }
  return row;
}

function showRows(number, printed) {
  output = decoder.decode(printed);
  const rows = output.split("\n");
  if (rows.at(-1) === "") rows.pop();
  if (rows.length > MANY) {
    $("rows").replaceChildren(element("div", "", rows.join("\n")));
    return;
  }
  const from = linesOfRows(number, rows);
  const isFollowed = from.some((it) => it > 0);
  $("rows").replaceChildren(...rows.map((text, at) => rowOf(text, at, from[at])));
  if (!isFollowed) for (const row of $("rows").children) row.className = "";
  $("rows").removeAttribute("aria-activedescendant");
}

/** This line is the one that is looked at: its rows and itself are marked. */
function look(number) {
  line = number;
  for (const row of $("rows").children) row.classList.toggle("here", line > 0 && Number(row.dataset.line) === line);
  [...$("marks").children].forEach((row, at) => row.classList.toggle("here", at + 1 === line));
}

/** A row is chosen: its line is looked at, and the caret stands there. */
function choose(row) {
  for (const other of $("rows").querySelectorAll("[aria-selected]")) other.removeAttribute("aria-selected");
  if (!row) return;
  row.setAttribute("aria-selected", "true");
  $("rows").setAttribute("aria-activedescendant", row.id);
  row.scrollIntoView({ block: "nearest" });
  if (!row.dataset.line) return;
  const number = Number(row.dataset.line), begin = beginOf(number);
  $("script").setSelectionRange(begin, begin);
  look(number);
  bringLine(number);
}

function rowsKey(event) {
  const rows = [...$("rows").children], at = rows.findIndex((row) => row.hasAttribute("aria-selected"));
  const by = { ArrowDown: 1, ArrowUp: -1, PageDown: 20, PageUp: -20, Home: -rows.length, End: rows.length }[event.key];
  if (event.key === "Enter" && at >= 0) goTo(Number(rows[at].dataset.line ?? line), 0);
  else if (by && rows.length) choose(rows[Math.min(Math.max(at + by, 0), rows.length - 1)]);
  else return;
  event.preventDefault();
}

/** To this place of a line of the script, as the keyboard goes. */
function goTo(number, place, end = place) {
  if (!number) return;
  const begin = beginOf(number);
  $("script").focus();
  $("script").setSelectionRange(begin + place, begin + end);
  look(number);
  bringLine(number);
}

const goToFault = () => fault && goTo(fault.line, fault.from, fault.to);

/** To the row of the line in which the caret stands. */
function goToRow() {
  const row = $("rows").querySelector(`[data-line="${lineOfCaret()}"]`);
  $("rows").focus();
  choose(row);
}

function caretMoved() {
  if (document.activeElement !== $("script") || lineOfCaret() === line) return;
  look(lineOfCaret());
  $("rows").querySelector(".here")?.scrollIntoView({ block: "nearest" });
}

// What is shown.

function showViews() {
  $("views").replaceChildren(...KINDS[kind].views.map(([title], at) => {
    const tab = element("button", "", title);
    tab.type = "button";
    tab.setAttribute("role", "tab");
    tab.setAttribute("aria-selected", at === view);
    tab.setAttribute("aria-controls", "rows");
    tab.tabIndex = at === view ? 0 : -1;
    tab.onclick = () => chooseView(at);
    return tab;
  }));
  $("rows").setAttribute("aria-label", KINDS[kind].views[view][0]);
  $("capture").hidden = kind !== "play";
  $("audit").hidden = ![HISTORY_A, HISTORY_B].includes(KINDS[kind].views[view][1]);
}

function chooseView(at, takesFocus) {
  view = at;
  showViews();
  show();
  if (takesFocus) $("views").children[view].focus();
}

function viewsKey(event) {
  const count = KINDS[kind].views.length, by = { ArrowRight: 1, ArrowLeft: count - 1 }[event.key];
  if (by) chooseView((view + by) % count, true);
}

/** What the subcommand makes of the input; its fault is explained in any case. */
function made(number, input) {
  const explains = number === UNITS ? number : number + EXPLAINED;
  try {
    const asked = texts.make($("words").checked ? explains : number, input);
    return asked.told && !$("words").checked ? { printed: asked.printed, told: texts.make(explains, input).told } : asked;
  } catch (error) {
    return { printed: new Uint8Array(), told: `The module stopped: ${error.message}\n` };
  }
}

/** The module makes of the text what is shown, and what is told of its fault. */
function show() {
  clearTimeout(pending);
  pending = 0;
  const number = KINDS[kind].views[view][1], input = encoder.encode($("script").value);
  const begun = performance.now(), { printed, told } = made(number, input);
  const time = performance.now() - begun;
  fault = faultOf(told);
  $("told").textContent = told;
  $("fault").hidden = told === "";
  $("go").hidden = !fault;
  showRows(number, printed);
  paint();
  look(line);
  $("figures").textContent = `${input.length} octets in, ${printed.length} out, ${time.toFixed(1)} ms`;
  remember();
  took = performance.now() - begun;
}

/** The text was edited: what it makes is shown at once, or, where that takes long, when no key was pressed for a while. */
function edited() {
  line = lineOfCaret();
  if (took < 50) {
    show();
    return;
  }
  fault = null;
  paint();
  clearTimeout(pending);
  pending = setTimeout(show, Math.min(2 * took, 1000));
}

/** The address tells what is shown, so that it can be kept and given on. */
function remember() {
  const words = new URLSearchParams({ kind, view });
  const example = EXAMPLES.find((it) => it.kind === kind && it.text === $("script").value);
  $("example").value = example ? example.name : "";
  words.set(example ? "example" : "input", example ? example.name : $("script").value);
  if (words.toString().length < 8000) history.replaceState(null, "", `#${words}`);
}

function setText(text) {
  $("script").value = text;
  $("script").setSelectionRange(0, 0);
  $("script").scrollTo(0, 0);
  $("rows").scrollTo(0, 0);
  line = 0;
}

function setKind(to) {
  if (to !== kind) view = 0;
  kind = to;
  $("kind").value = kind;
  showViews();
}

function showExample(name) {
  const example = EXAMPLES.find((it) => it.name === name);
  if (!example) return false;
  setText(example.text);
  setKind(example.kind);
  return true;
}

function saveAs(name, type, octets) {
  const link = element("a");
  link.href = URL.createObjectURL(new Blob([octets], { type }));
  link.download = name;
  link.click();
  setTimeout(() => URL.revokeObjectURL(link.href), 1000);
}

function saveCapture() {
  const made = texts.make(CAPTURE, encoder.encode($("script").value));
  saveAs("mtpbank.pcap", "application/vnd.tcpdump.pcap", made.printed);
}

/** The history that is shown becomes the input. */
function auditIt() {
  setText(output);
  setKind("history");
  show();
}

async function openFile() {
  const file = $("open").files[0];
  if (!file) return;
  setText(await file.text());
  const ending = file.name.slice(file.name.lastIndexOf(".") + 1);
  setKind(KINDS[ending] ? ending : kind);
  show();
}

// The beginning.

function offerChoices() {
  const groups = {};
  $("example").add(new Option("(your own)", ""));
  for (const { group, name, label } of EXAMPLES) {
    groups[group] ??= $("example").appendChild(Object.assign(element("optgroup"), { label: group }));
    groups[group].append(new Option(label, name));
  }
  for (const [name, { title }] of Object.entries(KINDS)) $("kind").add(new Option(title, name));
}

function listen() {
  $("example").onchange = () => showExample($("example").value) && show();
  $("words").onchange = show;
  $("kind").onchange = () => { setKind($("kind").value); show(); };
  $("script").oninput = edited;
  $("script").onscroll = follow;
  $("script").onkeydown = (event) => {
    if (event.key === "Enter" && event.ctrlKey) goToRow();
  };
  document.onselectionchange = caretMoved;
  document.onkeydown = (event) => {
    if (event.key === "F8") goToFault();
  };
  $("rows").onclick = (event) => choose(event.target.closest("[role=option]"));
  $("rows").onkeydown = rowsKey;
  $("views").onkeydown = viewsKey;
  $("go").onclick = goToFault;
  $("save").onclick = () => saveAs(`mtpbank.${kind}`, "text/plain", $("script").value);
  $("capture").onclick = saveCapture;
  $("audit").onclick = auditIt;
  $("open").onchange = openFile;
}

/** What the address asks for, or the call. */
function begin() {
  const asked = new URLSearchParams(location.hash.slice(1));
  if (asked.has("input") && KINDS[asked.get("kind")]) {
    setText(asked.get("input"));
    setKind(asked.get("kind"));
  } else if (!showExample(asked.get("example"))) {
    showExample("call");
  }
  view = Math.min(Number(asked.get("view")) || 0, KINDS[kind].views.length - 1);
  showViews();
  show();
}

async function start() {
  $("badge").hidden = MODULE.proved;
  $("proved").textContent = MODULE.proved
    ? "Proved: what the module prints of an input is what the definitions say of it, up to its first fault. A prover " +
      "checked the contracts of all code that it was made of."
    : "This module was built without its proofs, from the same code: its checks at run time stop it where a fault of the " +
      "code shows.";
  try {
    texts = await Texts.start(Uint8Array.from(atob(MODULE.octets), (character) => character.charCodeAt(0)));
  } catch (error) {
    $("figures").textContent = `This browser can't run the module: ${error.message}`;
    return;
  }
  offerChoices();
  listen();
  begin();
  document.body.dataset.ready = "yes";
}

start();
