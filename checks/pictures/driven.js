// Does to a page what a user does, and leaves in #result as JSON what came of it. It stands behind the page's own script.
"use strict";

const said = { errors: [] };
addEventListener("error", (event) => said.errors.push(event.message));

const places = () => [...shownBy].filter(([box]) => !box.hasAttribute("hidden")).map(([box, shown]) => ({
  cpu: shown.cpu, begin: shown.begin, end: shown.end, isCoarse: shown.isCoarse,
  left: numberOf(box, "x"), width: numberOf(box, "width"),
}));
const numbersOf = (part) => [...part.matchAll(/[ML](\S+) /g)].map((found) => Number(found[1]));
const shownOf = (parts) => [...svg.querySelectorAll(parts)].filter((part) => titleOf(part) && !part.hasAttribute("hidden"));

// What is seen: boxes, the numbers in finer ones, marks and arrows with their titles, and the lines of the axes with their labels.
const seen = () => ({
  from: view.from, to: view.to, boxes: places(),
  numbers: [...finer.querySelectorAll("text")].map((text) => numberOf(text, "x")),
  marks: shownOf("use").map((mark) => ({ title: titleOf(mark), place: numberOf(mark, "x") })),
  arrows: shownOf(".p, .q").map((arrow) => ({ title: titleOf(arrow), places: numbersOf(arrow.getAttribute("d")) })),
  axes: [...svg.querySelectorAll("path.g")].map((line) => ({ places: numbersOf(line.getAttribute("d").replace("V", " V")),
    label: line.nextElementSibling.textContent })),
});
const facts = () => {
  const texts = [...document.querySelectorAll("#told > *")].map((part) => part.textContent);
  return Object.fromEntries(texts.flatMap((text, at) => (at % 2 ? [] : [[text, texts[at + 1]]])));
};
const frame = () => new Promise((done) => setTimeout(done, 20));

// A key goes to what has the focus, once that is settled, as a user's does.
async function press(key) {
  await frame();
  document.activeElement.dispatchEvent(new KeyboardEvent("keydown", { key, bubbles: true, cancelable: true }));
  await frame();
}

// The middle of a box on the screen, and what the browser finds there.
function pointAt(box) {
  const { x, y, width, height } = box.getBoundingClientRect();
  const [clientX, clientY] = [x + width / 2, y + height / 2].map(Math.round);
  const target = document.elementFromPoint(clientX, clientY);
  target.dispatchEvent(new PointerEvent("pointermove", { clientX, clientY, bubbles: true }));
  return { clientX, clientY, target };
}

function wheel({ clientX, clientY, target }, more) {
  target.dispatchEvent(new WheelEvent("wheel", { clientX, clientY, bubbles: true, cancelable: true, ...more }));
}

function search(words) {
  document.querySelector("#search input").value = words;
  document.querySelector("#search input").dispatchEvent(new InputEvent("input", { bubbles: true }));
  return {
    found: document.querySelector("#found").textContent,
    rows: rows.flatMap((row, at) => (row.hidden ? [] : [at])),
    bright: shownOf("rect").filter((box) => !box.classList.contains("dim")).flatMap((box) => titleOf(box).match(/^task \d+/) ?? []),
    reached: rows.flatMap((row, at) => (row.tabIndex === 0 ? [at] : [])),
  };
}

// Zooms with a box that has the focus, and gives each time whether the focus is on a box that is seen or on the picture.
async function zoomFocused() {
  const kept = [];
  for (const key of ["ArrowDown", "+", "+", "+", "+", "+", "ArrowDown", "ArrowRight", "ArrowRight", "-", "-", "-", "-", "-"]) {
    await press(key);
    kept.push(document.activeElement === picture || shownBy.has(document.activeElement) && isSeen(document.activeElement));
  }
  return { kept, from: view.from, to: view.to };
}

// The end of the time, where the boxes of stretches of which nothing is told stay as they are.
function lookAtEnd() {
  look(whole.to - (whole.to - whole.from) / 50, whole.to);
  return { ...seen(), behind: svg.querySelectorAll(".behind:not([hidden])").length };
}

// How the picture stands in a window so wide: its scale, its smallest letters, the texts that overlap or aren't in it, and by how much the
// figures are cut.
function layoutAt(width) {
  document.body.style.width = `${width - 28}px`;
  const ground = svg.getBoundingClientRect(), figures = document.querySelector("#figures");
  const texts = [...svg.querySelectorAll("text")].filter((text) => !text.hasAttribute("hidden"));
  const boxes = texts.map((text) => ({ words: text.textContent, ...text.getBoundingClientRect().toJSON() }));
  const apart = (one, other) => one.right - 1 <= other.left || one.bottom - 2 <= other.top;
  const layout = {
    scale: ground.width / svg.viewBox.baseVal.width, cut: figures.scrollWidth - figures.clientWidth,
    letters: Math.min(...texts.map((text) => parseFloat(getComputedStyle(text).fontSize))),
    overlapping: boxes.flatMap((one, at) => boxes.slice(at + 1).filter((other) => !apart(one, other) && !apart(other, one))
      .map((other) => [one.words, other.words])),
    outside: boxes.filter((box) => box.left < ground.left || ground.right < box.right).map((box) => box.words),
  };
  document.body.style.width = "";
  return layout;
}

async function drive() {
  said.layouts = [390, 768, 1280].map(layoutAt);
  said.dark = matchMedia("(prefers-color-scheme: dark)").matches;
  said.grounds = [getComputedStyle(document.body).backgroundColor, getComputedStyle(svg.querySelector(".w")).fill];
  said.whole = seen();
  const box = [...shownBy.keys()][Math.floor(shownBy.size / 2)];
  box.scrollIntoView({ block: "center" });
  const point = pointAt(box);
  said.pointed = { isBox: point.target === box, cpu: shownBy.get(box).cpu, time: timeOf(placeOfPointer(point)), facts: facts() };
  for (let times = 0; times < 13; times += 1) wheel(point, { deltaY: -100 });
  said.zoomed = { ...seen(), time: timeOf(placeOfPointer(point)), facts: facts() };
  wheel(point, { deltaY: 100, shiftKey: true });
  said.moved = seen();
  said.sought = ["task 4", "4", "nobody", ""].map(search);
  for (let times = 0; times < 80; times += 1) wheel(point, { deltaY: -100 });
  said.shortest = { from: view.from, to: view.to, time: timeOf(placeOfPointer(point)) };
  picture.focus();
  await press("0");
  said.back = seen();
  for (const key of ["+", "+", "ArrowRight", "-"]) await press(key);
  said.keyed = { from: view.from, to: view.to };
  await press("0");
  await press("ArrowDown");
  await press("ArrowDown");
  said.focused = { at: [...shownBy.keys()].indexOf(document.activeElement), facts: facts() };
  said.kept = await zoomFocused();
  rows[2].focus();
  said.row = facts();
  svg.scrollIntoView({ block: "start" });
  pointAt(svg.querySelector(".h"));
  said.nothing = facts();
  said.end = lookAtEnd();
}

drive().catch((error) => said.errors.push(error.stack)).then(() => {
  const result = document.createElement("pre");
  result.id = "result";
  result.textContent = JSON.stringify(said);
  document.body.append(result);
});
