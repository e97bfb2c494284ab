// Shows what the program printed, and posts what is pressed. Printed text is put in as text, never as HTML.
"use strict";

const part = (name) => document.getElementById(name);
const all = (selector) => document.querySelectorAll(selector);
const DISPLAY = /^(FOR HIRE|HIRED|STOPPED) T(\d) Z(\d+)(?: (\S+) \+(\S+))?$/;
const KEYS = ["hire", "stop", "clear", "position", "zone", "supplement"];
const LONG = 6;  // letters of a fare that still stand large
let next = 0;
let receipt = false;  // a receipt is printed whose END hasn't come
let isDark = false;

async function post(name, number = 0) {
  if (KEYS.includes(name)) part("refusal").textContent = "";
  await fetch("act", { method: "POST", headers: { "Content-Type": "application/json" }, body: JSON.stringify({ name, number }) });
}

function show({ operating, position, zone, fare, supplements }) {
  for (const lamp of all("#lamps li")) lamp.classList.toggle("on", lamp.dataset.position === operating);
  for (const [name, text] of Object.entries({ position, zone, fare, supplements })) {
    part(name).textContent = text ?? "";
    part(name).parentElement.hidden = name !== "fare" && text === undefined;
  }
  part("fare").classList.toggle("long", (fare ?? "").length > LONG);
  for (const [name, number] of Object.entries({ position, zone })) {
    for (const button of all(`button[data-act="${name}"]`)) button.setAttribute("aria-pressed", button.dataset.number === number);
  }
}

// A receipt comes onto the paper line by line; one that is torn off by a display stays as it was printed.
function take(line) {
  const display = DISPLAY.exec(line);
  if (line.startsWith("RECEIPT ")) receipt = true;
  if (receipt && !display) {
    part("paper").textContent += line + "\n" + (line === "END" ? "\n" : "");
    part("printer").scrollTop = part("printer").scrollHeight;
  } else if (line.startsWith("REFUSED ")) {
    part("refusal").textContent = line;
  }
  if (display) {
    const [, operating, position, zone, fare, supplements] = display;
    show({ operating, position, zone, fare, supplements });
  }
  if (display || line === "END") receipt = false;
}

const during = (seconds) => (seconds < 60 ? `${seconds} s` : `${Math.floor(seconds / 60)} min ${seconds % 60} s`);

function showSupply({ dark, away }) {
  if ((dark !== null) !== isDark) show({});  // what was shown before is gone; the display comes with the supply
  isDark = dark !== null;
  part("meter").classList.toggle("dark", isDark);
  part("supply").textContent = isDark ? `No supply for ${during(dark)}.` : away === null ? "" : `The supply was away for ${during(away)}.`;
  for (const [name, isOff] of [["lose supply", isDark], ["kill", isDark], ["regain supply", !isDark]]) {
    document.querySelector(`button[data-act="${name}"]`).disabled = isOff;
  }
}

function showEvents({ clock, killed, status, fault, drive }) {
  part("clock").textContent = clock;
  part("drive").textContent = drive;
  part("killed").hidden = killed === null;
  part("lost").textContent = killed?.lost ?? "";
  part("totals").textContent = killed?.totals ?? "";
  part("ended").textContent = fault ?? (status === null ? "" : `The program ended with status ${status}.`);
}

function showSpeed(speed) {
  part("speed").value = part("speed-shown").textContent = speed;
}

async function look() {
  try {
    const state = await (await fetch(`state?since=${next}`)).json();
    if (next === 0) {
      showSpeed(state.speed);
      document.querySelector(`input[name="pace"][value="${state.pace}"]`).checked = true;
    }
    showSupply(state);
    state.lines.forEach(take);
    if (isDark) show({});
    next = state.next;
    showEvents(state);
  } catch {
    part("ended").textContent = "The server doesn't answer.";
  }
  setTimeout(look, 150);
}

// A button for each position, zone and supplement of the tariff.
async function makeKeys() {
  const keys = await (await fetch("keys")).json();
  for (const row of all(".numbered")) {
    row.hidden = keys[row.dataset.list].length === 0;
    for (const [number, amount] of keys[row.dataset.list].map((said) => [said].flat())) {
      const button = document.createElement("button");
      button.textContent = amount === undefined ? number : `${number}: ${amount}`;
      button.setAttribute("aria-label", `${row.dataset.key} ${number}`);
      Object.assign(button.dataset, { act: row.dataset.key, number });
      row.append(button);
    }
  }
}

document.addEventListener("click", ({ target }) => {
  if (target.dataset?.act) post(target.dataset.act, Number(target.dataset.number ?? 0));
});
part("speed").addEventListener("input", (event) => {
  showSpeed(event.target.value);
  post("speed", Number(event.target.value));
});
part("paces").addEventListener("change", (event) => post("pace", Number(event.target.value)));
makeKeys().then(look);
