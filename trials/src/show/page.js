"use strict";
// Puts the pieces of each call into their slots. What they look like, and what is reached or
// broken, was settled when the page was written.
for (const station of document.querySelectorAll(".station")) {
  const film = JSON.parse(station.querySelector("script").textContent);
  const slots = [...station.querySelectorAll("figure .slot")];
  const slider = station.querySelector("input");
  const told = station.querySelector(".told");
  const read = station.querySelector(".read");
  const calls = [...station.querySelectorAll(".calls button")];
  const last = calls.length - 1;
  const wholeEvening = told.textContent;
  const invitation = read.textContent;
  const shown = [];
  let step = last;
  let before = false;
  let slotRead = -1;

  // A slot is written as steps, each with the piece that it gets there.
  const pieceAt = (changes, now) => {
    let piece = changes[1];
    for (let place = 0; place < changes.length && changes[place] <= now; place += 2) piece = changes[place + 1];
    return piece;
  };

  // Without a charge nothing is read any more.
  const reading = (charge) => {
    slotRead = charge ? slots.indexOf(charge.parentNode) : -1;
    read.textContent = charge ? charge.querySelector("title").textContent : invitation;
    read.classList.toggle("full", Boolean(charge));
    for (const other of station.querySelectorAll(".charge.read-now")) other.classList.remove("read-now");
    if (charge) charge.classList.add("read-now");
  };

  const draw = () => {
    const focused = document.activeElement && document.activeElement.closest(".charge");
    const slotFocused = focused ? slots.indexOf(focused.parentNode) : -1;
    slots.forEach((slot, place) => {
      const piece = pieceAt(film.slots[place], before ? step - 1 : step);
      if (shown[place] === piece) return;
      slot.innerHTML = film.pieces[piece];
      shown[place] = piece;
    });
    // What is read goes on being read, with its start of now.
    const charge = slotRead < 0 ? null : slots[slotRead].querySelector(".charge");
    if (charge) reading(charge);
    if (slotFocused >= 0 && slots[slotFocused].firstChild) slots[slotFocused].firstChild.focus();
  };

  const tell = () => {
    const current = calls[step];
    calls.forEach((call) => call.setAttribute("aria-current", call === current ? "step" : "false"));
    const list = current.closest("ol");
    if (list.scrollHeight > list.clientHeight) {
      list.scrollTop = current.offsetTop - list.offsetTop - list.clientHeight / 2;
    }
    const [line, call, answer, meaning] = [...current.children].map((part) => part.textContent);
    const words = `line ${line}: ${call} \u2192 ${answer}${meaning ? ` (${meaning})` : ""}`;
    const plan = film.plans.indexOf(step);
    const moment = `Replan ${plan + 1} of ${film.plans.length}, ${before ? "before" : "after"} `;
    told.textContent = (plan < 0 ? "After " : moment) + words;
  };

  const show = (next, beforeIt = false) => {
    step = Math.max(0, Math.min(last, next));
    before = beforeIt && step > 0;
    station.classList.toggle("before", before);
    slider.value = step;
    draw();
    tell();
  };

  // Through the replans: before it, after it, before the next one; from the end on to the first.
  const planOn = () => {
    if (before) return show(step);
    const next = film.plans.find((plan) => plan > step);
    if (next !== undefined) show(next, true);
    else if (step === last && film.plans.length) show(film.plans[0], true);
  };
  const planBack = () => {
    if (!before && film.plans.includes(step)) return show(step, true);
    const earlier = film.plans.filter((plan) => plan < step);
    if (earlier.length) show(earlier[earlier.length - 1]);
  };
  const go = {
    "plan-back": planBack,
    "back": () => show(step - 1),
    "on": () => show(before ? step : step + 1),
    "plan-on": planOn,
    "end": () => {
      show(last);
      told.textContent = wholeEvening;
    },
  };
  if (!film.plans.length) {
    for (const button of station.querySelectorAll('[data-go^="plan"]')) button.disabled = true;
  }

  station.addEventListener("click", (event) => {
    const button = event.target.closest("button");
    if (button && button.dataset.go) go[button.dataset.go]();
    if (button && button.dataset.step) show(Number(button.dataset.step));
  });
  slider.addEventListener("input", () => show(Number(slider.value)));
  for (const kind of ["pointerover", "focusin", "click"]) {
    station.querySelector("figure").addEventListener(kind, (event) => {
      const charge = event.target.closest(".charge");
      if (charge) reading(charge);
    });
  }
  read.addEventListener("click", () => reading(null));
  station.addEventListener("keydown", (event) => {
    if (event.key === "Escape") reading(null);
    if (event.target === slider) return;
    const name = { ArrowLeft: "back", ArrowRight: "on", End: "end" }[event.key];
    if (!name) return;
    event.preventDefault();
    go[event.shiftKey && name !== "end" ? `plan-${name}` : name]();
  });
}
