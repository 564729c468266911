"use strict";
(function () {
  // Moves from step to step by keyboard or button. Without this script the page is the same, and is scrolled.
  const steps = Array.from(document.querySelectorAll("tbody.step"));
  const bar = document.getElementById("moves");
  const told = document.getElementById("where");
  let now = -1;

  function go(number) {
    if (number < 0 || number >= steps.length) return;
    if (now >= 0) { steps[now].classList.remove("now"); steps[now].tabIndex = -1; }
    now = number;
    const step = steps[now];
    step.classList.add("now");
    step.tabIndex = 0;
    step.focus({ preventScroll: true });
    step.scrollIntoView({ block: "nearest" });
    const room = document.documentElement.clientHeight;
    const box = step.getBoundingClientRect();
    if (box.top < room * 0.2 || box.bottom > room * 0.9) window.scrollBy(0, box.top - room * 0.3);
    told.textContent = "step " + (now + 1) + " of " + steps.length + ": " + step.getAttribute("aria-label");
  }
  function next(mark) {
    for (let n = 1; n <= steps.length; n++) {
      const at = (now + n + steps.length) % steps.length;
      if (steps[at].classList.contains(mark)) return go(at);
    }
  }
  const moves = {
    n: () => go(now + 1), j: () => go(now + 1), p: () => go(now - 1), k: () => go(now - 1),
    c: () => next("touched"), u: () => next("split"), s: () => next("stop")
  };
  document.addEventListener("keydown", function (event) {
    if (event.ctrlKey || event.altKey || event.metaKey) return;
    if (moves[event.key]) { moves[event.key](); event.preventDefault(); }
  });
  bar.querySelectorAll("button").forEach(function (button) {
    button.addEventListener("click", () => moves[button.dataset.key]());
  });
  bar.hidden = steps.length === 0;
  window.addEventListener("hashchange", toHash);
  function toHash() {
    const at = steps.findIndex((step) => "#" + step.id === location.hash);
    if (at >= 0) go(at);
  }
  toHash();
})();
