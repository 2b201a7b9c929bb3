// Begins, when all parts are there.
"use strict";

let waves = null;

function ready() {
  const red = one(".node.blamed[data-block], .edge.blamed");
  showLevel(red && red.closest("#flat") === null ? red.closest("figure").id : "level");
  one("#close").onclick = closeBlock;
  if (one("#larger")) {
    one("#larger").onclick = () => resize(1.25);
    one("#smaller").onclick = () => resize(0.8);
    one("#fit").onclick = () => resize(0);
  }
  one("#block-filter").oninput = filterBlocks;
  if (one("#rows")) {
    waves = new Waves();
    if (window.innerWidth < 832) one("#chooser").open = false;
    if (waves.wanted) showBlock(waves.wanted);
  }
  const again = () => {
    fitPictures();
    if (waves) waves.changed();
  };
  addEventListener("resize", again);
  addEventListener("scroll", () => waves && [...waves.rowsBox.children].some(row => row.dirty) && waves.changed(), {passive: true});
  matchMedia("(prefers-color-scheme: dark)").addEventListener("change", again);
  const paper = on => {
    root.classList.toggle("paper", on);
    if (!waves) return;
    waves.paper = on;
    waves.draw();
  };
  addEventListener("beforeprint", () => paper(true));
  addEventListener("afterprint", () => paper(false));
  root.dataset.ready = "yes";
}

ready();
