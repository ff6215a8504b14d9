// The panes. Where there is room they keep their places, and tabs change the one at the left; else tabs show one at a time.
import { byID } from "./dom.js";

const WIDE = matchMedia("(min-width: 1100px)");
/** The panes that keep their places. */
const FIXED = ["open", "map"];

/** What the browser remembers under this name: that the decision has more width. */
const WIDENED = "widened";

export const isWide = () => WIDE.matches;

/** The tab that is shown: of the left pane where there is room for all. */
export const currentTab = () => document.body.dataset[isWide() ? "work" : "tab"];

/** Shows a pane; each keeps what it holds. */
export function showTab(name) {
  const { dataset } = document.body;
  if (!FIXED.includes(name)) dataset.work = name;
  dataset.tab = name;
  mark();
}

function mark() {
  const { tab, work } = document.body.dataset;
  for (const pane of document.querySelectorAll(".pane")) {
    pane.classList.toggle("worked", pane.dataset.pane === work);
    pane.classList.toggle("shown", pane.dataset.pane === tab);
  }
  for (const it of byID("tabs").children) {
    const isCurrent = it.dataset.tab === currentTab();
    it.setAttribute("aria-selected", isCurrent);
    it.tabIndex = isCurrent ? 0 : -1;
    if (isCurrent) it.scrollIntoView({ block: "nearest", inline: "nearest" });
  }
}

function widen(is) {
  byID("main").classList.toggle("widened", is);
  byID("widen").setAttribute("aria-pressed", is);
}

/** Lets the decision have more width, and remembers it where the browser may. */
export function listenWiden() {
  const kept = (work) => {
    try {
      return work(localStorage);
    } catch {
      return null;
    }
  };
  widen(kept((it) => it.getItem(WIDENED)) === "true");
  byID("widen").addEventListener("click", () => {
    const is = !byID("main").classList.contains("widened");
    widen(is);
    kept((it) => (is ? it.setItem(WIDENED, "true") : it.removeItem(WIDENED)));
  });
}

/** Lets tabs be picked by the pointer and by arrows; `onpick` is called with the name of the one that was. */
export function listenTabs(onpick) {
  const pick = (tab) => {
    showTab(tab.dataset.tab);
    onpick(tab.dataset.tab);
  };
  byID("tabs").addEventListener("click", ({ target }) => target.dataset.tab && pick(target));
  byID("tabs").addEventListener("keydown", (event) => {
    const tabs = [...byID("tabs").children].filter((it) => it.checkVisibility());
    const at = tabs.indexOf(event.target);
    const to = { ArrowRight: at + 1, ArrowLeft: at - 1, Home: 0, End: tabs.length - 1 }[event.key];
    if (to === undefined || at < 0) return;
    event.preventDefault();
    const tab = tabs[(to + tabs.length) % tabs.length];
    pick(tab);
    tab.focus();
  });
  WIDE.addEventListener("change", mark);
  mark();
}
