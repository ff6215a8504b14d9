// Names at the head of a table that is scrolled: one that is partly covered is shown in what is left of its column.

/** Fits the names of the columns that scroll between the number of the rule and the columns that stay. */
export function fitNames(scroller, head) {
  // A name that is cut would let its column shrink: each is measured with its whole name, and keeps that width.
  for (const it of head.querySelectorAll(".cut")) {
    it.classList.remove("cut", "hardly");
    it.style.minWidth = "";
  }
  const [rule, ...columns] = [...head.querySelectorAll("tr:first-child > th")].map((it) => ({ it, box: it.getBoundingClientRect() }));
  if (!rule || rule.box.width === 0) return;
  const frame = scroller.getBoundingClientRect();
  const stays = columns.filter(({ it }) => it.dataset.stay && getComputedStyle(it).right !== "auto").map(({ box }) => box.left);
  const [start, end] = [rule.box.right, Math.min(frame.left + scroller.clientWidth, ...stays)];
  const cut = columns.filter(({ it }) => it.matches(".input")).map(({ it, box }) =>
    ({ it, box, before: Math.max(0, start - box.left), seen: Math.min(end, box.right) - Math.max(start, box.left) }))
    .filter(({ box, seen }) => seen > 0 && seen < box.width - 1);
  for (const { it, box, before, seen } of cut) {
    it.classList.add("cut");
    it.style.minWidth = `${box.width}px`;
    it.style.setProperty("--before", `${before}px`);
    it.style.setProperty("--seen", `${seen}px`);
    it.style.setProperty("--high", `${box.height}px`);
  }
  // Where there is no room for its words, dots stand for the name.
  const isLarger = (name) => name.scrollWidth > name.clientWidth || name.scrollHeight > name.clientHeight;
  const hardly = cut.map(({ it }) => isLarger(it.querySelector(".head")));
  cut.forEach(({ it }, at) => it.classList.toggle("hardly", hardly[at]));
}
