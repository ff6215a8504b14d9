// What was found at the places of a table, and the marks that stand there.
import { button, counted } from "./dom.js";
import { sentence } from "./model.js";

/** How many findings a mark tells. */
const MOST_SAID = 5;

/** The findings of a model in a table, by the number of their rule from 0: each with the kind and the number of its column. */
export function byRule(model, pointer) {
  const start = `${pointer}/rules/`;
  const found = new Map();
  for (const finding of model.findings) {
    if (!finding.pointer?.startsWith(start)) continue;
    const [rule, kind, column] = finding.pointer.slice(start.length).split("/");
    put(found, Number(rule), { finding, kind, column: Number(column) });
  }
  return found;
}

/** Puts one more to what was found at a rule. */
export function put(found, rule, it) {
  found.set(rule, [...found.get(rule) ?? [], it]);
}

/** A button that says what was found at a place; none where nothing was. */
export function mark(findings, say) {
  if (findings.length === 0) return null;
  const more = findings.length > MOST_SAID ? `; and ${counted(findings.length - MOST_SAID, "other")}` : "";
  const text = findings.slice(0, MOST_SAID).map(sentence).join("; ") + more;
  const word = findings.some((finding) => finding.fault) ? "fault" : "warning";
  const said = `${word}: ${text}`;
  return button("!", () => say(said), { class: `mark ${word}`, title: text, "aria-label": said });
}
