// Which release is shown, and whether another one is in force meanwhile.
import * as api from "./api.js";
import { decide } from "./case.js";
import { button, byID, counted, el, first, plain, put } from "./dom.js";
import { differences, Model } from "./model.js";
import { showModel } from "./show.js";
import { alarm, model, state, tried } from "./state.js";

/** How often it is asked which model is in force, in milliseconds. */
const PAUSE = 3000;

const named = (release, otherwise) => [release?.name, release?.version].filter(Boolean).join(" ") || otherwise;

/** A time as people have it. */
const time = (text) => new Date(text).toLocaleString("en-GB", { dateStyle: "medium", timeStyle: "short" });

/** The name, the version and the time of the model that is shown. */
export function drawHead() {
  const it = model();
  const isChanged = state.shown === "changed";
  const name = it.release?.name ?? (it.services.length === 1 ? it.name(it.services[0].name) : "Decisions");
  const { about } = state.models.inForce;
  const parts = [isChanged ? "changed, not in force" : it.release?.version ? `version ${it.release.version}` : "no release",
    !isChanged && about ? `in force since ${time(about.since)}` : null, !isChanged && it.release?.why ? it.release.why : null,
    `${counted(it.decisions.length, "decision")}, ${counted(it.services.length, "service")}`,
    `SHA-256 ${it.sha256.slice(0, 12)}..`];
  put(byID("title"), name);
  byID("title").title = plain(name);
  document.title = plain(`${name}: decisions`);
  document.documentElement.lang = it.language || "en";
  put(byID("model"), parts.filter(Boolean).flatMap((part, at) => [at > 0 ? " " : "", el("span", { class: "part" }, part)]));
}

/** The model in force, with since when. */
export async function readInForce() {
  const it = new Model(await api.inForce());
  const about = await api.about();
  if (about.sha256 === it.sha256) it.about = about;
  return it;
}

let told = "";

/** Looks whether another model is in force, and says so. */
export async function look() {
  const shown = state.models.inForce;
  if (!shown || document.hidden) return;
  let sum;
  try {
    sum = await api.sumInForce();
  } catch {
    // What is not reached is said where it is asked for.
    return;
  }
  if (!sum || sum === told) return;
  told = sum;
  if (sum === shown.sha256) byID("banner").hidden = true;
  else await tried(async () => drawBanner(await readInForce()));
}

function drawBanner(other) {
  const number = (place) => Number(place.split("/").at(-1)) + 1;
  const changes = differences(state.models.inForce, other).map(({ name, how, places }) =>
    el("li", {}, `${name}: ${how}`, places.length > 0 ? `, rule ${first(places.map(number))}` : ""));
  const since = other.about ? ` since ${time(other.about.since)}` : "";
  put(byID("banner"),
    el("p", {}, el("strong", {}, "Another release is in force: "), `${named(other.release, `SHA-256 ${other.sha256.slice(0, 12)}..`)}${since}. `,
      "This page still answers by the one that is shown. ", button("Show the one in force", () => take(other))),
    changes.length > 0 ? el("details", { open: changes.length <= 5 }, el("summary", {}, `What changed: ${counted(changes.length, "decision")}`),
      el("ul", {}, changes)) : el("p", {}, "No decision differs."));
  byID("banner").hidden = false;
}

/** Shows a model that came in force, with the same inputs. */
async function take(other) {
  byID("banner").hidden = true;
  state.models.inForce = other;
  state.told = {};
  alarm("");
  showModel();
  if (Object.keys(state.inputs).length > 0) await decide();
}

/** Looks from now on. */
export function watch() {
  setInterval(look, PAUSE);
}
