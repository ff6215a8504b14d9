// What is asked of the service. Nothing is computed here.
import { readJSON, writeJSON } from "./dom.js";

let token = "";

export function useToken(text) {
  token = text;
}

/** An answer that is a problem, as docs/HTTP.md has them. */
export class Problem extends Error {
  constructor(body) {
    super([body.title, body.detail].filter(Boolean).join(": ") || "The service gave no answer");
    Object.assign(this, { body, status: body.status, kind: String(body.type ?? "").replace("/problems/", "") });
  }
}

/** Sends a request, and gives the answer once it begins. */
async function send(path, method, body, signal) {
  const headers = token ? { Authorization: `Bearer ${token}` } : {};
  try {
    return await fetch(path, { method, body, headers, signal, cache: "no-store" });
  } catch (fault) {
    if (fault.name === "AbortError") throw fault;
    throw new Problem({ title: "The service is not reached", detail: fault.message });
  }
}

const ask = async (path, body, signal) => whole(await send(path, body === undefined ? "GET" : "POST", body, signal));

/** The releases of the folder that the service follows; none where it follows none. */
export async function releases() {
  try {
    return (await ask("v1/releases")).releases;
  } catch (problem) {
    if (problem.kind !== "path") throw problem;
    return [];
  }
}

/** Asks recorded requests of two models; gives what comes as it is found. */
export async function trial(query, signal) {
  const answer = await send(`v1/trial?${query}`, "POST", undefined, signal);
  if (!answer.ok) await whole(answer);
  return answer.body;
}

/** What an answer has, once it is whole. */
async function whole(answer) {
  const text = await answer.text();
  let value;
  try {
    value = readJSON(text);
  } catch {
    value = { title: `The service answered with ${answer.status}`, detail: text.slice(0, 200) };
    if (answer.ok) throw new Problem(value);
  }
  if (!answer.ok) throw new Problem({ status: answer.status, ...value });
  return value;
}

/** The model in force, with all that is known of it; and what is said of it in short. */
export const inForce = () => ask("v1/model?whole=true");
export const about = () => ask("v1/model");

/** The SHA-256 of the model in force. */
export async function sumInForce() {
  const headers = token ? { Authorization: `Bearer ${token}` } : {};
  const answer = await fetch("v1/model", { method: "HEAD", headers, cache: "no-store" });
  return answer.ok ? answer.headers.get("ETag")?.replaceAll('"', "") : undefined;
}

/** Asks about a model; one that the service keeps no longer, since another came in force, is told to it again. */
async function askOf(model, work) {
  try {
    return await work();
  } catch (problem) {
    if (problem.kind !== "unkept") throw problem;
    await check(new Blob([writeJSON(model.source)]));
    return work();
  }
}

/** Checks a model, which is a Blob of JSON or DMN. */
export const check = (blob) => ask("v1/check", blob);

/** What is found of the tables of a model: lines, or null where the engine does not tell it. */
export const tables = (model) => askOf(model, () => ask(`v1/tables?model=${model.sha256}`));

/** How the answer to inputs comes about under a model: `result` or `problem`, and `decisions`. */
export async function explain(model, service, inputs, { misses, signal }) {
  const query = `?model=${model.sha256}${misses ? "&misses=true" : ""}`;
  try {
    return await askOf(model, () => ask(`v1/explain/${encodeURIComponent(service)}${query}`, writeJSON(inputs), signal));
  } catch (problem) {
    if (problem.kind !== "limit") throw problem;
    return { problem, decisions: problem.body.decisions };
  }
}

/** What is counted over lines of requests. */
export const cover = (model, service, lines, signal) =>
  askOf(model, () => ask(`v1/coverage?model=${model.sha256}&service=${encodeURIComponent(service)}`, lines, signal));
