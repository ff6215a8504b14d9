// What the page knows at the moment, and how it says that something went wrong.
import { Problem } from "./api.js";
import { byID, put } from "./dom.js";

/** The models, what is shown, what was told of the inputs under each, the number and the abort of what is asked. */
export const state = {
  models: {},
  told: {},
  shown: "inForce",
  service: "",
  inputs: {},
  asked: 0,
  asking: null,
  form: null,
  graph: null,
  views: new Map(),
  coverage: null,
  open: "",
  found: null,
  kept: [],
  isReading: false,
};

export const model = () => state.models[state.shown];
export const alarm = (text) => put(byID("alert"), text);

/** Runs something that may be refused, and says where it is. */
export async function tried(work) {
  try {
    alarm("");
    return await work();
  } catch (fault) {
    if (fault.name === "AbortError") return undefined;
    if (fault.status === 401) byID("guard").hidden = false;
    alarm(fault.message);
    if (!(fault instanceof Problem) && !(fault instanceof SyntaxError)) console.error(fault);
    return undefined;
  }
}
