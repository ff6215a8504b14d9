// What happens on the page when something is typed, clicked or dropped.
import * as api from "./api.js";
import { takeBeside } from "./beside.js";
import { clear, decide, fillFrom, readAddress, remember } from "./case.js";
import { keepCase, saveCases, takeCases } from "./cases.js";
import { takeModel } from "./changed.js";
import { takeRequests } from "./counting.js";
import { byID, readJSON } from "./dom.js";
import { currentTab, listenTabs, listenWiden, showTab } from "./panes.js";
import { findRecorded } from "./recorded.js";
import { readInForce, watch } from "./release.js";
import { listenSearch } from "./search.js";
import { chooseService, showModel, showWhich } from "./show.js";
import { state, tried } from "./state.js";

/** Whether a file is a model: it is XML, or one JSON object with decisions. Else it has requests. */
async function isModel(file) {
  const start = (await file.slice(0, 4096).text()).trimStart();
  if (start.startsWith("<") || file.name.endsWith(".dmn")) return true;
  if (file.size > 16 * 1024 * 1024) return false;
  try {
    const whole = JSON.parse(await file.text());
    return Array.isArray((whole.model ?? whole).decisions);
  } catch {
    return false;
  }
}

/** What is pressed to see another part. */
function listenParts() {
  byID("skip").addEventListener("click", () => {
    showTab("open");
    byID("decisions-title").focus();
  });
  listenTabs(remember);
  listenWiden();
  listenSearch();
  byID("badge").addEventListener("click", () => {
    showTab("checks");
    remember();
  });
  byID("which").addEventListener("change", (event) => showWhich(event.target.value));
  addEventListener("popstate", () => state.models.inForce && readAddress());
}

/** What is typed and pressed at a case. */
function listenCase() {
  byID("service").addEventListener("change", (event) => {
    state.told = {};
    chooseService(event.target.value);
  });
  byID("ask").addEventListener("submit", (event) => {
    event.preventDefault();
    decide(true);
  });
  byID("ask").addEventListener("change", () => decide());
  byID("clear").addEventListener("click", () => {
    clear();
    remember();
  });
  byID("json").addEventListener("change", (event) => tried(async () => {
    fillFrom(null, readJSON(event.target.value || "{}"));
    await decide();
  }));
  byID("keep").addEventListener("click", keepCase);
  byID("cases-save").addEventListener("click", saveCases);
  byID("record").addEventListener("submit", (event) => {
    event.preventDefault();
    findRecorded(byID("record-file").files[0]);
  });
}

/** The fields that take a file, by what takes it. */
const TAKING = { "changed-file": takeModel, "coverage-file": takeRequests, "beside-file": takeBeside, "cases-file": takeCases };

/** Files that are picked or dropped. */
function listenFiles() {
  for (const [id, take] of Object.entries(TAKING)) {
    byID(id).addEventListener("change", ({ target }) => {
      const [file] = target.files;
      // The same file can be taken again.
      target.value = "";
      if (file) take(file);
    });
  }
  byID("stop").addEventListener("click", () => state.coverage?.stop());
  addEventListener("dragover", (event) => event.preventDefault());
  addEventListener("drop", async (event) => {
    event.preventDefault();
    const [file] = event.dataTransfer.files;
    if (!file) return;
    if (await isModel(file)) await takeModel(file);
    else await ({ cases: takeCases, try: state.models.changed && takeBeside }[currentTab()] || takeRequests)(file);
  });
}

function listen() {
  listenParts();
  listenCase();
  listenFiles();
  byID("guard").addEventListener("submit", (event) => {
    event.preventDefault();
    api.useToken(byID("token").value.trim());
    byID("guard").hidden = true;
    begin();
  });
}

async function begin() {
  await tried(async () => {
    state.models.inForce = await readInForce();
    showModel();
    await readAddress();
    // Tests ask when all of it was there.
    requestAnimationFrame(() => setTimeout(() => {
      performance.mark("shown");
      document.documentElement.dataset.ready = "true";
    }));
  });
}

listen();
begin();
watch();
