// One stream of changes for all pages of a browser that are open. Browsers open only a few connections to one place, and each page had one.
"use strict";

(() => {
  const SILENT = 90;
  // Each open page by its port: what it shows, as of which revision, and when it was heard of.
  const pages = new Map();
  let source = null, opening = null;

  function tell(kind, words, see) {
    for (const [port, page] of pages) if (see === undefined || page.see === see) port.postMessage([kind, words]);
  }

  function lost() {
    const ports = [...pages.keys()];
    stop();
    pages.clear();
    for (const port of ports) port.postMessage(["lost"]);
  }

  function stop() {
    if (source) source.close();
    source = null;
  }

  // Of the same page in several windows the oldest counts.
  function open() {
    opening = null;
    stop();
    const seen = new Map();
    for (const page of pages.values()) {
      const other = seen.get(page.see);
      if (!other || Number(page.from) < Number(other.from)) seen.set(page.see, page);
    }
    if (!seen.size) return;
    const asked = [...seen.values()].flatMap(({see, from, run}) => [["see", see], ["from", from], ["run", run]]);
    source = new EventSource(`/.events?${new URLSearchParams(asked)}`);
    source.onmessage = message => hear(JSON.parse(message.data));
    source.addEventListener("beat", () => tell("beat"));
    source.addEventListener("again", ({data}) => tell("again", null, JSON.parse(data).see));
    source.onerror = lost;
  }

  function hear(message) {
    for (const page of pages.values()) if (page.see === message.see) page.from = String(message.revision);
    tell("message", message, message.see);
    tell("beat");
  }

  function change() {
    if (opening === null) opening = setTimeout(open, 30);
  }

  onconnect = ({ports: [port]}) => {
    port.onmessage = ({data: [kind, words]}) => {
      const page = pages.get(port);
      if (kind === "see") { pages.set(port, {...words, heard: Date.now()}); change(); }
      if (kind === "leave" && pages.delete(port)) change();
      if (kind === "ping" && page) page.heard = Date.now();
    };
  };

  setInterval(() => {
    const gone = [...pages].filter(([, page]) => Date.now() - page.heard > 1000 * SILENT);
    for (const [port] of gone) pages.delete(port);
    if (gone.length) change();
  }, 15000);
})();
