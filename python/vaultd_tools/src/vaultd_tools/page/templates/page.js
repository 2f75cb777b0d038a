// Keeps an open page right: puts in what the stream tells, reads the page again where that isn't enough, and shows times as the clock here has them.
"use strict";

(() => {
  const data = document.body.dataset;
  const PAUSES = [1, 2, 3, 5];
  const WITHOUT_STREAM = 15;
  const SILENT = 25;
  const LONGEST = 15;
  // For so long at most nothing moves under a pointer that is pressed; and the forms of a page last for a day, so it is read again before that.
  const PRESSED = 3;
  const OLD = 6 * 3600;
  const byId = id => document.getElementById(id);
  // Two clocks, since one of them may be set, and the other one stands still while the machine sleeps.
  const clocks = () => [performance.now(), Date.now()];
  // `right` is when what stands here was surely right, `sure` whether this stream has said so.
  let source = null, sure = false, stateBefore = null, heard = clocks(), right = performance.timeOrigin, failures = 0, retry = null;
  let again = null, more = false, waiting = [], known = true, lostAt = null, pressedAt = -Infinity, read = Date.now();

  // Times

  const clock = new Intl.DateTimeFormat("en-GB", {hour: "2-digit", minute: "2-digit"});
  const day = new Intl.DateTimeFormat("en-GB", {day: "numeric", month: "short"});
  const year = new Intl.DateTimeFormat("en-GB", {day: "numeric", month: "short", year: "numeric"});

  function spoken(time) {
    const now = new Date();
    if (time.toDateString() === now.toDateString()) return clock.format(time);
    return `${(time.getFullYear() === now.getFullYear() ? day : year).format(time)}, ${clock.format(time)}`;
  }

  function showTimes(root) {
    for (const element of root.querySelectorAll("time[datetime]")) {
      const time = new Date(element.dateTime);
      if (isNaN(time)) continue;
      const text = spoken(time);
      if (element.textContent !== text) element.textContent = text;
      element.title = time.toLocaleString("en-GB");
    }
  }

  // Changes

  function made(html) {
    const template = document.createElement("template");
    template.innerHTML = html.trim();
    showTimes(template.content);
    return template.content.firstElementChild;
  }

  // The place of something that the page server sent. If there is none, the page has to be read again.
  function there(element, name) {
    if (!element) throw new Error(`${name} isn't here`);
    return element;
  }

  // Does something that may take the focus away, and gives it back: to the same link, to the one in the same row, or to any like it.
  function keepingFocus(root, change) {
    const focused = document.activeElement, inside = root.contains(focused) && focused !== root;
    const row = inside ? focused.closest("[id]").id : "", href = inside ? focused.getAttribute("href") : null;
    change();
    if (!inside || document.activeElement === focused) return;
    const links = [byId(row), root].flatMap(where => where ? [...where.querySelectorAll("a")] : []);
    const same = href === null ? byId(row) : links.find(link => link.getAttribute("href") === href);
    (focused.isConnected ? focused : same || byId("main")).focus({preventScroll: true});
  }

  // A row of the tree may stand in a branch that this page doesn't have yet.
  function put(id, html) {
    const row = id.startsWith("row:");
    if (row && !byId(id)) return;
    const element = there(byId(id), id);
    keepingFocus(element, () => { element.innerHTML = html; });
    showTimes(element);
    if (id === "tree-words") for (const each of document.querySelectorAll("[data-beneath]")) each.textContent = element.textContent;
    const branch = element.parentElement;
    if (branch.tagName === "DETAILS" && !("touched" in branch.dataset) && branch.closest("[data-opens]")) {
      branch.open = element.querySelector(".beneath") !== null;
    }
    if (row) flash(element);
  }

  // What somebody opened in an item stays open where a new one takes its place.
  function stayOpen(old, fresh) {
    for (const branch of old.querySelectorAll("details[id][open]")) {
      const same = [...fresh.querySelectorAll("details")].find(each => each.id === branch.id);
      if (same) same.open = true;
    }
  }

  function flash(element) {
    element.classList.remove("fresh");
    void element.offsetWidth;
    element.classList.add("fresh");
  }

  // What is gone goes first, so that what stays isn't moved: that would take the focus and what is selected.
  function arrange(id, order, items) {
    const list = there(byId(id), id), wanted = new Set(order.map(key => `${id}:${key}`));
    keepingFocus(list, () => {
      for (const item of [...list.children]) if (!wanted.has(item.id)) item.remove();
      const old = new Map([...list.children].map(child => [child.id, child]));
      order.forEach((key, place) => {
        const name = `${id}:${key}`;
        let item = old.get(name);
        if (key in items) {
          const fresh = made(items[key]);
          if (item) { stayOpen(item, fresh); item.replaceWith(fresh); } else flash(fresh);
          item = fresh;
        }
        there(item, name);
        if (list.children[place] !== item) list.insertBefore(item, list.children[place] || null);
      });
    });
  }

  function apply(message) {
    for (const [id, html] of Object.entries(message.texts || {})) put(id, html);
    for (const [id, {order, items}] of Object.entries(message.lists || {})) arrange(id, order, items);
    for (const [id, html] of message.added || []) {
      const list = byId(id), item = made(html);
      if (list && !list.dataset.more && !byId(item.querySelector(".row").id)) { list.append(item); flash(item); }
    }
    if (message.say.length) byId("said").textContent = message.say.join(". ");
    data.revision = message.revision;
    tellOfHeld();
  }

  // Branches of the tree, which come when they are opened, and what is open when somebody comes back to the page

  let loading = 0;

  async function load(list) {
    if (!list || !list.dataset.more) return;
    const at = list.dataset.more;
    loading++;
    try {
      const answer = await fetch(`/.branch?${new URLSearchParams({at})}`, {cache: "no-store", signal: AbortSignal.timeout(1000 * LONGEST)});
      if (!answer.ok) throw new Error(`the page server said ${answer.status}`);
      const html = await answer.text();
      if (list.dataset.more) {
        keepingFocus(list, () => { list.innerHTML = html; });
        delete list.dataset.more;
      }
    } finally {
      loading--;
      takeIn();
    }
  }

  const keyOf = branch => branch.id || branch.firstElementChild.id;

  document.addEventListener("toggle", toggled => {
    const branch = toggled.target;
    if (branch.tagName !== "DETAILS") return;
    if (branch.open) load(branch.querySelector(":scope > ul[data-more]")).catch(() => {});
    if ("touched" in branch.dataset) {
      history.replaceState({...history.state, open: {...history.state?.open, [keyOf(branch)]: branch.open}}, "");
    }
  }, true);

  async function openAsBefore() {
    for (const [key, open] of Object.entries(history.state?.open || {})) {
      const found = byId(key), branch = found && (found.tagName === "DETAILS" ? found : found.parentElement);
      if (!branch) continue;
      branch.dataset.touched = "";
      branch.open = open;
      if (open) await load(branch.querySelector(":scope > ul[data-more]"));
    }
    if (history.state?.scroll) scrollTo(0, history.state.scroll);
  }

  // The whole page again

  async function readAgain() {
    const asked = Date.now();
    const answer = await fetch(location.href, {cache: "no-store", signal: AbortSignal.timeout(1000 * LONGEST)});
    const page = new DOMParser().parseFromString(await answer.text(), "text/html");
    if (!page.getElementById("state")) throw new Error(`the page server said ${answer.status}`);
    if (answer.status === 404) { location.reload(); return; }
    while (isPressed()) await new Promise(go => setTimeout(go, 50));
    for (const id of ["state", "pill"]) byId(id).replaceChildren(...page.getElementById(id).childNodes);
    known = answer.ok;
    if (known) takeOver(page, asked);
    showTimes(document);
  }

  // Forms are alike by what they are for, and one is begun where somebody has chosen or written something, or is about to.
  const same = form => [form.action, form.querySelector("[type=hidden][name=place]")?.value, !!form.querySelector("[webkitdirectory]")].join(" ");
  const isBegun = form => uploads.has(form) || form.contains(document.activeElement) || [...form.elements].some(
    field => field.selectedIndex > 0 || field.type !== "hidden" && "defaultValue" in field && field.value !== field.defaultValue);

  // What works by a script alone.
  function showWithScript() {
    for (const folder of document.querySelectorAll("[data-folder]")) folder.hidden = false;
    for (const ask of document.querySelectorAll("[data-ask-notify]")) ask.hidden = !window.Notification || Notification.permission !== "default";
  }

  function takeOver(page, asked) {
    const main = byId("main"), begun = new Map([...main.querySelectorAll("form")].filter(isBegun).map(form => [same(form), form]));
    const token = page.querySelector("[name=token]")?.value;
    keepingFocus(main, () => {
      main.replaceChildren(...page.getElementById("main").childNodes);
      for (const form of main.querySelectorAll("form")) begun.get(same(form)) && form.replaceWith(begun.get(same(form)));
    });
    showWithScript();
    if (token) for (const field of document.querySelectorAll("[name=token]")) field.value = token;
    data.revision = page.body.dataset.revision;
    data.run = page.body.dataset.run;
    right = read = asked;
    try { late(); } catch { more = true; }
    openAsBefore().catch(() => {});
    tellOfHeld(true);
  }

  // What was told while the page was read, or something was pressed.
  function late() {
    waiting.splice(0).filter(message => message.revision > Number(data.revision)).forEach(apply);
  }

  const isPressed = () => performance.now() - pressedAt < 1000 * PRESSED;

  function takeIn() {
    if (again || loading || isPressed()) return;
    try { late(); } catch { readNow(); }
  }

  // A click comes about only if what was pressed still stands there when it is let go.
  addEventListener("pointerdown", () => { pressedAt = performance.now(); }, true);
  for (const kind of ["pointerup", "pointercancel"]) addEventListener(kind, () => setTimeout(() => { pressedAt = -Infinity; takeIn(); }), true);

  async function readOnceMore() {
    try {
      do { more = false; await readAgain(); } while (more && known);
      lostAt = null;
    } finally {
      again = null;
      waiting = [];
    }
  }

  // Reads the page again. Where that is going on, it is done once more after it.
  function demandAgain() {
    if (again) more = true;
    else again = readOnceMore();
    return again;
  }

  function readNow() {
    demandAgain().then(() => { if (known) pill(); else lose(); }, lose);
  }

  // The stream

  function pill() {
    const words = document.querySelector("[data-pill]"), led = document.querySelector(".led"), live = source && sure && !again;
    led.classList.toggle("lost", lostAt !== null);
    led.classList.toggle("stale", !live);
    if (lostAt) words.textContent = `no page server since ${spoken(lostAt)}`;
    else if (led.classList.contains("live")) words.textContent = live ? "live" : `as of ${spoken(new Date(right))}`;
    banner();
  }

  // The page server is away: that is said as plainly as if the vault were.
  function banner() {
    const state = byId("state"), shown = state.querySelector("[data-lost]");
    if (lostAt && !shown) {
      const words = document.createElement("p"), strong = document.createElement("strong");
      stateBefore = [...state.childNodes];
      words.className = "alarm";
      words.dataset.lost = "";
      strong.textContent = `No page server since ${spoken(lostAt)}:`;
      words.append(strong, ` nothing answers at ${location.host}. What stands here was so then. The page asks again by itself, and sends nothing until then.`);
      state.replaceChildren(words);
    } else if (!lostAt && shown) {
      state.replaceChildren(...stateBefore);
    }
  }

  function isThere() {
    heard = clocks();
    sure = true;
    failures = 0;
    if (!again) right = Date.now();
    pill();
  }

  function hear(message) {
    waiting.push(message);
    takeIn();
    isThere();
  }

  // One stream for all pages of this browser that are open, by a worker that they share; where there are no such workers, one of this page's own.
  const script = document.currentScript.src.replace("page.js", "stream.js");

  function streamOf(asked, told) {
    if (!window.SharedWorker) {
      const stream = new EventSource(`/.events?${new URLSearchParams(asked)}`);
      stream.onmessage = message => told.message(JSON.parse(message.data));
      for (const kind of ["beat", "again"]) stream.addEventListener(kind, told[kind]);
      stream.onerror = told.lost;
      return {close: () => stream.close(), ping: () => {}};
    }
    const {port} = new SharedWorker(script, "vault");
    let open = true;
    port.onmessage = ({data: [kind, words]}) => { if (open) told[kind](words); };
    port.postMessage(["see", asked]);
    return {close: () => { open = false; port.postMessage(["leave"]); port.close(); }, ping: () => port.postMessage(["ping"])};
  }

  function connect() {
    if (source || document.hidden) return;
    sure = false;
    heard = clocks();
    source = streamOf({see: data.watch, from: data.revision, run: data.run},
                      {message: hear, beat: isThere, again: () => { readNow(); isThere(); }, lost: lose});
  }

  function disconnect() {
    if (source) source.close();
    source = null;
    pill();
  }

  // The stream ended, or can't be had: the page is read as a whole now and then, until there is a stream again.
  function lose() {
    disconnect();
    clearTimeout(retry);
    const pause = known && !lostAt && failures > 1 ? WITHOUT_STREAM : PAUSES[Math.min(failures, PAUSES.length - 1)];
    failures++;
    if (!document.hidden) retry = setTimeout(tryAgain, 1000 * pause * (1 + Math.random() / 4));
  }

  async function tryAgain() {
    clearTimeout(retry);
    try {
      await demandAgain();
    } catch {
      lostAt = lostAt || new Date(right);
    }
    if (lostAt || !known) lose(); else connect();
    pill();
  }

  setInterval(() => {
    if (source) source.ping();
    if (source && Math.max(...clocks().map((now, clock) => now - heard[clock])) > 1000 * SILENT) lose();
    if (data.watch) pill();
    takeIn();
    if (data.designer && source && !again && Date.now() - read > 1000 * OLD) readNow();
    showTimes(document);
  }, 5000);

  // A page that nobody sees asks for nothing.
  let hiding = null;
  function look() {
    clearTimeout(hiding);
    if (document.hidden) hiding = setTimeout(() => { disconnect(); clearTimeout(retry); }, 5000);
    else if (!source && failures) tryAgain();
    else connect();
  }

  document.addEventListener("click", clicked => {
    const summary = clicked.target.closest("summary");
    if (summary && !clicked.target.closest("a")) summary.parentElement.dataset.touched = "";
  });
  // What is sent to nobody would be lost with what somebody wrote. Files are sent by a request of their own, which tells how far it is.
  document.addEventListener("submit", sent => {
    const form = sent.target;
    if (form.method !== "post") return;
    if (lostAt || uploads.has(form) || form.querySelector("[type=file]")) sent.preventDefault();
    if (!lostAt && !uploads.has(form) && form.querySelector("[type=file]")) upload(form);
  });
  document.addEventListener("keydown", pressed => {
    const typing = /^(INPUT|TEXTAREA|SELECT)$/.test(document.activeElement.tagName);
    if (pressed.key === "/" && !typing && !pressed.ctrlKey && !pressed.metaKey && !pressed.altKey) {
      pressed.preventDefault();
      byId("q").focus();
    }
  });

  // Files that are put

  const uploads = new Set();
  const inBytes = count => {
    const unit = Math.min(4, Math.floor(Math.log10(Math.max(1, count)) / 3));
    return `${Number((count / 1000 ** unit).toPrecision(3))} ${["bytes", "kB", "MB", "GB", "TB"][unit]}`;
  };

  // The fields of a form, and then its files: of a folder what says what is left out comes first, and what is hidden doesn't come at all.
  function formData(form) {
    const found = new FormData(), files = [...form.querySelector("[type=file]").files];
    const path = file => file.webkitRelativePath || file.name, rules = file => /^[^/]*\/\.vaultignore$/.test(path(file));
    for (const field of form.elements) if (field.name && field.type !== "file") found.append(field.name, field.value);
    const shown = files.filter(file => rules(file) || !path(file).split("/").slice(1).some(name => name.startsWith(".")));
    for (const file of [...shown.filter(rules), ...shown.filter(file => !rules(file))]) found.append("file", file, path(file));
    return found;
  }

  function upload(form) {
    const request = new XMLHttpRequest(), bar = document.createElement("progress"), words = document.createElement("span"), stop = document.createElement("button");
    const button = form.querySelector("button"), ended = sentence => {
      uploads.delete(form);
      button.disabled = false;
      for (const each of [bar, stop]) each.remove();
      words.setAttribute("role", "alert");
      words.textContent = sentence;
    };
    form.querySelectorAll("[data-told]").forEach(each => each.remove());
    words.dataset.told = "";
    words.textContent = "begins";
    bar.setAttribute("aria-label", "How far the upload is");
    stop.type = "button";
    stop.textContent = "Stop";
    stop.addEventListener("click", () => request.abort());
    button.disabled = true;
    uploads.add(form);
    form.append(bar, words, stop);
    request.upload.onprogress = ({loaded, total}) => {
      bar.max = total;
      bar.value = loaded;
      words.textContent = loaded < total ? `${inBytes(loaded)} of ${inBytes(total)}` : "all is sent";
    };
    request.onload = () => {
      if (request.status !== 200) { ended(request.getResponseHeader("Content-Type")?.startsWith("text/plain") ? request.responseText : `The web server said ${request.status}.`); return; }
      uploads.delete(form);
      location.assign(request.responseURL);
    };
    request.onerror = () => ended("The upload was broken off. What was put before stands as drafts; put all once more.");
    request.onabort = () => ended("Stopped. What was put before stands as drafts.");
    request.open("POST", form.action);
    request.send(formData(form));
  }

  addEventListener("beforeunload", leaving => { if (uploads.size) leaving.preventDefault(); });

  addEventListener("beforeprint", () => {
    const words = document.querySelector("[data-pill]");
    if (words.textContent === "live") words.textContent = `as of ${spoken(new Date(right))}`;
  });

  addEventListener("pagehide", () => history.replaceState({...history.state, scroll: scrollY}, ""));
  // What waits and is one's own is told once it is held: in the title, and by a notification if that is allowed.

  const title = document.title;

  function own() {
    const found = new Map();
    if (data.designer) for (const each of document.querySelectorAll(`[data-owner="${data.designer}"]`)) {
      found.set(each.dataset.claim, "held" in each.dataset || found.get(each.dataset.claim) === true);
    }
    return found;
  }

  let before = own();

  function tellOfHeld(fresh) {
    const now = own(), held = [...before].filter(([claim, was]) => !was && now.get(claim) === true).map(([claim]) => claim);
    const other = now.size !== before.size || [...now].some(([claim, is]) => before.get(claim) !== is);
    before = now;
    // What can be done with it is another thing now.
    if (other && !fresh && document.querySelector(".acts")) setTimeout(readNow);
    if (!held.length) return;
    const words = `${held.join(", ")} ${held.length === 1 ? "is" : "are"} held`;
    document.title = `(${words}) ${title}`;
    if (window.Notification && Notification.permission === "granted") new Notification(words, {body: title, icon: "/.static/icon.svg"});
  }

  addEventListener("focus", () => { document.title = title; });
  document.addEventListener("click", clicked => {
    const ask = clicked.target.closest("[data-ask-notify]");
    if (ask) Notification.requestPermission().then(() => { ask.hidden = true; });
  });

  showWithScript();
  showTimes(document);
  openAsBefore().catch(() => {});
  if (data.watch) {
    addEventListener("afterprint", pill);
    document.addEventListener("visibilitychange", look);
    addEventListener("pagehide", disconnect);
    addEventListener("pageshow", look);
    connect();
  }
})();
