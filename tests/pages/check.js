// What a page lacks for those who see little, hear it read out, or have no mouse. Its value is a list of complaints.
(() => {
  const found = [];
  const shown = element => element.checkVisibility({checkOpacity: true, checkVisibilityCSS: true});
  const numbers = color => {
    const parts = color.match(/[\d.]+/g).map(Number);
    if (color.startsWith("color(")) for (let i = 0; i < 3; i++) parts[i] *= 255;
    return parts.length < 4 ? [...parts, 1] : parts;
  };
  const over = (top, below) => [0, 1, 2].map(i => top[i] * top[3] + below[i] * (1 - top[3])).concat(1);
  const light = color => {
    const [r, g, b] = color.slice(0, 3).map(c => c / 255).map(c => c <= 0.04045 ? c / 12.92 : ((c + 0.055) / 1.055) ** 2.4);
    return 0.2126 * r + 0.7152 * g + 0.0722 * b;
  };
  const contrast = (one, other) => {
    const [high, low] = [light(one), light(other)].sort((a, b) => b - a);
    return (high + 0.05) / (low + 0.05);
  };
  const background = element => {
    const layers = [];
    for (let at = element; at; at = at.parentElement) layers.unshift(numbers(getComputedStyle(at).backgroundColor));
    const scheme = matchMedia("(prefers-color-scheme: dark)").matches ? [18, 18, 18, 1] : [255, 255, 255, 1];
    return layers.reduce((below, top) => over(top, below), scheme);
  };

  // Contrast of every piece of text that is seen
  const texts = document.createTreeWalker(document.body, NodeFilter.SHOW_TEXT);
  while (texts.nextNode()) {
    const element = texts.currentNode.parentElement, text = texts.currentNode.textContent.trim();
    if (!text || !shown(element) || element.closest(".hidden, .skip, script, style, noscript")) continue;
    const style = getComputedStyle(element), size = parseFloat(style.fontSize);
    const large = size >= 24 || size >= 18.66 && Number(style.fontWeight) >= 700;
    const ground = background(element), ratio = contrast(over(numbers(style.color), ground), ground);
    if (ratio < (large ? 3 : 4.5)) found.push(`contrast ${ratio.toFixed(2)} of "${text.slice(0, 30)}" (${element.className})`);
  }

  // Names of what can be used
  const named = element => (element.getAttribute("aria-label") || element.textContent || "").trim();
  for (const field of document.querySelectorAll("input:not([type=hidden]), select, textarea")) {
    if (!document.querySelector(`label[for="${field.id}"]`) && !field.getAttribute("aria-label")) found.push(`no label: ${field.outerHTML}`);
  }
  for (const element of document.querySelectorAll("a, button, summary")) if (!named(element)) found.push(`no name: ${element.outerHTML}`);
  for (const picture of document.querySelectorAll("img, svg")) {
    if (picture.getAttribute("aria-hidden") !== "true" && !picture.getAttribute("aria-label") && !picture.alt) found.push(`no text: ${picture.outerHTML}`);
  }
  for (const section of document.querySelectorAll("[aria-labelledby]")) {
    if (!document.getElementById(section.getAttribute("aria-labelledby"))) found.push(`labelled by nothing: ${section.outerHTML.slice(0, 60)}`);
  }
  for (const table of document.querySelectorAll("table")) if (!table.querySelector("th[scope=col]")) found.push("a table without heads of columns");

  // The order of the page
  const heads = [...document.querySelectorAll("h1, h2, h3, h4")].map(head => Number(head.tagName[1]));
  if (heads.filter(level => level === 1).length !== 1 || heads[0] !== 1) found.push(`headings ${heads}`);
  heads.forEach((level, at) => { if (at && level > heads[at - 1] + 1) found.push(`headings ${heads}`); });
  for (const mark of ["html[lang]", "title", "main", "header", "[aria-live=polite]"]) {
    if (document.querySelectorAll(mark).length !== 1) found.push(`not one ${mark}`);
  }
  for (const skip of document.querySelectorAll("a.skip")) {
    if (!document.getElementById(skip.getAttribute("href").slice(1))) found.push(`leads nowhere: ${skip.outerHTML}`);
  }
  if (!document.querySelector("a.skip")) found.push("no way past the head");
  const ids = [...document.querySelectorAll("[id]")].map(element => element.id);
  if (new Set(ids).size !== ids.length) found.push("an id stands there twice");

  // Nothing leaves its card, and nothing is wider than the window
  for (const card of document.querySelectorAll(".card")) {
    const edge = card.getBoundingClientRect().right + 1;
    const out = [...card.querySelectorAll("*")].find(element => shown(element) && !element.closest(".hidden, svg, .stacks thead") && element.getBoundingClientRect().right > edge);
    if (out) found.push(`leaves its card: ${out.outerHTML.slice(0, 60)}`);
  }
  const wide = document.documentElement.scrollWidth - document.documentElement.clientWidth;
  if (wide > 0) found.push(`wider than the window by ${wide}`);
  return found;
})()
