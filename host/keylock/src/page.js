"use strict";
(() => {
  const links = [...document.querySelectorAll(".calls a")];
  if (links.length === 0) return;
  const list = document.querySelector(".calls");
  const about = document.querySelector(".about");
  const main = document.querySelector("main");
  const stage = document.querySelector(".stage");
  const status = document.querySelector("[role=status]");
  const [back, next] = document.querySelectorAll(".moves button");
  const count = document.querySelector(".count");
  const last = links.length - 1;
  let now = -1;
  let shown;
  let later;

  /* A long journal's steps and what they are made of, one a line. */
  const lines = (name) => document.querySelector(`script.${name}`)?.textContent.split("\n");
  const [sections, pieces] = [lines("sections"), lines("pieces")];
  const whole = (text) => text.replace(/<(\d+)>/g, (_, place) => whole(pieces[place]));

  /* A step, drawn if it doesn't stand in the page. */
  const step = (place) => {
    if (sections) stage.innerHTML = whole(sections[place]);
    return document.getElementById(`step-${place}`);
  };

  /* Where to look: what was refused, or isn't as expected. */
  const striking = links.flatMap((link, place) => (link.matches(".no, .odd") ? [place] : []));

  /* Only the list scrolls, and only as far as needed. */
  const bringIntoList = (link) => {
    const [frame, box] = [list.getBoundingClientRect(), link.getBoundingClientRect()];
    const margin = box.height * 2;
    if (box.top - margin < frame.top) list.scrollTop += box.top - margin - frame.top;
    if (box.bottom + margin > frame.bottom) list.scrollTop += box.bottom + margin - frame.bottom;
  };

  /* Of a long list, only what is seen is laid out, so the place is known when it has been. */
  const settle = () => requestAnimationFrame(() => requestAnimationFrame(() => bringIntoList(links[now])));

  /* Browsers allow only so many changes a second, and a key can be held down. */
  const address = () => {
    try { history.replaceState(null, "", `#step-${now}`); } catch { /* It stays as it is. */ }
  };

  const show = (wanted) => {
    const place = Math.max(0, Math.min(last, wanted));
    if (place === now) return;
    shown?.classList.remove("current");
    links[now]?.removeAttribute("aria-current");
    now = place;
    shown = step(now);
    shown.classList.add("current");
    links[now].setAttribute("aria-current", "step");
    bringIntoList(links[now]);
    settle();
    if (about) about.classList.toggle("away", now > 0);
    back.setAttribute("aria-disabled", now === 0);
    next.setAttribute("aria-disabled", now === last);
    count.innerHTML = `<b>Step ${now}</b> of 0 to ${last}`;
    status.textContent = shown.dataset.said;
    window.scrollTo(0, 0);
    clearTimeout(later);
    later = setTimeout(address, 100);
  };

  /* The step in the address; undefined where it names none. */
  const wanted = () => {
    const found = /^#step-(\d+)$/.exec(location.hash);
    return found ? Number(found[1]) : undefined;
  };

  /* Up and down scroll a step that is longer than the window. */
  const scrolls = () => document.documentElement.scrollHeight > window.innerHeight + 1;

  const target = (event) => {
    switch (event.key) {
      case "ArrowRight": case "j": case "PageDown": return now + 1;
      case "ArrowLeft": case "k": case "PageUp": return now - 1;
      case "ArrowDown": return scrolls() ? undefined : now + 1;
      case "ArrowUp": return scrolls() ? undefined : now - 1;
      case "n": return striking.find((place) => place > now);
      case "p": return striking.findLast((place) => place < now);
      case "Home": return 0;
      case "End": return last;
      case " ": return event.target.closest?.("button, summary") ? undefined : now + (event.shiftKey ? -1 : 1);
      default: return undefined;
    }
  };

  document.addEventListener("keydown", (event) => {
    if (event.ctrlKey || event.altKey || event.metaKey) return;
    const place = target(event);
    if (place === undefined) return;
    event.preventDefault();
    show(place);
  });
  list.addEventListener("click", (event) => {
    const link = event.target.closest("a");
    if (!link) return;
    event.preventDefault();
    show(links.indexOf(link));
  });
  document.querySelector(".skip").addEventListener("click", (event) => {
    event.preventDefault();
    main.focus();
  });
  back.addEventListener("click", () => show(now - 1));
  next.addEventListener("click", () => show(now + 1));
  window.addEventListener("hashchange", () => show(wanted() ?? now));
  window.addEventListener("resize", settle);
  show(wanted() ?? 0);
})();
