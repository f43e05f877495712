"use strict";
// Steps through the run: what stands after act k is what stood first, with the changes of acts 1 to k.
(() => {
  const data = JSON.parse(document.getElementById("data").textContent);
  const at = (id) => document.getElementById(id);
  const picture = at("picture"), slider = at("slider"), hover = at("hover");
  const count = data.acts.length;
  let now = 0;
  let marked = null;

  const order = new Intl.Collator("en", { numeric: true });

  // Going on takes up what was gathered; going back begins anew.
  let gathered = { upTo: 0, stands: new Map(Object.entries(data.first)) };
  const standing = (k) => {
    if (k < gathered.upTo) gathered = { upTo: 0, stands: new Map(Object.entries(data.first)) };
    for (; gathered.upTo < k; gathered.upTo += 1) {
      for (const [key, value] of data.acts[gathered.upTo][4]) gathered.stands.set(data.keys[key], value);
    }
    return gathered.stands;
  };

  const make = (name, text, css) => {
    const it = document.createElement(name);
    if (text !== undefined) it.textContent = text;
    if (css) it.className = css;
    return it;
  };

  // A table of what stands under keys that begin with `prefix`, by the number or name behind it.
  const table = (title, rows) => {
    if (rows.length === 0) return [];
    const made = make("table");
    for (const [name, value, css] of rows) {
      const row = make("tr", undefined, css);
      row.append(make("td", name), make("td", value));
      made.append(row);
    }
    return [make("h2", title), made];
  };

  const under = (stands, fresh, prefix) => {
    const rows = [];
    for (const [key, value] of stands) {
      if (key.startsWith(prefix) && value !== "") {
        const css = [fresh.has(key) ? "new" : "", value.startsWith("closed") ? "closed" : ""].join(" ").trim();
        rows.push([key.slice(prefix.length), value, css]);
      }
    }
    return rows.sort((one, other) => order.compare(one[0], other[0]));
  };

  // The log, the newest record first, as far as it is read.
  const MOST = 48;
  const log = (stands, fresh) => {
    const place = (row) => Number(row[1].split(" ")[1] || -1);
    const rows = under(stands, fresh, "log ").sort((one, other) => place(other) - place(one));
    const older = rows.length - MOST;
    return older > 0 ? [...rows.slice(0, MOST), ["…", `${older} older`, "closed"]] : rows;
  };

  const one = (stands, fresh, key, name) =>
    stands.get(key) ? [[name, stands.get(key), fresh.has(key) ? "new" : ""]] : [];

  const control = (stands, fresh) => {
    const [, last, owner, alternate, taking] = /^(\S+) OWNER (\S+) ALT (\S+) TAKING (\S+)/.exec(stands.get("control"));
    const css = fresh.has("control") ? "new" : "";
    return [["owner", owner, css], ["alternate", alternate, css], ["taking", taking, css], ["last number", last, css],
      ...(/ FORMAT (\S+)$/.exec(stands.get("control")) || []).slice(1).map((format) => ["format", format, css]),
      ...one(stands, fresh, "reserve", "reserve"), ...one(stands, fresh, "confirmed", "confirmed"),
      ...under(stands, fresh, "signal ").map(([name, value, css2]) => [`signal ${name}`, value, css2])];
  };

  const regions = (stands, fresh) => ["A", "B"].flatMap((site) => [
    [`${site} ${data.applid[site]}`, stands.get(`job ${site}`), fresh.has(`job ${site}`) ? "new" : ""],
    ...one(stands, fresh, `item ${site}`, "  item"), ...one(stands, fresh, `notice ${site}`, "  notice")]);

  const show = () => {
    const stands = standing(now);
    const fresh = new Set(now > 0 ? data.acts[now - 1][4].map(([key]) => data.keys[key]) : []);
    at("line").textContent = now > 0 ? data.acts[now - 1][0] : `before the first of ${count} acts`;
    at("sentence").textContent = now > 0 ? data.sentences[data.acts[now - 1][1]] : "";
    at("standing").replaceChildren(
      ...table(`regions at tick ${stands.get("tick")}`, regions(stands, fresh)),
      ...table("control data set", control(stands, fresh)),
      ...table("file", under(stands, fresh, "file ")),
      ...table("units of work", under(stands, fresh, "unit ")),
      ...table("unit log: slot, record", log(stands, fresh)),
      ...table("keypoints", under(stands, fresh, "key ")),
      ...table("messages, by slot", under(stands, fresh, "msg ")),
      ...table("terminals of A", under(stands, fresh, "term A ")),
      ...table("terminals of B", under(stands, fresh, "term B ")));
    slider.value = String(now);
    if (marked) marked.classList.remove("on");
    marked = rowOf(now);
    if (marked) marked.classList.add("on");
  };

  const rows = new Map();
  for (const it of document.querySelectorAll("[data-k]")) rows.set(it.dataset.k, it.closest(".row"));
  const rowOf = (k) => rows.get(String(k)) || null;

  const go = (k, follow) => {
    now = Math.max(0, Math.min(count, k));
    show();
    history.replaceState(null, "", now > 0 ? `#act=${now}` : location.pathname + location.search);
    if (!follow) return;
    const [, , y, , , x] = now > 0 ? data.acts[now - 1] : [, , 0, , , 0];
    const seen = picture.scrollTop + 40 < y && y < picture.scrollTop + picture.clientHeight - 60;
    if (!seen) picture.scrollTop = y - picture.clientHeight / 2;
    const beside = picture.scrollLeft + 60 < x && x < picture.scrollLeft + picture.clientWidth - 60;
    if (!beside) picture.scrollLeft = x - picture.clientWidth / 2;
  };

  // The last act of the tick before, or the first of the next.
  const tick = (side) => {
    const tickOf = (k) => (k > 0 ? data.acts[k - 1][3] : 0);
    let k = now;
    while (k + side >= 0 && k + side <= count && tickOf(k) === tickOf(now)) k += side;
    go(k, true);
  };

  const keys = {
    ArrowRight: () => go(now + 1, true), ArrowLeft: () => go(now - 1, true), j: () => go(now + 1, true), k: () => go(now - 1, true),
    PageDown: () => tick(1), PageUp: () => tick(-1), Home: () => go(0, true), End: () => go(count, true),
  };
  document.addEventListener("keydown", (event) => {
    const call = keys[event.key];
    if (!call || event.ctrlKey || event.altKey || event.metaKey) return;
    event.preventDefault();
    call();
  });
  const press = (id, call) => at(id).addEventListener("click", call);
  press("first", keys.Home);
  press("tick-back", keys.PageUp);
  press("back", keys.ArrowLeft);
  press("on", keys.ArrowRight);
  press("tick-on", keys.PageDown);
  press("last", keys.End);
  press("theme", () => {
    const root = document.documentElement;
    const dark = root.dataset.theme ? root.dataset.theme === "dark" : matchMedia("(prefers-color-scheme: dark)").matches;
    root.dataset.theme = dark ? "light" : "dark";
  });
  slider.addEventListener("input", () => go(Number(slider.value), true));

  const actAt = (event) => {
    const found = event.target.closest ? event.target.closest("[data-k]") : null;
    return found ? Number(found.dataset.k) : 0;
  };
  picture.addEventListener("click", (event) => {
    const k = actAt(event);
    if (k > 0) go(k, false);
  });
  picture.addEventListener("mousemove", (event) => {
    const k = actAt(event);
    hover.hidden = k === 0;
    if (k === 0) return;
    const [line, sentence] = data.acts[k - 1];
    hover.firstChild.textContent = line;
    hover.lastChild.textContent = data.sentences[sentence];
    const box = hover.getBoundingClientRect();
    hover.style.left = `${Math.max(4, Math.min(event.clientX + 14, innerWidth - box.width - 8))}px`;
    hover.style.top = `${event.clientY + 18 + box.height < innerHeight ? event.clientY + 18 : event.clientY - box.height - 10}px`;
  });
  picture.addEventListener("mouseleave", () => { hover.hidden = true; });

  const asked = /^#act=(\d+)$/.exec(location.hash);
  go(asked ? Number(asked[1]) : 0, Boolean(asked));
})();
