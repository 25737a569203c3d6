"use strict";
// Goes through a run that is given as data: what each call changed of what was shown before it. Nothing here knows a rule of the
// bench; what is drawn is what the data says.
(() => {
  const byId = (id) => document.getElementById(id);
  addEventListener("error", (event) => {
    byId("trouble").hidden = false;
    byId("trouble").textContent = "This page's script has failed: " + event.message;
  });

  const data = JSON.parse(byId("data").textContent);
  const [LINE, CALL, ANSWER, SAID, TONE, CHANGES, CROSSED] = [0, 1, 2, 3, 4, 5, 6];
  const LETTERS = "ABCDEFGH";
  const COLOURS = ["#2f7fd1", "#c2418c", "#2a9d6a", "#8a63d2", "#c77700", "#1f9bb0", "#b0483a", "#6b8e23"];
  const calls = data.calls;
  let at = 0; // behind so many calls
  let state = new Map();

  // ---- the state behind a call

  const apply = (call) => {
    for (const [name, part] of Object.entries(call[CHANGES])) {
      if (part === null) state.delete(name);
      else state.set(name, part);
    }
  };

  const goTo = (place) => {
    const wanted = Math.max(0, Math.min(calls.length, place));
    if (wanted < at) {
      state = new Map();
      at = 0;
    }
    while (at < wanted) apply(calls[at++]);
    show();
  };

  // ---- which rows there are: those that any call of the run fills, so that nothing jumps about

  const numbersOf = (name) => name.slice(1).split(".").map(Number);

  const collect = () => {
    const rows = new Map();
    const ends = new Set();
    let boards = 0;
    for (const call of calls) {
      for (const [name, part] of Object.entries(call[CHANGES])) {
        if (name === "n") boards = Math.max(boards, part || 0);
        if (part === null || !"lpeur".includes(name[0])) continue;
        const [slot] = numbersOf(name);
        if (!rows.has(slot)) rows.set(slot, new Set());
        rows.get(slot).add(name);
        if (name[0] === "l" && part[0]) ends.add(slot + " " + part[0][0]);
      }
    }
    return { rows, ends, boards };
  };

  const ORDER = "lrpeu";
  const inOrder = (one, other) => {
    const kind = ORDER.indexOf(one[0]) - ORDER.indexOf(other[0]);
    const [a, b] = [numbersOf(one), numbersOf(other)];
    return kind || (a[1] || 0) - (b[1] || 0);
  };

  // ---- where boards stand: by how far they are from the first one, or in a square where that is too long

  const neighbours = (ends, slot) => [...ends].map((pair) => pair.split(" ").map(Number))
    .filter(([from]) => from === slot).map(([, to]) => to);

  const layers = (boards, ends) => {
    const found = [];
    const seen = new Set();
    for (let first = 0; first < boards; first++) {
      let layer = seen.has(first) ? [] : [first];
      for (let depth = 0; layer.length; depth++) {
        layer.forEach((slot) => seen.add(slot));
        found[depth] = (found[depth] || []).concat(layer);
        const next = new Set(layer.flatMap((slot) => neighbours(ends, slot)));
        layer = [...next].filter((slot) => !seen.has(slot)).sort((a, b) => a - b);
      }
    }
    return found;
  };

  const square = (boards) => {
    const width = Math.ceil(Math.sqrt(boards));
    return Array.from({ length: width }, (_, column) =>
      Array.from({ length: boards }, (_, slot) => slot).filter((slot) => slot % width === column));
  };

  const arranged = (boards, ends) => {
    const found = layers(boards, ends);
    const fits = found.length <= 4 && found.every((layer) => layer.length <= 4);
    return fits ? found : square(boards);
  };

  // ---- elements

  const element = (kind, className, text) => {
    const made = document.createElement(kind);
    if (className) made.className = className;
    if (text !== undefined) made.textContent = text;
    return made;
  };

  const nameOf = (slot) => data.boards[slot] || "board " + slot;

  const portName = (port) => {
    if (port < 8) return "in by " + LETTERS[port];
    return port < 12 ? "port " + port + ", from the tile" : "replies";
  };

  const rowName = (name) => {
    const [, index] = numbersOf(name);
    return {
      l: () => "link " + LETTERS[index],
      p: () => portName(index),
      e: () => (index === 255 ? "sink" : "channel-end " + index),
      u: () => "control unit",
      r: () => "",
    }[name[0]]();
  };

  const boardElement = (slot, names) => {
    const board = element("section", "board");
    board.dataset.slot = slot;
    const title = element("h3", "", nameOf(slot));
    if (nameOf(slot) !== "board " + slot) title.append(" ", element("small", "", "board " + slot));
    board.append(title, element("p", "settings"), element("ul", "directions"));
    for (const name of names) {
      const row = element("div", "row");
      row.dataset.name = name;
      board.append(row);
    }
    return board;
  };

  const build = () => {
    const { rows, ends, boards } = collect();
    const columns = arranged(boards, ends);
    byId("boards").style.setProperty("--columns", Math.max(1, columns.length));
    byId("boards").className = columns.length > 2 ? "many" : "";
    const stacked = narrow.matches ? [columns.flat().sort((a, b) => a - b)] : columns;
    byId("boards").replaceChildren(...stacked.map((slots) => {
      const column = element("div", "column");
      for (const slot of slots) {
        column.append(boardElement(slot, [...(rows.get(slot) || [])].sort(inOrder)));
      }
      return column;
    }));
  };

  const buildList = () => {
    let line = -1;
    calls.forEach((call, index) => {
      if (call[LINE] !== line) {
        line = call[LINE];
        const [number, text] = data.lines[line];
        byId("list").append(element("li", "line", number + "  " + text));
      }
      const item = element("li");
      const button = element("button", call[TONE]);
      button.type = "button";
      button.append(element("code", "", call[CALL]), element("span", "", call[ANSWER]));
      button.addEventListener("click", () => goTo(index + 1));
      item.append(button);
      byId("list").append(item);
    });
    if (data.more) byId("list").append(element("li", "line", ".. and " + data.more + " calls more, which are not shown"));
  };

  // ---- showing

  const chips = (tokens) => {
    const held = element("span", "chips");
    tokens.slice(0, 16).forEach(([kind, text]) => held.append(element("span", "chip " + kind, text), " "));
    if (tokens.length > 16) held.append("+" + (tokens.length - 16));
    return held;
  };

  const say = (row, words) => {
    if (words) row.append(" ", element("span", "words", words));
  };

  const fill = {
    l: (row, [far, , , words, line]) => {
      if (far) row.append(" to " + nameOf(far[0]) + " " + LETTERS[far[1]]);
      if (line.length) row.append(" ", chips(line));
      say(row, words);
    },
    p: (row, [circuit, words, refused, tokens], name) => {
      const waits = state.get("w" + name.slice(1));
      row.append(" ", chips(tokens));
      say(row, waits || words);
      row.classList.toggle("refused", refused);
      row.classList.toggle("waiting", waits !== undefined);
      if (circuit !== null) row.style.borderLeftColor = COLOURS[circuit % COLOURS.length];
    },
    e: (row, [aim, circuits, tokens]) => {
      row.append(" ", chips(tokens));
      say(row, [aim, circuits].filter((words) => words).join(", "));
    },
    u: (row, words) => say(row, words),
    r: (row, words) => say(row, words),
  };

  const showRow = (row, changed) => {
    const name = row.dataset.name;
    const part = state.get(name);
    row.className = "row";
    row.style.borderLeftColor = "";
    row.replaceChildren(element("b", "", rowName(name)));
    row.classList.toggle("rest", part === undefined);
    row.hidden = part === undefined && rowName(name) === "";
    row.classList.toggle("lit", changed.has(name) || changed.has("w" + name.slice(1)));
    if (part !== undefined) fill[name[0]](row, part, name);
  };

  const widths = () => new Set([...state].filter(([name]) => name[0] === "b").map(([, part]) => part[1]));

  const showBoard = (board, changed, disagree) => {
    const slot = board.dataset.slot;
    const part = state.get("b" + slot);
    board.classList.toggle("absent", part === undefined);
    if (part === undefined) return;
    const [number, width] = part;
    board.classList.toggle("one", disagree && width === 1);
    const settings = board.querySelector(".settings");
    settings.textContent = "number " + number + ", " + (width === 1 ? "one-byte headers" : "three-byte headers");
    settings.classList.toggle("lit", changed.has("b" + slot));
    const directions = board.querySelector(".directions");
    directions.replaceChildren(...(state.get("d" + slot) || []).map((words) => element("li", "", words)));
    directions.classList.toggle("lit", changed.has("d" + slot));
    board.querySelectorAll(".row").forEach((row) => showRow(row, changed));
  };

  const showWaits = () => {
    const names = [...state.keys()].filter((name) => name[0] === "w");
    const places = names.map(numbersOf).sort(([a, b], [c, d]) => a - c || b - d);
    const waits = places.map(([slot, port]) => {
      const words = state.get("w" + slot + "." + port);
      return element("li", "", nameOf(slot) + ", " + portName(port) + ": " + words);
    });
    byId("waits").replaceChildren(...(waits.length ? waits : [element("li", "", "nothing")]));
  };

  const showNow = () => {
    const call = calls[at - 1];
    byId("now").className = call ? call[TONE] : "";
    byId("call").textContent = call ? call[CALL] + " \u2192 " + call[ANSWER] : "before the first call";
    byId("said").textContent = call ? call[SAID] : "Go on by the right arrow key, by the slider, or by a call of the list.";
    const line = call ? data.lines[call[LINE]] : data.lines[0];
    const note = line && line[2] !== null ? data.notes[line[2]] : [];
    byId("note").textContent = note.join(" ");
    byId("slider").value = at;
    byId("count").textContent = at + " of " + calls.length;
  };

  const showList = () => {
    const buttons = byId("list").querySelectorAll("button");
    byId("list").querySelectorAll(".now").forEach((button) => button.classList.remove("now"));
    const button = buttons[at - 1];
    if (!button) {
      byId("calls").scrollTop = 0;
      return;
    }
    button.classList.add("now");
    byId("calls").scrollTop = button.offsetTop - byId("calls").clientHeight / 2;
  };

  const show = () => {
    const changed = new Set(at ? Object.keys(calls[at - 1][CHANGES]) : []);
    const disagree = widths().size > 1;
    byId("boards").querySelectorAll(".board").forEach((board) => showBoard(board, changed, disagree));
    showNow();
    showList();
    showWaits();
    drawCables(changed);
    remember();
  };

  /* The page's address has the call, so that it can be sent to somebody. Some browsers allow only so many changes of it. */
  const remember = () => {
    try {
      history.replaceState(null, "", "#" + at);
    } catch {
      // It is a convenience.
    }
  };

  // ---- cables

  const SVG = "http://www.w3.org/2000/svg";
  const drawn = (kind, attributes) => {
    const made = document.createElementNS(SVG, kind);
    Object.entries(attributes).forEach(([name, value]) => made.setAttribute(name, value));
    return made;
  };

  /* Where a link's row stands on the stage. */
  const rowBox = (slot, link) => {
    const row = byId("boards").querySelector('[data-name="l' + slot + "." + link + '"]');
    if (!row) return null;
    const [box, board, stage] = [row, row.closest(".board"), byId("stage")].map((part) => part.getBoundingClientRect());
    return { left: board.left - stage.left, right: board.right - stage.left, y: box.top + box.height / 2 - stage.top };
  };

  /* A curve from the side of one board that looks at the other; on the right of both where they stand below each other. */
  const curve = (one, other, link) => {
    if (Math.abs(one.left - other.left) < 40) {
      const bulge = 14 + 6 * link;
      return [one.right, one.y, one.right + bulge, one.y, other.right + bulge, other.y, other.right, other.y];
    }
    const [from, to] = one.left < other.left ? [one.right, other.left] : [one.left, other.right];
    const half = (to - from) / 2;
    return [from, one.y, from + half, one.y, to - half, other.y, to, other.y];
  };

  const pathOf = ([a, b, c, d, e, f, g, h]) => "M" + a + " " + b + "C" + [c, d, e, f, g, h].join(" ");

  /* A circuit over a cable has its colour and an arrow at the end that it goes to. */
  const drawWay = (cables, points, slot, user) => {
    const port = user === null ? undefined : state.get("p" + slot + "." + user);
    if (!port || port[0] === null) return;
    const colour = COLOURS[port[0] % COLOURS.length];
    const way = drawn("path", { d: pathOf(points), class: "way" });
    way.style.stroke = colour;
    const [, , , , beforeX, , x, y] = points;
    const back = x > beforeX ? -11 : 11;
    const arrow = drawn("path", { d: "M" + x + " " + y + "l" + back + " -6v12z" });
    arrow.style.cssText = "fill:" + colour + ";stroke:none";
    cables.push(way, arrow);
  };

  const drawToken = (cables, [ax, ay, bx, by, cx, cy, dx, dy], text) => {
    const [x, y] = [(ax + 3 * bx + 3 * cx + dx) / 8, (ay + 3 * by + 3 * cy + dy) / 8];
    const width = 14 + 7 * text.length;
    const group = drawn("g", { class: "token" });
    group.append(drawn("rect", { x: x - width / 2, y: y - 9, width, height: 18, rx: 9 }));
    const label = drawn("text", { x, y: y + 4 });
    label.textContent = text;
    group.append(label);
    cables.push(group);
  };

  const drawCable = (cables, name, part, changed) => {
    const [slot, link] = numbersOf(name);
    const [far, enabled, user] = part;
    if (!far) return;
    const back = state.get("l" + far.join("."));
    const [one, other] = [rowBox(slot, link), rowBox(far[0], far[1])];
    if (!one || !other || !back) return;
    const isLower = slot < far[0] || (slot === far[0] && link < far[1]);
    const points = curve(one, other, isLower ? link : far[1]);
    if (isLower) {
      const [width, farWidth] = [slot, far[0]].map((board) => (state.get("b" + board) || [])[1]);
      const classes = (width === farWidth ? "" : "split ") + (enabled && back[1] ? "" : "off");
      cables.unshift(drawn("path", { d: pathOf(points), class: classes }));
    }
    const crossed = (at ? calls[at - 1][CROSSED] : []).filter(([from, by]) => from === slot && by === link);
    if (crossed.length || changed.has(name)) cables.push(drawn("path", { d: pathOf(points), class: "lit" }));
    drawWay(cables, points, slot, user);
    if (crossed.length) drawToken(cables, points, crossed.map(([, , [, text]]) => text).join(" "));
  };

  const drawCables = (changed) => {
    const cables = [];
    for (const [name, part] of state) {
      if (name[0] === "l") drawCable(cables, name, part, changed);
    }
    byId("cables").replaceChildren(...cables);
  };

  // ---- going through it

  const troubled = (call) => call[TONE] !== "plain";
  const nextTrouble = () => {
    const found = calls.findIndex((call, index) => index >= at && troubled(call));
    if (found >= 0) goTo(found + 1);
  };

  /* The end of another line of the script. */
  const lineEnd = (forward) => {
    const line = at ? calls[at - 1][LINE] : -1;
    const isEnd = (index) => index === calls.length - 1 || calls[index + 1][LINE] !== calls[index][LINE];
    const ends = calls.map((_, index) => index).filter(isEnd);
    if (forward) return (ends.find((index) => index >= at) ?? calls.length - 1) + 1;
    const before = ends.filter((index) => index + 1 < at && calls[index][LINE] !== line);
    return before.length ? before[before.length - 1] + 1 : 0;
  };

  let timer = null;
  const stop = () => {
    clearInterval(timer);
    timer = null;
    byId("play").textContent = "play";
  };
  const play = () => {
    if (timer) return stop();
    if (at === calls.length) goTo(0);
    byId("play").textContent = "stop";
    timer = setInterval(() => (at < calls.length ? goTo(at + 1) : stop()), 450);
  };

  const KEYS = {
    ArrowRight: () => goTo(at + 1),
    ArrowLeft: () => goTo(at - 1),
    PageDown: () => goTo(lineEnd(true)),
    PageUp: () => goTo(lineEnd(false)),
    Home: () => goTo(0),
    End: () => goTo(calls.length),
    r: nextTrouble,
    " ": play,
  };

  document.addEventListener("keydown", (event) => {
    const act = KEYS[event.key];
    const isButton = event.key === " " && event.target instanceof HTMLButtonElement;
    if (!act || isButton || event.ctrlKey || event.metaKey || event.altKey) return;
    event.preventDefault();
    act();
  });
  byId("first").addEventListener("click", KEYS.Home);
  byId("back").addEventListener("click", KEYS.ArrowLeft);
  byId("on").addEventListener("click", KEYS.ArrowRight);
  byId("last").addEventListener("click", KEYS.End);
  byId("play").addEventListener("click", play);
  byId("trouble-next").addEventListener("click", nextTrouble);
  byId("slider").addEventListener("input", (event) => goTo(Number(event.target.value)));
  addEventListener("hashchange", () => goTo(Number(location.hash.slice(1)) || 0));

  const narrow = matchMedia("(max-width: 640px)");
  narrow.addEventListener("change", () => {
    build();
    show();
  });
  addEventListener("resize", () => drawCables(new Set()));

  byId("slider").max = calls.length;
  build();
  buildList();
  goTo(Number(location.hash.slice(1)) || 0);
})();
