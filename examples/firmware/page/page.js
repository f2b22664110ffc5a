"use strict";
const ERASED = 0, HELD = 1, TORN = 2, PROGRAM = 1, COPY = 2, ERASE = 3, MARK = 4, FAILED = 1, BEFORE = 2, INSIDE = 3, AFTER = 4;
const NAMES = ["", "program", "copy", "erase", "mark"], ENDS = ["", "failed", "cut before it began", "cut inside", "cut after it was done"];
const $ = (id) => document.getElementById(id);

function start({ instance: { exports: m } }) {
  const BLOCKS = m.blocks(), PAGES = m.pages(), ALL = BLOCKS * PAGES, WORDS = m.step_words(), IN_USE = BLOCKS - 1;
  let sectors, kinds, place, newest, acked, serial, begun, queue, trace, on, timer, counts, isCut, failing, told, last, otherPicture, chance = 1, inOrder, hasFailed = false;
  const any = (n) => { chance = (Math.imul(chance, 1664525) + 1013904223) >>> 0; return Math.floor(chance / 2 ** 32 * n); };

  /* ---- What the picture shows ---- */
  const cells = [], boxes = [];
  for (let b = 0; b < BLOCKS; b++) {
    const box = document.createElement("button");
    box.className = "block";
    box.onclick = () => failBlock(b);
    for (let p = 0; p < PAGES; p++) { cells.push(document.createElement("i")); box.append(cells[b * PAGES + p]); }
    box.append(document.createElement("b"));
    box.tabIndex = b ? -1 : 0;
    boxes.push(box);
    $("blocks").append(box);
  }
  /* By keyboard the blocks are one stop; the arrows go from one to the next. */
  $("blocks").onkeydown = (event) => {
    const b = boxes.indexOf(document.activeElement), columns = boxes.filter((box) => box.offsetTop === boxes[0].offsetTop).length;
    const to = b + ({ ArrowLeft: -1, ArrowRight: 1, ArrowUp: -columns, ArrowDown: columns }[event.key] ?? NaN);
    if (!boxes[to]) return;
    event.preventDefault();
    boxes[b].tabIndex = -1; boxes[to].tabIndex = 0; boxes[to].focus();
  };
  function say(text) {
    const lines = ($("log").textContent + text + "\n").split("\n");
    $("log").textContent = lines.slice(-300).join("\n");
    $("log").scrollTop = 1e9;
  }
  /* Sector `sector`'s newest version is in page `at`, or in none. */
  function put(sector, at) {
    if (place[sector] !== 0xffffffff) newest[place[sector]]--;
    place[sector] = at >>> 0;
    if (place[sector] !== 0xffffffff) newest[at]++;
  }
  const kindOf = (at) => kinds[at] === ERASED ? "erased" : kinds[at] === TORN ? "torn" : newest[at] ? "newest" : "older";
  /* What the device itself says; returns how many pages the picture had otherwise. */
  function look() {
    const pictured = cells.map((_, at) => kindOf(at)), its = new Uint8Array(m.memory.buffer, m.look(), ALL);
    kinds.set(its);
    const places = new Uint32Array(m.memory.buffer, m.look_up(), sectors);
    if (on) for (let s = 0; s < sectors; s++) put(s, places[s]);
    return pictured.filter((kind, at) => kind !== kindOf(at)).length;
  }
  function theory() {
    const a = (IN_USE - 1) * PAGES / sectors;
    let f = 0;
    for (let i = 0; i < 500; i++) f = Math.exp(-a * (1 - f));
    return 1 / (1 - f);
  }
  function draw() {
    for (let at = 0; at < ALL; at++) cells[at].className = kindOf(at) + (at === last ? " now" : "");
    let least = Infinity, most = 0, sum = 0;
    for (let b = 0; b < BLOCKS; b++) {
      if (on) told[b] = m.erases_of(b); /* a device without power tells nothing */
      const erases = told[b], isBad = m.is_block_bad(b), own = [0, 0, 0];
      for (let p = 0; p < PAGES; p++) own[kinds[b * PAGES + p]]++;
      boxes[b].className = "block" + (isBad ? " bad" : failing.has(b) ? " failing" : "");
      boxes[b].lastChild.textContent = isBad ? "bad" : erases;
      boxes[b].setAttribute("aria-label", `block ${b}: ${own[HELD]} pages held, ${own[TORN]} torn, ${own[ERASED]} erased, ${erases} erases${isBad ? ", bad" : ""}`);
      least = Math.min(least, erases); most = Math.max(most, erases); sum += erases;
    }
    const measured = counts.writes > 0 ? ((counts.writes + counts.copies) / counts.writes).toFixed(2) : "-";
    const rows = [["Programs for the host's writes and trims", counts.writes], ["Copies by collection", counts.copies], ["Erases", counts.erases],
      ["Write amplification since the device was new", measured],
      ["The same by theory, for uniform writes and large blocks", theory().toFixed(2)], ["Erases of a block: fewest, mean, most", `${least}, ${(sum / BLOCKS).toFixed(1)}, ${most}`],
      ["Power cuts", counts.cuts], ["Page reads of the last mount", counts.reads], ["Sectors found other than acknowledged", counts.other], ["Commands that NAND refuses", m.wrong_commands()]];
    $("counts").innerHTML = rows.map(([name, value]) => `<tr><td>${name}<td>${value}`).join("");
    $("state").className = on ? "" : "off";
    $("on").ariaDisabled = on; $("cut").ariaDisabled = !on;
    $("state").textContent = on ? (isCut ? "The power will go inside the command that you chose." : "The power is on.") : "The power is off: press Power on.";
    $("play").innerHTML = timer ? "<u>P</u>ause" : "<u>P</u>lay";
  }

  /* ---- Calls and their commands ---- */
  function take() {
    const at = m.step_list(), words = new Uint32Array(m.memory.buffer, at, m.step_count() * WORDS);
    for (let i = 0; i < words.length; i += WORDS) {
      const [kind, block, page, fromBlock, fromPage, first, count, ended] = words.slice(i, i + WORDS);
      queue.push({ kind, block, page, fromBlock, fromPage, first, count, ended });
    }
  }
  /* A call of the host: what was acknowledged is what a mount has to find. */
  function call(what, first, count) {
    begun = { first, count, serial: what === "write" ? ++serial : 0 };
    const code = what === "write" ? m.write(first, serial) : m.trim(first, count);
    take();
    if (m.gone()) return;
    if (code > 1) { say(`${what} ${first}: code ${code}`); return; }
    for (let s = first; s < first + count; s++) acked[s] = begun.serial;
    begun = null;
  }
  /* One command in the picture. */
  function show(step) {
    const at = step.block * PAGES + step.page, isPart = step.ended === INSIDE || step.ended === FAILED;
    last = step.ended === BEFORE ? -1 : at;
    if (step.kind === PROGRAM || step.kind === COPY) {
      if (step.ended !== BEFORE) kinds[at] = isPart ? TORN : HELD;
      for (let s = step.first; step.ended === 0 && s < step.first + step.count; s++) put(s, at);
      if (step.kind === PROGRAM) counts.writes++; else counts.copies++;
    } else if (step.kind === ERASE && step.ended !== BEFORE) {
      const its = new Uint8Array(m.memory.buffer, m.look(), ALL);
      for (let p = 0; p < PAGES; p++) kinds[step.block * PAGES + p] = isPart ? its[step.block * PAGES + p] : ERASED;
      counts.erases++;
    }
    if (step.ended) say(`${NAMES[step.kind]} of block ${step.block}${step.kind < ERASE ? `, page ${step.page}` : ""}: ${ENDS[step.ended]}`);
    if (step.kind === MARK) say(`block ${step.block} is marked bad`);
  }
  /* Once all commands of a call are shown, the picture is what the device says. After a failure the layer has mounted itself anew. */
  function settle(hadFailed) {
    if (queue.length) return;
    if (m.gone() && on) { on = false; isCut = false; counts.cuts++; m.power_off(); stop(); say("the power is gone"); }
    const other = look();
    if (!hadFailed) otherPicture += other;
  }
  function nextCall() {
    if (trace.length) { const [what, first, count] = trace.shift(); return call(what, first, count); }
    const load = $("load").value, fifth = Math.max(1, Math.floor(sectors / 5));
    if (load === "trims" && any(10) === 0) { const count = 1 + any(8); return call("trim", any(sectors - count), count); }
    if (load === "order") { inOrder = (inOrder + 1) % sectors; return call("write", inOrder, 1); }
    call("write", load === "hot" && any(5) ? any(fifth) : any(sectors), 1);
  }
  function step() {
    if (!queue.length) { if (!on) return; nextCall(); }
    const next = queue.shift();
    if (next) show(next);
    hasFailed ||= next?.ended === FAILED || next?.kind === MARK;
    settle(hasFailed);
    if (!queue.length) hasFailed = false;
  }

  /* ---- Power ---- */
  function powerOn() {
    if (on) return;
    while (queue.length) show(queue.shift());
    const code = m.power_on();
    on = code === 0;
    if (!on) { say(`the open returns ${code}`); return; }
    counts.reads = m.page_reads();
    let other = 0, isThere = false;
    for (let s = 0; s < sectors; s++) {
      const got = m.read_sector(s) >>> 0, isBegun = begun && s >= begun.first && s < begun.first + begun.count && got === begun.serial;
      if (got !== acked[s]) { if (isBegun) isThere = true; else other++; }
      acked[s] = got;
    }
    counts.other += other;
    if (counts.cuts) say(`mounted: ${other} of ${sectors} sectors other than acknowledged${begun ? `; the call that was cut off is ${isThere ? "there" : "not there"}` : ""}`);
    begun = null; last = -1;
    look();
  }
  function fresh() {
    stop();
    sectors = Number($("sectors").value);
    m.fresh(sectors, 1);
    kinds = new Uint8Array(ALL); newest = new Int32Array(ALL); place = new Uint32Array(sectors).fill(0xffffffff); acked = new Uint32Array(sectors);
    told = new Array(BLOCKS).fill(0);
    [serial, begun, queue, trace, on, isCut, failing, last, otherPicture, inOrder] = [0, null, [], [], false, false, new Set(), -1, 0, -1];
    counts = { writes: 0, copies: 0, erases: 0, cuts: 0, reads: 0, other: 0 };
    $("log").textContent = "A new device. Step makes its first command, and Play goes on by itself.\n";
    powerOn(); draw();
  }
  function cut() {
    if (!on || queue.length && m.gone()) return;
    m.cut(1, Number($("kind").value), Number($("how").value));
    isCut = true;
    draw();
  }
  function failBlock(b) { if (!m.is_block_bad(b)) { m.fail(b); failing.add(b); say(`each command that changes block ${b} fails from now on`); draw(); } }

  /* ---- A trace, and the clock ---- */
  function read(text) {
    const calls = [], faults = [];
    text.split("\n").forEach((line, i) => {
      const words = line.trim().toLowerCase().split(/[\s,]+/), isOfPlayer = /^\d+$/.test(words[0]);
      const [what, first, count] = isOfPlayer ? [words[1], words[2], "1"] : [words[0], words[1], words[0] === "trim" ? words[2] ?? "1" : "1"];
      if (!line.trim() || line.trim().startsWith("#")) return;
      if (isOfPlayer && (what === "read" || what === "meet")) return;
      if ((what !== "write" && what !== "trim") || !/^\d+$/.test(first ?? "") || !/^\d+$/.test(count) || !(Number(count) > 0)) { faults.push(`line ${i + 1} is no write or trim: ${line}`); return; }
      const at = Number(first) % sectors;
      calls.push([what, at, Math.min(Number(count), sectors - at)]);
    });
    return { calls, faults };
  }
  function paste() {
    const { calls, faults } = read($("trace").value);
    if (faults.length) { say(faults[0]); return; }
    trace = calls;
    say(`a trace of ${calls.length} calls`);
    if (!timer) play();
  }
  function stop() { clearInterval(timer); timer = 0; }
  function play() {
    if (timer) { stop(); draw(); return; }
    if (!on) powerOn();
    const speed = Number($("speed").value), hadTrace = trace.length > 0;
    timer = setInterval(() => {
      for (let i = 0; i < Math.max(1, 2 ** (speed - 5)) && (timer || queue.length); i++) step();
      if (!on || (hadTrace && !trace.length && !queue.length)) stop();
      draw();
    }, speed < 5 ? 1000 / 2 ** speed : 60);
    draw();
  }
  const keys = { s: "step", p: "play", n: "fresh", c: "cut", o: "on", t: "paste" };
  const done = { step: () => { step(); draw(); }, play, fresh, cut, on: () => { powerOn(); draw(); }, paste };
  for (const [id, it] of Object.entries(done)) $(id).onclick = it;
  $("speed").oninput = () => { if (timer) { stop(); play(); } };
  $("sectors").onchange = fresh;
  document.onkeydown = (event) => {
    if (event.ctrlKey || event.metaKey || event.altKey || /TEXTAREA|SELECT/.test(event.target.tagName) || !keys[event.key.toLowerCase()]) return;
    event.preventDefault();
    done[keys[event.key.toLowerCase()]]();
  };
  for (const of of [10, 25, 40]) {
    const count = Math.floor((IN_USE - 1) * PAGES / (1 + of / 100));
    $("sectors").innerHTML += `<option value="${count}"${of === 25 ? " selected" : ""}>${count} (${of} % over-provisioned)`;
  }

  /* ---- Behind #try the page tests itself ---- */
  function tryAll() {
    const kindsCut = [0, 0, 0, 0];
    let mounts = 0;
    $("load").value = "trims";
    for (let k = 0; k < 3000; k++) step();
    for (let k = 1; k <= 400; k++) {
      const kind = any(4), how = 2 + any(3);
      if (k % 150 === 0) failBlock(k / 150 * 5);
      m.cut(1 + any(kind === ERASE ? 2 : 20), kind, how);
      for (let n = 0; on && n < 20000; n++) step();
      kindsCut[kind]++;
      powerOn();
      mounts += on;
    }
    const bad = cells.filter((_, at) => at % PAGES === 0 && m.is_block_bad(at / PAGES)).length, faults = read("write 5\nwrite x\n0,trim,3,\n# no\ntrim 1 2").faults.join();
    trace = read("write 5\n0,write,6,01\ntrim 5 2").calls;
    while (trace.length || queue.length) step();
    draw();
    const traced = m.read_sector(5) === 0 && m.read_sector(6) === 0 ? "played" : "not played";
    $("result").textContent = `tried: ${counts.cuts} cuts (${kindsCut.join(", ")}), ${mounts} mounts, ${counts.other} sectors other than acknowledged, ${otherPicture} pages pictured otherwise,`
      + ` ${m.wrong_commands()} commands that NAND refuses, ${bad} bad blocks, trace ${traced}; ${faults}`;
    document.title = "tried";
  }
  fresh();
  if (location.hash === "#try") tryAll();
}

WebAssembly.instantiate(Uint8Array.from(atob(WASM), (c) => c.charCodeAt(0)), {}).then(start).catch((fault) => { $("result").textContent = `This browser can't run the page: ${fault}`; });
