// Drives docs/play.html as a user does, by clicks and keys: tools/test-play puts it behind the page. What fails is left in the element `faults`.
"use strict";
const faults = [];
const expect = (what, is) => { if (!is) faults.push(what); };
const button = (within, label) => [...within.querySelectorAll("button")].find(it => it.textContent == label);
const seat = i => document.getElementById("seats").children[i];
const says = () => document.getElementById("verdict").textContent;
const choose = (id, value) => { $(id).value = value; $(id).dispatchEvent(new Event("change")); };
const press = (code, more = {}) => document.body.dispatchEvent(new KeyboardEvent("keydown", { code, key: code.replace(/Key|Digit/, "").toLowerCase(), bubbles: true, ...more }));
const LABELS = { send: it => `send to band ${it.band}`, softirq: () => "soft interrupt", wake: () => "wake the queue", full: () => "band is full", stop: () => "device stops", hang: () => "device hangs", busy: () => "device busy" };

// every line of a schedule by clicks; false where a button isn't there
function click_through(text) {
  for (const it of read_schedule(text).moves) {
    const label = it.what == "step" ? (seat(it.seat).getAttribute("aria-label").endsWith("at xmit") ? "send it" : "step") : LABELS[it.what](it);
    const found = button(seat(it.seat), label);
    if (!found) return `seat ${it.seat} has no button ${label}`;
    found.click();
  }
  return "";
}
function history_by_clicks() {
  for (const [name, mistake] of [["second-try", "begin_gives_up_after_one_try"], ["release-then-look", "end_looks_before_it_releases"]]) {
    choose("mistake", "");
    $("reset").click();
    const missing = click_through(SCHEDULES[name]);
    expect(`${name}: ${missing}`, !missing);
    expect(`${name} on the right machine: ${says()}`, says().includes("Nothing is held, and all is quiet: 2 sent"));
    expect(`${name}: its schedule`, $("text").value == SCHEDULES[name].replace(/^#.*\n/gm, "").replace("1 step 1\n1 step 1\n1 step 18", "1 step 20").replace("0 step 1\n0 step 3\n0 softirq", "0 step 4\n0 softirq"));
    choose("mistake", mistake);
    $("finish").click();
    expect(`${name} with ${mistake}: ${says()}`, says().includes("Nobody comes: 1 packet held") && $("verdict").className.includes("bad"));
  }
}
function stories() {
  expect(`the first story is of the machine without MISSED: ${$("stories").textContent}`, $("stories").children.length == 5 && $("stories").textContent.startsWith("Why MISSED is there"));
  for (const [at, end] of [...Array(4).fill("Nobody comes: 1 packet held"), "go on for ever"].entries()) {
    $("stories").children[at].click();
    for (let k = 0; k < 20 && !$("next").disabled; k++) {
      $("next").click();
      expect("the first story sets no MISSED", at || $("bits").textContent.includes("MISSED 0"));
    }
    expect(`story ${at}: ${says()}`, says().includes(end));
    expect(`story ${at} has links`, $("story").querySelectorAll("a").length >= 1);
    $("close").click();
    expect(`story ${at} closes`, $("story").hidden);
  }
}
function keys() {
  choose("mistake", "");
  $("reset").click();
  press("Digit1"); press("Digit1"); press("Digit2");
  expect("keys: two transmits", $("text").value == "seats 2 len 8 bypass 0\n0 send 0\n0 step 1\n1 send 0\n");
  press("KeyU");
  expect("keys: undo", $("text").value == "seats 2 len 8 bypass 0\n0 send 0\n0 step 1\n");
  press("KeyY");
  expect("keys: redo", $("text").value.endsWith("1 send 0\n"));
  press("KeyF");
  expect(`keys: finish: ${says()}`, says().includes("all is quiet: 2 sent"));
  press("KeyR");
  expect("keys: reset", $("text").value == "seats 2 len 8 bypass 0\n");
  for (let k = 0; k < 8; k++) press("Digit1");
  press("Digit1", { shiftKey: true });
  expect("keys: the device stops", $("text").value.endsWith("0 stop\n"));
}
// what a new user met first
const at_top = text => { $("text").value = text; $("apply").click(); };
function words_at_the_mistake() {
  choose("mistake", "begin_gives_up_after_one_try");
  at_top("seats 2 len 4 bypass 0\n0 send 1\n0 step 4\n1 send 1\n1 step 5\n");
  const next = () => seat(1).querySelector(".next").textContent;
  expect(`the mistake's own words: ${next()}`, next().startsWith("next: gives up without a second try (the mistake)"));
  choose("mistake", "");
  expect(`the right machine's words: ${next()}`, next().startsWith("next: tries the run lock again") && !next().includes("mistake"));
}
function words_of_each_position() {
  for (const name of Object.keys(steps)) expect(`position ${name} has words`, POSITIONS[name] && POSITIONS[name][0]);
  at_top("seats 2 len 4 bypass 0\n0 send 1\n0 step 8\n0 busy\n");
  expect(`after busy: ${seat(0).textContent}`, seat(0).textContent.includes("next: sets MISSED behind the requeue") && !seat(0).textContent.includes("idle"));
}
function keys_in_menus() {
  for (const id of ["mistake", "count", "example", "bypass"]) {
    $("reset").click();
    $(id).focus();
    $(id).dispatchEvent(new Event("change", { bubbles: true }));
    const key = (code, key) => $(id).dispatchEvent(new KeyboardEvent("keydown", { code, key, bubbles: true, cancelable: true }));
    key("Digit1", "1"); key("Digit1", "1"); key("KeyU", "u");
    expect(`keys in ${id}: ${$("text").value}`, $("text").value.endsWith("bypass 0\n0 send 0\n"));
    key("Escape", "Escape");
    expect(`Escape leaves ${id}`, document.activeElement != $(id));
  }
}
// the words of a menu are as wide as the menu at most, beside its arrow
function menus() {
  const pen = document.createElement("canvas").getContext("2d");
  for (const menu of document.querySelectorAll("select")) {
    pen.font = getComputedStyle(menu).font;
    for (const it of menu.options) {
      const room = menu.getBoundingClientRect().width - 24, wide = pen.measureText(it.textContent).width;
      expect(`the menu ${menu.id} cuts "${it.textContent}": ${Math.round(wide)} of ${Math.round(room)}`, wide <= room);
    }
  }
}
function advice_of_a_story() {
  $("stories").children[1].click();
  while (!$("next").disabled) $("next").click();
  $("undo").click(); $("undo").click();
  choose("mistake", "");
  expect("the story stays open when the mistake is changed", !$("story").hidden && $("story").textContent.includes("Undo two steps"));
  for (let k = 0; k < 40 && seat(1).getAttribute("aria-label") != "Seat 1, at idle"; k++) seat(1).querySelector("button.main").click();
  expect(`the story's advice: ${says()}`, says().includes("Nothing is held, and all is quiet: 2 sent"));
  $("close").click();
}
function a_schedule_from_its_start() {
  choose("mistake", "");
  choose("example", "second-try");
  expect("a schedule begins at its start, and its name stays", $("start").disabled && $("text").value == "seats 2 len 4 bypass 0\n" && $("example").value == "second-try");
  expect(`a schedule is described: ${$("order").textContent}`, $("order").textContent.includes("is about to release; a sender comes") && button($("order"), "begin gives up after one try"));
  $("end").click();
  const whole = $("text").value;
  expect("its end", says().includes("all is quiet: 2 sent"));
  $("start").click();
  expect("to the start", $("text").value == "seats 2 len 4 bypass 0\n" && !$("redo").disabled);
  const line = [...$("log").querySelectorAll("button")].find(it => it.textContent.startsWith("  3 "));
  line.click();
  expect(`a click on the third line of the log: ${$("text").value}`, $("text").value == "seats 2 len 4 bypass 0\n0 send 1\n0 step 2\n");
  button(seat(0), "step").click();
  $("end").click();
  expect("a step that the schedule has, too, keeps the rest", $("text").value == whole);
  $("start").click();
  button($("order"), "begin gives up after one try").click();
  $("end").click();
  $("finish").click();
  expect(`with the mistake that fits: ${says()}`, says().includes("Nobody comes: 1 packet held"));
}
function wiped_moves() {
  choose("mistake", "");
  const moves = "seats 2 len 4 bypass 0\n0 send 1\n0 step 3\n";
  const wipes = { reset: () => $("reset").click(), count: () => choose("count", "3"), len: () => choose("len", "5"), bypass: () => { $("bypass").checked = true; $("bypass").dispatchEvent(new Event("change")); }, example: () => choose("example", "chase"), story: () => $("stories").children[0].click() };
  for (const [name, wipe] of Object.entries(wipes)) {
    at_top(moves);
    wipe();
    expect(`${name} says what it wipes: ${$("notice").textContent}`, $("notice").textContent.startsWith("4 moves are wiped."));
    $("undo").click();
    expect(`Undo brings back what ${name} wiped: ${$("text").value}`, $("text").value == moves);
  }
  $("close") && $("close").click();
  choose("len", "99999");
  expect(`slots: ${$("notice").textContent}`, $("notice").textContent.startsWith("Slots must be a whole number from 1 to 4096: 99999 became 4096."));
  choose("len", "abc");
  expect(`slots that are no number: ${$("notice").textContent}`, $("notice").textContent.startsWith("Slots must be a number from 1 to 4096: it stays 4096."));
  at_top(moves);
}
// the button of a seat stays where it is, whatever the texts say
function fixed_buttons() {
  if (innerWidth > 420) return;
  choose("mistake", "");
  at_top(SCHEDULES["second-try"]);
  const places = [new Set(), new Set()];
  for (const line of [...$("log").querySelectorAll("button")].map((_, k) => k)) {
    $("log").querySelectorAll("button")[line].click();
    places.forEach((it, i) => it.add(Math.round(seat(i).querySelector("button").getBoundingClientRect().top + scrollY)));
  }
  expect(`the buttons move: ${places.map(it => [...it])}`, places.every(it => it.size == 1));
}
function texts() {
  const before = ($("reset").click(), $("text").value);
  for (const [text, why] of [["seats 9 len 4 bypass 0\n", "line 1: the first line is"], ["seats 2 len 4 bypass 0\n0 jump\n", "line 2: a line is"], ["seats 2 len 4 bypass 0\n0 step 1\n", "line 2: seat 0 can't do that there"], ["seats 2 len 4 bypass 0\n2 wake\n", "line 2: there are the seats 0 to 1"], ["", "there is no first line"]]) {
    $("text").value = text;
    $("apply").click();
    expect(`a wrong text is refused: ${$("said").textContent}`, $("said").textContent.startsWith(why));
    show();
    expect("a refused text changes nothing", $("text").value == before);
  }
  $("text").value = "seats 3 len 2 bypass 1\n0 send 2\n0 step 3\n";
  $("apply").click();
  expect("a text is worked", $("seats").children.length == 3 && says().includes("gets the lock"));
  $("link").click();
  expect("a link has the schedule", location.hash.startsWith("#schedule=seats%203%20len%202%20bypass%201%0A"));
}
function accessible() {
  expect("every button has a text", [...document.querySelectorAll("button")].every(it => it.textContent.trim()));
  expect("what happens is said", $("verdict").getAttribute("aria-live") == "polite");
  expect("every field has a label", [...document.querySelectorAll("select, input, textarea")].every(it => it.labels.length));
  expect(`nothing is wider than the window: ${document.documentElement.scrollWidth} of ${innerWidth}`, document.documentElement.scrollWidth <= innerWidth);
}
try {
  if (location.hash.includes("mistake=none")) {
    expect(`an unknown mistake of a link: ${$("notice").textContent}`, $("notice").textContent.startsWith("The link names a mistake that the page doesn't have: none") && $("mistake").value === "");
    location.hash = "#schedule=seats%209";
    from_link();
    expect(`a wrong link: ${$("notice").textContent}`, $("notice").textContent.startsWith("The schedule of the link is refused: line 1: the first line is"));
  } else if (location.hash) expect(`a link is worked: ${$("text").value}`, $("text").value == "seats 2 len 4 bypass 0\n0 send 1\n0 step 14\n1 send 1\n1 step 4\n0 step 3\n1 step 3\n" && says().includes("Nobody comes"));
  else {
    if (innerWidth > 320) [history_by_clicks, stories, keys, words_at_the_mistake, words_of_each_position, keys_in_menus, advice_of_a_story, a_schedule_from_its_start, wiped_moves, texts].forEach(it => it());
    [fixed_buttons, menus, accessible].forEach(it => it());
  }
} catch (it) { faults.push(`${it.message} ${it.stack}`); }
document.body.append(make("pre", { id: "faults" }, JSON.stringify(faults)));
