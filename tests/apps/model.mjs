// Looks at the app's rooms without a browser: runs, forks, moments, sentences, links and states, against the program
// and against what its documents say.
//   node tests/apps/model.mjs PROGRAM
import { spawnSync } from "node:child_process";
import { existsSync, mkdtempSync, readdirSync, readFileSync, rmSync, writeFileSync } from "node:fs";
import { tmpdir } from "node:os";
import assert from "node:assert/strict";
import { arrivalsOf, metOf } from "../../app/arrivals.js";
import { endKind, endText } from "../../app/ending.js";
import { lessonOf, LESSONS } from "../../app/lessons.js";
import { addressOf, linkOf, readLink, walkTo } from "../../app/link.js";
import { openSession, Refused, startMachine } from "../../app/machine.js";
import { mistakeOf } from "../../app/mistake.js";
import { javaText, plain } from "../../app/names.js";
import { outcomesOf } from "../../app/outcomes.js";
import { choicesOfPlan, MOST, planOf } from "../../app/plan.js";
import { questionsOf } from "../../app/questions.js";
import { arrivalsText, reasonOf, strayOf } from "../../app/reason.js";
import { closeTree, eventTo, forkRun, graftRun, lengthOf, momentOf, openProgram, plantTree } from "../../app/run.js";
import { choicesOf, scheduleOf } from "../../app/schedule.js";
import { refusedText, sentenceOf, wouldText } from "../../app/sentence.js";
import * as change from "../../app/state.js";
import { whyOf } from "../../app/why.js";
import { differenceOf } from "../../app/check.js";
import { itemOf, readProgramFile, runIn } from "../../app/file.js";
import { pageWith } from "../../web/page.mjs";
import { done, look } from "./counting.mjs";
import { programOf, randomOf } from "./programs.mjs";

const TOP = new URL("../../", import.meta.url);
const PROGRAM = process.argv[2];
const read = path => readFileSync(new URL(path, TOP), "utf8");
const filesIn = folder => readdirSync(new URL(folder, TOP)).filter(name => name.endsWith(".asm"));
const namesIn = folder => filesIn(folder).map(name => name.slice(0, -4));
await startMachine(readFileSync(new URL("web/vuthgal.wasm", TOP)));

const room = mkdtempSync(tmpdir() + "/model-");
process.on("exit", () => rmSync(room, { recursive: true }));

// What the program writes of a text and a plan in files: the words FILE and PLAN name them.
function program(words, text, plan = "") {
  writeFileSync(room + "/program.txt", text);
  writeFileSync(room + "/plan.txt", plan);
  const named = words.map(word => ({ FILE: room + "/program.txt", PLAN: room + "/plan.txt" })[word] || word);
  const told = spawnSync(PROGRAM, named, { encoding: "utf8", maxBuffer: 1 << 28 });
  return { status: told.status, output: told.stdout, line: told.stderr };
}
const bothOf = (text, choices) => text + "\n.run\n" + scheduleOf(choices) + "\n";
const played = (text, choices) => program(["run", "FILE"], bothOf(text, choices)).output;
// one session at a time: that of the tree before is closed, and opens again if it is asked
let before = null;
function treeOf(text, plan = "..") {
  closeTree(before);
  before = plantTree(openProgram(text), choicesOfPlan(text, plan).choices);
  return before;
}
const lesson = name => (
  { text: read(`examples/lessons/${name}.asm`), plan: read(`examples/lessons/${name}.schedule`) }
);
const at = (tree, run, i) => momentOf(tree, run.id, i);

// the run's lines and its end, as the program plays its choices
function sameRun(tree, run, text) {
  const lines = played(text, run.choices).trimEnd().split("\n");
  const cut = lines.findIndex(line => line.startsWith("state "));
  assert.equal(cut, lengthOf(run), "another count of choices");
  lines.slice(0, cut).forEach((line, k) => {
    const event = run.events.at(k);
    assert.ok(line.startsWith(`${k + 1} ${event.token} `), line);
  });
  assert.ok(lines[cut].endsWith(run.end.word), `${lines[cut]} isn't ${run.end.word}`);
}
// the state of a moment, as the program has it
function sameMoment(tree, run, i, text) {
  const told = played(text, run.choices.slice(0, i));
  const state = told.slice(told.startsWith("state ") ? 0 : told.indexOf("\nstate ") + 1);
  const moment = at(tree, run, i);
  assert.equal("state" + moment.state.key, state.replace(/^state \d+ \d+/, "state"), `at ${i}`);
}
// what each choice would do in a moment, as the program does it
function sameNext(tree, run, i, text) {
  const moment = at(tree, run, i);
  const before = run.choices.slice(0, i);
  moment.state.threads.forEach((_, t) => {
    const [line] = played(text, [...before, "t" + t]).split("\n").slice(i);
    const what = line.split(" ")[3];
    assert.equal(Boolean(moment.next[t]), !/^(idle|none|limit)$/.test(what), `t${t} at ${i}: ${line}`);
    if (moment.next[t]) assert.equal(moment.next[t].what, what);
  });
}

// ---- runs, moments and forks
for (const folder of ["examples/lessons/", "examples/"]) {
  for (const name of namesIn(folder)) {
    const text = read(folder + name + ".asm");
    const plan = read(folder + name + ".schedule");
    await look(`the run of ${name}`, () => {
      const tree = treeOf(text, plan);
      sameRun(tree, tree.runs[0], text);
      for (let i = 0; i <= lengthOf(tree.runs[0]); i++) sameMoment(tree, tree.runs[0], i, text);
      sameNext(tree, tree.runs[0], Math.min(3, lengthOf(tree.runs[0])), text);
    });
  }
}
// a fork at a moment drawn by chance, of a choice that isn't the run's own
function forkByChance(tree, run, random) {
  for (let tries = 0; tries < 30; tries++) {
    const i = random(lengthOf(run) + 1);
    const moment = at(tree, run, i);
    const all = [...Object.values(moment.next), ...Object.values(moment.late)].map(event => event.token);
    const token = all.length ? all[random(all.length)] : "";
    if (token && token !== run.choices[i]) return forkRun(tree, run.id, i, token);
  }
  return null;
}
for (const name of Object.keys(LESSONS)) {
  await look(`forks four deep of ${name}`, () => {
    const { text, plan } = lesson(name);
    for (let seed = 1; seed <= 5; seed++) {
      let tree = treeOf(text, plan);
      let run = tree.runs[0];
      for (let depth = 0; depth < 4; depth++) {
        const forked = forkByChance(tree, run, randomOf(seed * 10 + depth));
        if (!forked) break;
        const kept = tree.runs.length;
        assert.ok(forked.tree !== tree || tree.runs.includes(forked.run), "a tree was changed");
        assert.equal(tree.runs.length, kept, "a tree was changed");
        ({ tree, run } = forked);
        sameRun(tree, run, text);
        sameMoment(tree, run, lengthOf(run), text);
        const again = walkTo(treeOf(text, plan), addressOf(tree, run, 3));
        assert.deepEqual(again.run.choices, run.choices, "its address leads elsewhere");
      }
    }
  });
}
await look("the rule of other runs is the library's", () => {
  let count = 0;
  for (const name of Object.keys(LESSONS)) {
    const { text, plan } = lesson(name);
    const tree = treeOf(text, plan);
    const [run] = tree.runs;
    const session = openSession(text);
    for (let i = 0; i <= lengthOf(run); i++) {
      const { next, late } = at(tree, run, i);
      for (const { token, thread, isLate } of [...Object.values(next), ...Object.values(late)]) {
        if (token === run.choices[i]) continue;
        const told = session.other(thread, { expires: isLate, rest: scheduleOf(run.choices.slice(i)) });
        assert.deepEqual(forkRun(tree, 0, i, token).run.choices.slice(i), choicesOf(String(told)), `${name} at ${i}`);
        count++;
      }
      if (i < lengthOf(run)) session.go(run.choices[i]);
    }
    session.close();
  }
  assert.ok(count > 20, `only ${count} runs were compared`);
});

// ---- 300 random programs, with random clicks
for (let group = 0; group < 10; group++) {
  await look(`random programs ${group * 30 + 1} to ${group * 30 + 30}`, () => {
    for (let seed = group * 30 + 1; seed <= group * 30 + 30; seed++) {
      const text = programOf(seed);
      try {
        const random = randomOf(seed);
        let tree = treeOf(text, "?" + seed + "*200");
        let run = tree.runs[0];
        sameRun(tree, run, text);
        const forked = forkByChance(tree, run, random);
        if (forked) ({ tree, run } = forked);
        sameRun(tree, run, text);
        const i = random(lengthOf(run) + 1);
        sameMoment(tree, run, i, text);
        sameNext(tree, run, i, text);
      } catch (fault) {
        throw new Error(`program ${seed}: ${fault.message}\n${text}`);
      }
    }
  });
}

// ---- why: who could release a thread, and that nobody could
await look("who releases a thread was among those who could", () => {
  let count = 0;
  for (let seed = 1; seed <= 120; seed++) {
    const text = programOf(seed);
    const tree = treeOf(text, "?" + seed + "*120");
    const [run] = tree.runs;
    for (let i = 0; i < lengthOf(run); i++) {
      const [before, after] = [at(tree, run, i), at(tree, run, i + 1)];
      const { thread, what } = run.events.at(i);
      before.state.threads.forEach((one, t) => {
        if (t === thread || one.status !== "waits" || before.next[t] || !after.next[t] || what === "idle") return;
        const why = whyOf(tree.program, before, t);
        // one whose wait is over, and who throws at its turn, breaks a barrier; it stands among those who wait there
        const isOfWait = before.state.threads[thread].status === "waits";
        if (isOfWait) return;
        assert.ok(
          why.could.includes(thread),
          `program ${seed} at ${i}: t${thread} released t${t}, and wasn't told\n${text}`
        );
        count++;
      });
    }
  }
  assert.ok(count > 30, `only ${count} were released`);
});
await look("who waits for ever by the sentence is never released", () => {
  let count = 0;
  for (let seed = 1; seed <= 120; seed++) {
    const text = programOf(seed);
    const tree = treeOf(text, "?" + seed + "*120");
    const [run] = tree.runs;
    for (let i = 0; i < lengthOf(run); i++) {
      const moment = at(tree, run, i);
      moment.state.threads.forEach((one, t) => {
        if (one.status !== "waits" || whyOf(tree.program, moment, t).kind !== "stuck") return;
        count++;
        for (let order = 1; order <= 5; order++) {
          const before = scheduleOf(run.choices.slice(0, i));
          const end = treeOf(text, before + " ?" + order + "*200").runs[0].end.threads[t];
          assert.ok(
            end.status === "waits" && end.row === one.row,
            `program ${seed} at ${i}: t${t} was released\n${text}`
          );
        }
      });
    }
  }
  assert.ok(count > 30, `only ${count} waited for ever`);
});
await look("the lost meeting, sentence by sentence", () => {
  const { text, plan } = lesson("lost-meeting");
  const tree = treeOf(text, plan);
  const [run] = tree.runs;
  const why = (i, t) => plain(tree.program, whyOf(tree.program, at(tree, run, i), t).text);
  assert.equal(
    why(1, 0),
    "ann waits at meet for the end of phase 0: one arrival is missing. " +
      "What could release it is still ahead of bob (meet.arriveAndAwaitAdvance()) and cem (meet.arrive())."
  );
  const stuck = "bob waits at meet for the end of phase 1: one arrival is missing. Nobody is left who could";
  assert.ok(why(8, 1).startsWith(stuck), why(8, 1));
  assert.equal(reasonOf(tree, 0, 2), "0 is the phase in which it arrived.");
  assert.match(reasonOf(tree, 0, 4), /^1 is the phase of meet now/);
  const said = plain(tree.program, sentenceOf(tree.program, run.events.at(1), at(tree, run, 1), at(tree, run, 2)));
  assert.equal(said, "cem calls meet.arrive(), which returns 0. Phase 0 of meet ends, phase 1 begins.");
  const stray = plain(tree.program, arrivalsText(tree, run, 2, 0));
  assert.match(stray, /ann and cem.*If one of them was surplus, nobody can know which\.$/);
  assert.deepEqual(arrivalsOf(tree, 0, 8).arrived[0].map(one => one.thread), [1]);
});
await look("who met is who arrived, as many as the machine counts", () => {
  const named = (name, schedule) => {
    const { text, plan } = lesson(name);
    const tree = treeOf(text, schedule || plan);
    const marks = [...tree.runs[0].events].flatMap((event, k) => (event.mark ? [[event.mark, k + 1]] : []));
    return marks.map(([mark, i]) => metOf(tree, 0, i, mark).map(t => tree.program.names.T[t]).join(" "));
  };
  assert.deepEqual(named("lost-meeting"), ["ann cem"]);
  assert.deepEqual(named("late-team"), ["ann bob"]);
  // one that was interrupted still counts until its turn
  assert.deepEqual(named("broken-barrier", "ann. bob. eve. cem. .."), ["ann bob cem"]);
  assert.deepEqual(named("broken-barrier"), [""]);
  let count = 0;
  for (let seed = 1; seed <= 120; seed++) {
    const text = programOf(seed);
    const tree = treeOf(text, "?" + seed + "*120");
    const { program: model, runs: [run] } = tree;
    for (let i = 0; i <= lengthOf(run); i++) {
      const { arrived, stand } = arrivalsOf(tree, 0, i);
      const { state } = at(tree, run, i);
      state.barriers.forEach((one, b) => {
        if (!one.isBroken) assert.equal(stand[b].length, one.waiting, `program ${seed} at ${i}\n${text}`);
      });
      state.phasers.forEach((one, p) => {
        // who leaves with its arrival isn't counted behind it
        const stay = arrived[p].filter(({ row }) => model.rows[row].word !== "pdereg");
        if (one.view < 0 || model.children[p].length) return;
        assert.equal(stay.length, one.arrived, `program ${seed} at ${i}, phaser ${p}\n${text}`);
        count++;
      });
    }
  }
  assert.ok(count > 1000, `only ${count} were compared`);
});
// what is said of a choice; `which` is its number, and who would be next where that is asked
function saidOf(tree, which) {
  const [number, who] = which.split(" ");
  const i = Number(number);
  const { program: model, runs: [run] } = tree;
  if (i > lengthOf(run)) return refusedText(run.refused, i);
  const after = at(tree, run, i);
  const t = who ? model.names.T.indexOf(who) : -1;
  if (who) return plain(model, wouldText(model, after.next[t] || after.late[t], after));
  const said = plain(model, sentenceOf(model, eventTo(run, i), at(tree, run, i - 1), after));
  return [said, reasonOf(tree, 0, i), strayOf(tree, 0, i)].filter(Boolean).join(" ");
}
// an example's text and its schedule
function example(name) {
  const paths = ["examples/", "examples/lessons/", "tests/apps/"].map(folder => folder + name);
  const path = paths.find(one => existsSync(new URL(one + ".asm", TOP)) || existsSync(new URL(one + ".txt", TOP)));
  if (existsSync(new URL(path + ".txt", TOP))) return readProgramFile(read(path + ".txt"));
  return { program: read(path + ".asm"), plan: read(path + ".schedule") };
}
await look("what is said of choices", () => {
  for (const line of read("tests/apps/said.txt").trimEnd().split("\n").slice(1)) {
    const [name, which, wanted] = line.split("\t");
    const { program: text, plan } = example(name);
    assert.equal(saidOf(treeOf(text, plan), which), wanted, `${name}, choice ${which}`);
  }
});
await look("each row in Java's words", () => {
  const { program: text } = example("every-row");
  const model = openProgram(text);
  const wanted = text.split("\n").filter(line => /^(\w+:)?\s+\w+ .*; /.test(line)).map(line => line.split("; ")[1]);
  assert.ok(wanted.length === model.rows.length && wanted.length > 41, wanted.length);
  wanted.forEach((java, k) => assert.equal(javaText(model, model.rows[k]), java));
});
await look("an exception's number is explained only where its row throws it", () => {
  const text = ".thread a m\nm: ldi r1 8\nthrow r1\n";
  const tree = treeOf(text, "a a");
  const said = plain(
    tree.program,
    sentenceOf(tree.program, tree.runs[0].events.at(1), at(tree, tree.runs[0], 1), at(tree, tree.runs[0], 2))
  );
  assert.doesNotMatch(said, /full/);
  assert.match(said, /throws 8/);
});

// ---- plans, endings, outcomes
await look("a run as a plan is the same run", () => {
  for (const name of Object.keys(LESSONS)) {
    const { text, plan } = lesson(name);
    const [run] = treeOf(text, plan).runs;
    const again = program(
      ["plan", "FILE", "PLAN"],
      text,
      planOf(openProgram(text), run.events, Infinity)
    ).output.trim();
    assert.deepEqual(choicesOf(again), run.choices, name);
  }
});
await look("a plan for ever is cut", () => {
  const text = ".thread a m\nm: jmp m\n";
  for (const plan of ["..", "?7", "(a)*1000000", "a*1000000", "t0*1000000000"]) {
    const { choices, isCut } = choicesOfPlan(text, plan);
    assert.equal(choices.length, MOST, plan);
    assert.ok(isCut, plan);
  }
});
await look("outcomes are told apart by what was put out", () => {
  const { text } = lesson("broken-barrier");
  const { all, tried } = outcomesOf(text, 100);
  assert.equal(all.reduce((sum, one) => sum + one.count, 0), tried);
  assert.ok(all.length > 2, `${all.length} outcomes`);
  assert.ok(all.every(one => endKind(one.end) === "ended"));
  const seeds = program(["plan", "FILE", "--seeds", "1..100"], text);
  assert.equal(seeds.status, 0);
});
await look("a run ends with one word", () => {
  const { text, plan } = lesson("lost-meeting");
  const { program: model, runs } = treeOf(text, plan);
  assert.equal(endText(model, runs[0].end), "stuck: bob waits for ever");
});

// ---- quiz
await look("no question gives its answer away", () => {
  for (const name of Object.keys(LESSONS)) {
    const { text, plan } = lesson(name);
    const tree = treeOf(text, plan);
    const outcomes = outcomesOf(text, 100).all;
    const questions = questionsOf(tree, tree.runs[0], outcomes);
    for (const one of questions) {
      assert.ok(one.options.length > 1, "a question with one answer");
      assert.ok(one.options.includes(one.right), "the right answer isn't offered");
      assert.equal(new Set(one.options).size, one.options.length);
      assert.ok(plain(tree.program, one.why()).length > 10);
    }
    const end = questions.find(one => one.leads === lengthOf(tree.runs[0]) && one.at === 0);
    if (end) assert.match(plain(tree.program, end.ask), /^The order is \S+/);
  }
});
await look("the teacher's own questions are asked once, in their order", () => {
  const text = lesson("lost-meeting").text.replace(/paaa r0 meet.*/, "paaa r0 meet ;? Whom does this thread meet?");
  const tree = treeOf(text, "ann. cem. ann. bob.");
  const own = questionsOf(tree, tree.runs[0], outcomesOf(text, 20).all).filter(one => one.own);
  assert.deepEqual(
    own.map(one => [plain(tree.program, one.ask), one.at, one.leads]),
    [["Whom does this thread meet?", 0, 1]]
  );
  assert.deepEqual(
    lessonOf({ group: "Yours", name: "mine" }, tree.program, tree.runs[0]).steps.map(one => one.ask),
    ["Whom does this thread meet?"]
  );
});
await look("lessons ask at choices that their runs have", () => {
  for (const [name, { steps }] of Object.entries(LESSONS)) {
    const { text, plan } = lesson(name);
    const tree = treeOf(text, plan);
    for (const step of steps) {
      assert.ok(step.at <= lengthOf(tree.runs[0]), `${name}: ${step.ask}`);
      if (step.fork) assert.ok(forkRun(tree, 0, ...step.fork).run.id > 0, `${name}: ${step.ask}`);
      if (step.votes) assert.ok(
        Object.keys(at(tree, tree.runs[0], step.at).next).length > 1,
        `${name}: no vote at ${step.at}`
      );
    }
  }
});

// ---- the state
const first = name => {
  const { text, plan } = lesson(name);
  return change.opened(change.firstState(), { group: "Lessons", name, title: name, program: text, plan }, "explore");
};
await look("a state is never changed", () => {
  const state = first("lost-meeting");
  const copy = { ...state };
  const next = change.forked(state, 1, "t1");
  assert.deepEqual(state, copy);
  assert.equal(next.tree.runs.length, 2);
  assert.equal(state.tree.runs.length, 1);
  assert.deepEqual(change.backToFork(next).at, 1);
});
await look("a challenge counts the class's own changes", () => {
  const begun = change.inMode(first("lost-meeting"), "challenge");
  assert.equal(change.challengeOf(begun), null);
  const stuck = change.withOrders(begun, outcomesOf(begun.text, 50));
  assert.deepEqual(change.challengeOf(stuck), { goal: "ended", tried: 50, changes: 0, isDone: false });
  const atEnd = change.at(stuck, 99);
  assert.equal(change.challengeOf(atEnd).isDone, false);
  const forked = change.at(change.forked(stuck, 1, "t1"), 99);
  assert.deepEqual(change.challengeOf(forked), { goal: "ended", tried: 50, changes: 1, isDone: true });
});
await look("a challenge that no order meets isn't offered", () => {
  // TEACHING: two-orders is stuck in every run
  const begun = change.inMode(first("two-orders"), "challenge");
  assert.equal(change.challengeOf(change.withOrders(begun, outcomesOf(begun.text, 50))).goal, "");
});
await look("an open question of a lesson hides what comes later, who may go, and why", () => {
  const begun = change.inMode(first("lost-meeting"), "lesson");
  const hiddenIn = state => [change.isLaterHidden(state), change.isPlanHidden(state), change.isVeiled(state)];
  assert.deepEqual(hiddenIn(begun), [true, true, false]);
  const asked = change.lessonStep(begun, 1);
  assert.deepEqual([change.isLaterHidden(asked), change.isVeiled(asked)], [true, true]);
  // those for whom the class votes have to be named
  assert.deepEqual([change.isNextHidden(asked), change.isNextHidden(change.lessonStep(asked, 1))], [false, true]);
  const told = change.lessonAnswer(asked);
  assert.deepEqual(hiddenIn(told), [false, false, false]);
  // what a vote led to is seen, and not yet how it goes on
  const tried = change.forked(asked, 1, "t1");
  assert.deepEqual(hiddenIn(tried), [true, true, false]);
  // a plan of the class's own is shown
  assert.equal(change.isPlanHidden(change.edited(asked, asked.text, "cem ..")), false);
  assert.equal(change.isVeiled(change.lessonStep(told, 1)), true);
  // back from an answer is its question, and then the one before
  const back = change.lessonStep(told, -1);
  assert.deepEqual([back.lesson.step, back.lesson.isOpen, change.lessonStep(back, -1).lesson.step], [0, false, -1]);
  // in explore all is shown, and the question stands where it stood
  const away = change.inMode(change.at(asked, 8), "explore");
  assert.deepEqual([change.isLaterHidden(away), change.inMode(away, "lesson").at], [false, 1]);
});
await look("a choice that is made isn't tried any more", () => {
  const tried = { ...first("lost-meeting"), preview: "t1" };
  for (const next of [change.forked(tried, 0, "t1"), change.at(tried, 1)]) assert.equal(next.preview, "");
});
await look("an edit keeps a lesson's question and answer, and the run has an end", () => {
  let state = change.inMode(first("lost-meeting"), "lesson");
  for (let k = 0; k < 5; k++) state = change.lessonAnswer(change.lessonStep(state, 1));
  const text = state.text.replace("stray: ", "stray: preg r0 meet\n");
  const next = change.edited(state, text, state.plan);
  assert.deepEqual([next.lesson.step, next.lesson.isOpen, next.mode], [4, true, "lesson"]);
  assert.deepEqual([next.plan, endKind(change.runOf(next).end)], [state.plan + " ..", "ended"]);
  // a plan that is typed is played as it is, and one that was open stays so
  const typed = change.edited(state, text, "ann.");
  assert.deepEqual([typed.plan, endKind(change.runOf(typed).end)], ["ann.", "open"]);
  assert.equal(change.edited(typed, state.text, "ann.").plan, "ann.");
});
await look("an open question of a quiz can't be stepped over", () => {
  const begun = change.inMode(first("broken-barrier"), "quiz");
  assert.equal(change.at(begun, 99).at, 0);
  let state = change.withOrders(begun, outcomesOf(begun.text, 50));
  for (const question of state.quiz.list) {
    assert.deepEqual([change.at(state, 99).at, change.isNextHidden(state)], [question.at, true]);
    state = question.own ? change.shownOwn(state) : change.answered(state, question.right);
    assert.deepEqual([change.at(state, 99).at, change.isNextHidden(state)], [question.leads, false]);
    state = change.nextQuestion(state);
  }
  assert.deepEqual([change.isLaterHidden(state), change.at(state, 99).at], [false, lengthOf(change.runOf(state))]);
});
await look("another program over a lesson has its own plan, title and questions", () => {
  const state = change.lessonStep(change.inMode(first("lost-meeting"), "lesson"), 1);
  const text = ".phaser table 1\n.thread fay eats\neats: parr r0 table ;? What does fay get?\nhalt\n";
  const own = change.edited(state, text, state.plan);
  assert.deepEqual([own.mistake, own.plan, own.item.title], [null, "..", "My own program"]);
  assert.deepEqual(own.lesson.lesson.steps.map(one => one.ask), ["What does fay get?"]);
  // a plan that was typed stays; a row that is changed is no other program
  assert.equal(change.edited(state, text, "fay").plan, "fay");
  const changed = change.edited(state, state.text.replace("parr", "paaa"), state.plan);
  assert.deepEqual([changed.plan, changed.item.name], [state.plan, "lost-meeting"]);
  // a file may have a lesson's name
  const named = { group: "Yours", name: "lost-meeting", title: "mine.asm", program: text, plan: ".." };
  assert.deepEqual(change.opened(state, named, "lesson").lesson.lesson.steps.length, 1);
});
await look("what is refused keeps the run before, with help", () => {
  const state = first("lost-meeting");
  const text = state.text.replace("paaa r0 meet", "paaa r0, meet");
  const next = change.edited(state, text, state.plan);
  assert.equal(next.tree, state.tree);
  assert.match(next.mistake.helps, /commas/);
  const line = text.split("\n")[next.mistake.line - 1];
  assert.equal(line.slice(...next.mistake.word), "r0,");
  assert.equal(change.edited(next, state.text, state.plan).mistake, null);
  const plan = change.edited(state, state.text, "nobody.");
  assert.equal(plan.mistake.isProgram, false);
});
await look("start again restores program, plan and place", () => {
  const state = first("lost-meeting");
  const changed = change.edited(change.at(state, 4), state.text + "; more\n", "..");
  const again = change.opened(changed, changed.item, changed.mode);
  assert.deepEqual([again.text, again.plan, again.at, again.id], [state.text, state.plan, 0, 0]);
});
await look("a typed change keeps the place", () => {
  const state = change.at(change.forked(first("lost-meeting"), 1, "t1"), 3);
  const next = change.edited(state, state.text + "; a comment\n", state.plan);
  assert.deepEqual([next.id, next.at], [1, 3]);
});
await look("a run becomes the first", () => {
  const state = change.forked(first("lost-meeting"), 1, "t1");
  const next = change.madeFirst(state);
  assert.deepEqual(next.tree.runs[0].choices, change.runOf(state).choices);
  assert.equal(next.tree.runs.length, 1);
});
await look("a run of an outcome forks where it leaves the others", () => {
  const { text, plan } = lesson("lost-meeting");
  const tree = treeOf(text, plan);
  const choices = ["t1", ...tree.runs[0].choices];
  const { run } = graftRun(tree, choices);
  assert.deepEqual([run.parent, run.fork], [0, 0]);
});

// ---- mistakes, as the terminal tells them
const MISTAKES = [
  ["arriv r0 p", "arriv", "parr"],
  ["arriveAndAwaitAdvance r0 p", "arriveAndAwaitAdvance", "paaa"],
  ["register r0 p", "register", "preg"],
  ["paaa r9 p", "r9", ""],
  ["paaa r0 nobody", "nobody", ""],
  ["paaa r0 met", "met", "meet"],
  ["ldi r0 x", "x", ""]
];
for (const [row, word, near] of MISTAKES) {
  await look(`the word of ${row}`, () => {
    const text = ".phaser p 1\n.phaser meet 1\n.thread a m\nm: halt\n" + row + "\n";
    try {
      openProgram(text);
    } catch (fault) {
      assert.ok(fault instanceof Refused);
      const mistake = mistakeOf(fault, text, "..");
      assert.equal(text.split("\n")[mistake.line - 1].slice(...mistake.word), word);
      assert.equal(mistake.near, near);
      return;
    }
    throw new Error("it was accepted");
  });
}

// ---- links and files
await look("a link holds program, plan, place and mode", async () => {
  const { text, plan } = lesson("lost-meeting");
  const hash = await linkOf({ text, plan, name: "lost-meeting", address: "2t1.9", mode: "challenge" });
  assert.deepEqual(await readLink(hash), { text, plan, name: "lost-meeting", address: "2t1.9", mode: "challenge" });
  assert.deepEqual(await readLink("#2t1.9"), { address: "2t1.9" });
  assert.deepEqual(await readLink("#7"), { address: "7" });
  assert.equal(await readLink(""), null);
});
await look("8 KB of program fit into a link", async () => {
  const random = randomOf(5);
  const text = Array.from({ length: 800 }, () => "ldi r" + random(8) + " " + random(100000)).join("\n");
  assert.ok(text.length > 8192);
  const hash = await linkOf({ text, plan: "..", name: "long", address: "0", mode: "explore" });
  assert.equal((await readLink(hash)).text, text);
  assert.ok(hash.length < 60000, `${hash.length}`);
});
for (
  const hash of [
    "#x",
    "#e/0/AAAA",
    "#e/0/",
    "#q/<b>/abc",
    "#e/1t1/x",
    "#e/0/!!!!",
    "#__proto__/0/x",
    "#constructor/0/" + (await linkOf({ text: "", plan: "", name: "", address: "0", mode: "explore" })).split("/")[2],
    "#e/99999999999999999999/x"
  ]
) {
  await look(`a broken link ${hash} is told`, () => assert.rejects(readLink(hash)));
}
await look("a link that holds a text without end is refused", async () => {
  const hash = await linkOf(
    { text: "; ".repeat(2000000), plan: "..", name: "x", address: "0", mode: "explore" }
  ).catch(() => "#e/0/");
  await assert.rejects(readLink(hash));
});
// A page's document, as a browser reads it.
function documentOf(page) {
  const signs = { "&amp;": "&", "&lt;": "<", "&gt;": ">", "&#13;": "\r" };
  const textIn = name => new RegExp(`<pre id="${name}">\\n?([^<]*)</pre>`).exec(page)[1];
  const textOf = name => textIn(name).replace(/&(amp|lt|gt|#13);/g, sign => signs[sign]);
  return { getElementById: name => ({ textContent: textOf(name) }) };
}
const EMPTY = "<p>$&</p>" + ["listing", "source", "schedule", "trace"].map(name => `<pre id="${name}"></pre>`).join("");
await look("a page with a run is read as it was written", () => {
  const texts = { listing: "halt\n", source: "; </pre><b> &lt; $&\n", schedule: "t0", trace: "\nx\n" };
  const run = runIn(documentOf(pageWith(EMPTY, texts)), "lost");
  assert.deepEqual(run, { name: "lost", ...texts });
  assert.equal(itemOf(run).schedule, "t0");
  assert.equal(runIn(documentOf(EMPTY), "lost"), null);
  const windows = pageWith(EMPTY, { ...texts, source: "halt ;\r\n" });
  assert.ok(windows.includes("halt ;&#13;\n"), windows);
  assert.equal(runIn(documentOf(windows), "").source, "halt ;\n");
});
await look("a page without a trace holds a plan", () => {
  const texts = { listing: "", source: "halt\n", schedule: "a. ..", trace: "" };
  const run = runIn(documentOf(pageWith(EMPTY, texts)), "mine");
  assert.deepEqual([itemOf(run).plan, itemOf(run).schedule], ["a. ..", undefined]);
});
await look("the first line is told in which two texts differ", () => {
  assert.equal(differenceOf("a\nb\n", "a\nb\n"), null);
  assert.deepEqual(differenceOf("a\nb\n", "a\nc\n"), { number: 2, there: "b", here: "c" });
  assert.deepEqual(differenceOf("a\n", "a\nb\n"), { number: 2, there: "", here: "b" });
  assert.deepEqual(differenceOf("", "a\n"), { number: 1, there: "", here: "a" });
  const long = "x".repeat(500);
  assert.match(differenceOf(long + "1\n", long + "2\n").there, /^\u2026x+1$/);
});
await look("a schedule in a page isn't a plan", () => {
  // a thread that is called as another one's number
  const text = ".thread t1 m\n.thread t0 m\nm: out r0\nhalt\n";
  const item = { ...itemOf({ name: "x", listing: "", source: text, schedule: "t0 t0", trace: "x" }) };
  const state = change.opened(change.firstState(), item, "explore");
  assert.deepEqual(change.runOf(state).choices, ["t0", "t0"]);
  const edited = change.edited(state, text + "; more\n", state.plan);
  assert.deepEqual(change.runOf(edited).choices, ["t0", "t0"]);
});
await look("an address without its run leads to the fork", () => {
  const { text, plan } = lesson("lost-meeting");
  const found = walkTo(treeOf(text, plan), "2t1.4x0.9");
  assert.deepEqual([found.run.id, found.at, found.isWhole], [1, 3, false]);
});
await look("far places of a long run are the program's", () => {
  const long = ".phaser p 2\n.thread a m\n.thread b m\nm: paaa r0 p\nadd r1 r1 r0\njmp m\n";
  const choices = choicesOf(program(["plan", "FILE", "PLAN"], long, "..*120000").output);
  const tree = plantTree(openProgram(long), choices);
  for (const i of [120000, 3, 60000, 49999, 50001, 119990, 50000, 0]) sameMoment(tree, tree.runs[0], i, long);
  closeTree(tree);
});
await look("a program's file may hold its schedule", () => {
  assert.deepEqual(readProgramFile("halt\n.run\nt0*2\n"), { program: "halt\n", plan: "t0*2" });
  assert.deepEqual(readProgramFile("halt\n"), { program: "halt\n", plan: ".." });
});

// ---- colours: contrast as WCAG 2.2 AA asks for
await look("text has a contrast of 4.5, marks one of 3", () => {
  const css = read("app/style/tokens.css");
  const blocks = [
    css.slice(css.indexOf(":root {"), css.indexOf("@media")),
    css.slice(css.indexOf(':root[data-theme="dark"]'))
  ];
  const light = hex => {
    const part = k => parseInt(hex.slice(1 + 2 * k, 3 + 2 * k), 16) / 255;
    const linear = [0, 1, 2].map(part).map(v => (v <= 0.03928 ? v / 12.92 : ((v + 0.055) / 1.055) ** 2.4));
    return 0.2126 * linear[0] + 0.7152 * linear[1] + 0.0722 * linear[2];
  };
  const mixed = (a, b, share) =>
    "#" + [1, 3, 5].map(
      k => Math.round(
        parseInt(a.slice(k, k + 2), 16) * share + parseInt(b.slice(k, k + 2), 16) * (1 - share)
      ).toString(16).padStart(2, "0")
    ).join("");
  for (const block of blocks) {
    const colours = Object.fromEntries([...block.matchAll(/--([a-z0-9-]+): (#[0-9a-f]{6});/g)].map(m => [m[1], m[2]]));
    const hues = [0, 1, 2, 3, 4, 5, 6, 7].map(n => colours["hue" + n]);
    const { paper, pane, ink, soft, later, red, go, now } = colours;
    const pairs = [
      [ink, pane],
      [ink, paper],
      [soft, pane],
      [soft, paper],
      [soft, colours.hover],
      [later, pane],
      [red, pane],
      [go, pane]
    ];
    pairs.push(
      [colours["now-ink"], now],
      [red, colours["red-soft"]],
      [go, colours["go-soft"]],
      [pane, red],
      [pane, go],
      [pane, ink]
    );
    for (const hue of hues) {
      pairs.push([hue, pane], [pane, hue], [hue, mixed(hue, pane, 0.09)], [mixed(hue, pane, 0.9), pane]);
      pairs.push([hue, mixed(now, pane, 0.62)]);
    }
    // what comes later is pale, also below the row of this choice
    const pale = Number(/--pale: (\d+)%/.exec(css)[1]) / 100;
    const marks = [...hues, red].flatMap(one => [[pane, one], [mixed(now, pane, 0.62), one]]);
    for (const [ground, one] of [...marks, [pane, go]]) {
      const [a, b] = [light(ground), light(mixed(one, pane, pale))].sort((x, y) => y - x);
      assert.ok((a + 0.05) / (b + 0.05) >= 3, `${one} on ${ground}`);
    }
    // beside a mistake the panes are gray, as the filter grayscale makes them
    const gray = hex => {
      const [r, g, b] = [1, 3, 5].map(k => parseInt(hex.slice(k, k + 2), 16));
      return "#" + Math.round(0.2126 * r + 0.7152 * g + 0.0722 * b).toString(16).padStart(2, "0").repeat(3);
    };
    for (const [text, ground] of [...pairs, ...pairs.map(pair => pair.map(gray))]) {
      const [a, b] = [light(text), light(ground)].sort((x, y) => y - x);
      const contrast = (a + 0.05) / (b + 0.05);
      assert.ok(contrast >= 4.5, `${text} on ${ground}: ${contrast.toFixed(2)}`);
    }
  }
});

done();
