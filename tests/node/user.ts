import { load, Refused, Session, Trace, NotATrace, type Vuthgal, type Line, type Look } from "vuthgal";
const vuthgal: Vuthgal = await load();
const trace: Trace = vuthgal.run(".thread a m\nm: halt\n", "t0");
const lines: readonly Line[] = trace.lines;
for (const line of trace) console.log(line.step, line.mark ?? "", line.what === "wait");
try {
  vuthgal.compare("", trace);
} catch (fault) {
  if (fault instanceof Refused) console.log(fault.line, fault.word, fault.help);
  else if (fault instanceof NotATrace) console.log(fault.before, fault.line);
  else throw fault;
}
const session: Session = vuthgal.session(new Uint8Array());
const look: Look = session.look();
const threads: number[] = look.threads.map((thread) => thread.registers[0] ?? 0);
for (const choice of vuthgal.plan("", "..")) console.log(choice.length);
console.log(lines.length, threads, session.enabled.turns.length, session.go("t0").why, [...session.state.cells]);
vuthgal.call("explain", ["?"]).status.toFixed();
const planned: number = session.playPlan("..", { most: 9 }).choices;
console.log(planned);
session.close();
