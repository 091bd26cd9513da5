// The lessons of docs/TEACHING.md: title, aim, questions with their answers, each at a place of its run, and what to
// remember. An answer may show a run, `fork`: at this choice, who goes instead; or the random orders, `tab`. With
// `votes` the class votes who is next.
export const LESSONS = {
  "lost-meeting": {
    title: "A meeting lost to a stray arrival",
    aim: "A phaser counts arrivals, and doesn\u2019t know who arrives.",
    last: "A phaser counts, so each arrival needs a registration.",
    steps: [
      {
        at: 1,
        ask: "Ann waits. Who should be next, and what will happen?",
        answer: "If Cem is next, the phase ends without Bob: the phaser only counts two arrivals.",
        votes: true
      },
      {
        at: 2,
        ask: "Whom does Ann believe to have met, and what does the phaser know?",
        answer: "She believes that she met Bob. The phaser only counted two arrivals, and phase 1 began."
      },
      {
        at: 7,
        ask: "Which phase does Bob wait for, and how many arrivals are missing?",
        answer: "He waits for the end of phase 1, and one is missing."
      },
      {
        at: 1,
        ask: "Choose a plan in which Cem arrives, and no thread waits at the end. Is the program right, then?",
        answer: "Let Bob go at 1: all threads end. At 0 with Cem first, and then Ann, Bob is stuck again. It only works by luck.",
        fork: [1, "t1"],
        votes: true
      },
      {
        at: 0,
        ask: "Let Cem call preg r0 meet before he arrives. Which plans lose the meeting now?",
        answer: "None. Write the row into the program, behind stray:, and try random orders.",
        tab: "orders"
      }
    ]
  },
  "broken-barrier": {
    title: "A barrier broken by an interrupt",
    aim: "An interrupt ends one wait, and the barrier then breaks for all.",
    last: "One interrupted thread breaks the meeting for all.",
    steps: [
      {
        at: 9,
        ask: "Why can Bob continue in choice 9, and not in choice 7?",
        answer: "The interrupt ends only Ann\u2019s wait. The barrier breaks at her next turn, in choice 8."
      },
      {
        at: 6,
        ask: "Can Bob continue now?",
        answer: "No: his name isn\u2019t among those who may go next. He continues before Ann if Cem arrives first."
      },
      {
        at: 6,
        ask: "What if Cem arrives between Eve\u2019s interrupt and Ann\u2019s next turn?",
        answer: "The barrier trips, and they put out 2, 1 and 0. Ann\u2019s interrupted status stays set.",
        fork: [6, "t2"],
        votes: true
      },
      {
        at: 0,
        ask: "What would the three get if Eve interrupted Cem before he arrived?",
        answer: "Write intr cem. Cem gets 3 when he calls await, and the others get 4."
      },
      {
        at: 9,
        ask: "Which call repairs the barrier, and what does it do to a waiting thread?",
        answer:
          "reset(), which is creset gate. The waiting thread gets BrokenBarrierException. " +
          "Later calls use the repaired barrier."
      }
    ]
  },
  "two-orders": {
    title: "Two phasers in different orders",
    aim: "Two meetings in different orders deadlock in every run. Two locks deadlock only in some runs.",
    last: "Meet in the same order everywhere, or arrive first and wait later.",
    steps: [
      {
        at: 0,
        ask: "Is there a plan with which this program ends?",
        answer:
          "No: each thread waits at its first phaser, and the other never arrives there. " +
          "Both runs end in the same state.",
        fork: [0, "t1"],
        votes: true
      },
      {
        at: 2,
        ask: "With two locks in different orders, some schedules end. What is the difference?",
        answer: "A lock may be free again before the second thread needs it. A meeting needs both threads."
      },
      {
        at: 0,
        ask: "Change as few rows as you can so that every schedule ends.",
        answer: "Swap the two rows of other, or of one.",
        tab: "orders"
      },
      {
        at: 0,
        ask:
          "Let Bob arrive at both and then wait (parr r1 right, paaa r0 left, pawait r0 right r1). " +
          "Does every schedule end now?",
        answer: "Yes: he arrives at right and doesn\u2019t wait there for Ann.",
        tab: "orders"
      }
    ]
  },
  "late-team": {
    title: "A team that joins late",
    aim: "When all parties of a child have arrived, it arrives once at its parent.",
    last: "Register before the others meet, or leave when you are done.",
    steps: [
      {
        at: 2,
        ask: "In choice 2 Bob arrives at red. Why does a phase of both end?",
        answer: "He is the last party of red, so red arrives at both. It is the only party there."
      },
      {
        at: 10,
        ask: "At which phaser is a party missing at the end, and who would have to arrive?",
        answer: "At both: Ann and Bob would have to arrive at red again."
      },
      {
        at: 1,
        ask:
          "Cem\u2019s preg returns 1. What does it return if he registers before Bob arrives, " +
          "and how does the run end?",
        answer: "It returns 0, and all threads end.",
        fork: [1, "t2"],
        votes: true
      },
      {
        at: 2,
        ask: "After which choice is it too late for Cem?",
        answer: "After choice 2: if he is next now, he is stuck.",
        fork: [2, "t2"]
      },
      {
        at: 0,
        ask: "Let Cem call pdereg r0 blue, arriveAndDeregister(), instead of paaa r0 blue. Is anybody stuck?",
        answer: "No: blue leaves both with its last party.",
        tab: "orders"
      }
    ]
  }
};

// The lesson of a program: its own, or the teacher's questions in it (`;?`), each at the choice that first plays its
// row.
export function lessonOf({ group, name }, program, run) {
  // a file of one's own may have any name
  if (group !== "Yours" && Object.hasOwn(LESSONS, name)) return LESSONS[name];
  const steps = program.questions.flatMap(one => {
    const at = run.events.findIndex(event => event.row === one.row);
    return at < 0 ? [] : [{ at, ask: one.text, answer: "Step on, and see.", next: true }];
  });
  return {
    title: program.title || name,
    aim: program.about || "Step through the run, and say before each step what it will do.",
    last: "Which order would end otherwise?",
    steps
  };
}
