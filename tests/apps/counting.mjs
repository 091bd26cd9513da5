// Looks are counted: each has a name, and fails by what it throws. The last line is `N passed, N failed`.
let passed = 0;
let failed = 0;

export async function look(name, what) {
  try {
    await what();
    passed++;
  } catch (fault) {
    failed++;
    console.log(`FAILED ${name}: ${fault.message}`.slice(0, 800));
  }
}
export function done() {
  console.log(`${passed} passed, ${failed} failed`);
  process.exitCode = failed ? 1 : 0;
}
