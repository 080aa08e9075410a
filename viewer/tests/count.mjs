// What is held, counted; what does not hold is printed.
let checks = 0;
let failed = 0;

export function same(what, got, want) {
    checks++;
    if (JSON.stringify(got) === JSON.stringify(want)) return;
    failed++;
    console.log(`FAILED: ${what}: ${JSON.stringify(got)}, and not ${JSON.stringify(want)}`);
}

export const holds = (what, truth) => same(what, Boolean(truth), true);

export function total() {
    console.log(`${checks} checks, ${failed} failed`);
    return failed === 0 ? 0 : 1;
}
