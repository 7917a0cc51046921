// Drives the page in headless Chromium: node browser_test.mjs PAGE PICTURES [SUBJECT ..]
// It opens the page from the disk, types, clicks, reads and measures, and writes pictures of several sizes and colours to a folder. Without
// subjects, all of tests/ are looked at. Times are printed, and decide nothing.
import { complaints, openPage, requests, size, start, stop } from "./tests/chromium.mjs";
import { counts, same, text } from "./tests/seen.mjs";

const SUBJECTS = ["typing", "taking_back", "cases", "moments", "places", "paths", "schedules", "journals", "files", "looks", "spoken",
  "speed"];
const [page, pictures, ...subjects] = process.argv.slice(2);

try {
  await start(page, pictures, () => counts.failed === 0);
  await size(1280, 1100);
  await openPage();
  console.log((await text("about")).split(". ")[0]);
  for (const subject of subjects.length ? subjects : SUBJECTS) {
    const { tests } = await import(`./tests/${subject}.mjs`);
    for (const test of tests) await test();
  }
  same("requests", requests.filter(it => !/^(file|about|blob|data):/.test(it)), []);
  same("complaints", complaints, []);
} catch (error) {
  counts.failed++;
  console.log(error.stack);
} finally {
  await stop();
}
console.log(`${counts.passed} passed, ${counts.failed} failed`);
process.exit(counts.failed ? 1 : 0);
