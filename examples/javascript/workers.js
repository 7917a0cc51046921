// A pool of two worker threads. Jobs run in them side by side; a reload of what they work with is alone, and jobs can't keep it out.
// The paths are in the thread that hands jobs out: each thread that imports the package has paths of its own.
import { once } from "node:events";
import { fileURLToPath } from "node:url";
import { isMainThread, parentPort, Worker } from "node:worker_threads";
import { Paths } from "wanzoche";

function work() {
  let factor = 1;
  parentPort.on("message", ({ reload, number }) => {
    factor = reload ?? factor;
    parentPort.postMessage(number === undefined ? "reloaded" : factor * number);
  });
}

async function handOut() {
  const paths = new Paths(`
    resource pool cell
    operation job, reload
    path { job : 2 } , reload end
    end
  `);
  const workers = [1, 2].map(() => new Worker(fileURLToPath(import.meta.url)));
  const idle = [...workers];
  const asked = async (worker, message) => {
    worker.postMessage(message);
    const [answer] = await once(worker, "message");
    return answer;
  };

  // A job that comes while a reload waits stands behind it.
  async function job(number) {
    const entry = await paths.enter("job");
    const worker = idle.pop(); // there is one, since two jobs run at most
    try {
      return await asked(worker, { number });
    } finally {
      idle.push(worker);
      entry.leave();
    }
  }

  const reload = factor => paths.run("reload", () => Promise.all(workers.map(it => asked(it, { reload: factor }))));

  const numbers = [1, 2, 3, 4, 5];
  const [before] = await Promise.all([Promise.all(numbers.map(job)), reload(10)]);
  const behind = await Promise.all(numbers.map(job));
  console.log(`${before.length} jobs around the reload, and ${behind} behind it; the journal is ${paths.audit()}`);
  await Promise.all(workers.map(it => it.terminate()));
}

if (isMainThread) await handOut();
else work();
