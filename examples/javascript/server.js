// A page that anybody may read at once, and that one writes alone. Whoever goes away while it waits gives its place up.
import http from "node:http";
import { once } from "node:events";
import { setTimeout as sleep } from "node:timers/promises";
import { Paths } from "wanzoche";

const paths = new Paths(`
  resource page cell
  operation read, write
  path { read } , write end
  end
`);
let text = "empty";

async function read() {
  return text;
}

async function write(request) {
  text = "";
  for await (const part of request) {
    text += part; // what is half written is read by nobody
    await sleep(5);
  }
  return "written";
}

const server = http.createServer(async (request, response) => {
  const gone = new AbortController();
  response.on("close", () => gone.abort());
  const [operation, work] = request.method === "PUT" ? ["write", write] : ["read", read];
  try {
    response.end(await paths.run(operation, () => work(request), { signal: gone.signal, timeout: 2000 }));
  } catch (error) {
    response.writeHead(error.name === "Timeout" ? 503 : 500).end(error.message);
  }
});

// Some callers, all at once.
server.listen(0);
await once(server, "listening");
const url = `http://localhost:${server.address().port}`;
const put = body => fetch(url, { method: "PUT", body });
const answers = await Promise.all([put("one"), fetch(url), put("two"), fetch(url), fetch(url)]);
const texts = await Promise.all(answers.map(it => it.text()));
const whole = texts.filter(it => ["empty", "one", "two"].includes(it));
console.log(`${texts.filter(it => it === "written").length} written, ${whole.length} read, each of them whole`);
console.log("the journal is", String(paths.audit()));
server.close();
server.closeAllConnections?.();
