// Prints names, the oldest first, a page at a time. usage: node oldest.mjs DUMP SIZE
import { spawn } from "node:child_process";
import { createInterface } from "node:readline";
const session = spawn("bsonfind", ["serve", process.argv[2]], { stdio: ["pipe", "pipe", "inherit"] });
const replies = createInterface({ input: session.stdout })[Symbol.asyncIterator]();
session.stdin.on("error", () => {});
async function ask(command) {
  session.stdin.write(JSON.stringify(command) + "\n");
  const reply = JSON.parse((await replies.next()).value ?? '{"text":"the session has ended"}');
  return reply.ok ? reply : (console.error(`oldest.mjs: ${reply.text}`), process.exit(1));
}
const { cursor } = await ask({ find: { age: { $gte: 97 } }, sort: { age: -1, name: 1 } });
for (let page = {}; !page.end; console.log(...page.documents.map((it) => it.name)))
  page = await ask({ getMore: cursor, batch: Number(process.argv[3]) });
session.stdin.end();
