// Runs the machine of docs/play.html over schedules: node agree.js PAGE WALKS. WALKS has, for each, the schedule, `--`, what it leaves, and `==`.
"use strict";
const fs = require("fs");
const page = fs.readFileSync(process.argv[2], "utf8");
const machine = /<script id="machine">([^]*?)<\/script>/.exec(page)[1];
const { trace } = new Function("module", `${machine}\nreturn module.exports;`)({});
let done = 0, differ = 0;
for (const walk of fs.readFileSync(process.argv[3], "utf8").split("==\n").slice(0, -1)) {
  const [schedule, left] = walk.split("--\n");
  const ours = trace(schedule);
  done++;
  if (ours !== left) {
    differ++;
    if (differ <= 3) console.log(`the page:\n${ours}the steps in C:\n${left}of\n${schedule}`);
  }
}
console.log(`${done} schedules by the page's machine: ${differ} differ`);
process.exit(differ ? 1 : 0);
